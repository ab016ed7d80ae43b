"""btreplay's command: finds or builds the program, runs it, and tells what a user would want to know beside its own words."""
