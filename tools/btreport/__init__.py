"""btreport's command: asks a recording some questions by the program, and draws what it printed as one page of HTML."""
