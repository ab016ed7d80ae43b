"""Works out what an example prints without btreplay: from the recording's bytes, by a few lines of Python for each question."""
