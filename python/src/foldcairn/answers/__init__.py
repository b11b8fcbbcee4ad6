"""What a run, or a network by proof, says to a planner: each answer is a function of a log or a report, that gives a table. Tested, not proved."""
