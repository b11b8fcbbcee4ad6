"""Pictures of scenarios and runs, by matplotlib. Tested, not proved."""
