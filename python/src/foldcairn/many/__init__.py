"""Many runs: sweeps, seeds and what is counted over them, executors, and the answers that need them. Tested, not proved."""
