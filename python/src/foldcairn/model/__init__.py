"""What is run: a scenario with its events, how it is read from texts and tables, and what is wrong or doubtful with it.

`lines` and `faults` need Python's standard library alone, and so does importing this package. Tested, not proved.
"""
