"""How scenarios are run: the programs, what they write as tables, losses by reception ratios, and what is kept of them. Tested, not proved."""
