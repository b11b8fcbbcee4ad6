"""Pages of runs, samples and plans as HTML that stands alone, tables as files, captures for Wireshark, and what notebooks show. Tested, not proved."""
