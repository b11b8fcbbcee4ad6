"""The commands of `python3 -m foldcairn`. Tested, not proved."""
