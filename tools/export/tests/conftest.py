"""The modules of the exporter are imported by their names, as its command has them."""

import pathlib
import sys

sys.path.insert(0, str(pathlib.Path(__file__).resolve().parent.parent))
