#!/usr/bin/env python3
"""Writes the network text of docs/PLANNING.md, by the code of that page: 25 nodes over 30 minutes, with a host that goes off.

Usage: planning.py. It needs the modules of the Python package. For bench/plan.sh. Tested, not proved.
"""

import re
import sys
from pathlib import Path

TOP = Path(__file__).resolve().parent.parent


def main() -> None:
    sys.path.insert(0, str(TOP / "python" / "src"))
    page = (TOP / "docs" / "PLANNING.md").read_text(encoding="utf-8")
    made: dict = {}
    for block in re.findall(r"```python\n(.*?)```", page, re.DOTALL):
        if "network = build" in block:
            exec(block, made)
            break
    network = made["network"]
    print(network.text(warn=False), end="")
    print("ratios")
    for (sender, receiver), ratio in sorted(network.prr.items()):
        print("ratio 0", sender, receiver, round(1_000_000 * ratio))


main()
