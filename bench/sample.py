#!/usr/bin/env python3
"""Times the package on a network text: a sample of a thousand seeds, and the ranking of all links and nodes with 20 seeds each, on as many
processes as there are processors, parsing included.

Usage: sample.py NETWORK [COUNT], where COUNT is the number of seeds of the sample. For bench/plan.sh. Tested, not proved.
"""

import os
import sys
import time
from pathlib import Path

TOP = Path(__file__).resolve().parent.parent


def measured(name, call):
    """Calls it, and says how long that took, and the processor time of all processes."""
    begun, before = time.monotonic(), sum(os.times()[:4])
    found = call()
    print(f"{name}: {time.monotonic() - begun:.1f} s, {sum(os.times()[:4]) - before:.1f} s of processor time")
    return found


def main() -> None:
    sys.path.insert(0, str(TOP / "python" / "src"))
    from foldcairn import planning
    from foldcairn.model.scenario import Scenario

    network = Scenario.read(Path(sys.argv[1]))
    count = int(sys.argv[2]) if len(sys.argv) > 2 else 1_000
    for whom, words in ((None, "all nodes"), ("hosts", "whichever host serves")):
        measured(f"sample of {count} seeds, for {words}", lambda: planning.sample(network, range(count), receivers=whom, deadline=30, progress=False))
    for what in ("links", "nodes"):
        for whom, words in ((None, "all nodes"), ("hosts", "whichever host serves")):
            measured(
                f"importance of all {what} with 20 seeds, for {words}",
                lambda: planning.importance(network, what, seeds=range(20), receivers=whom, progress=False),
            )


main()
