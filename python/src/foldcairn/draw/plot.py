"""Pictures of scenarios and runs, each by one call that gives a figure of matplotlib.

    from foldcairn import planning, plot, results

    log = results.log(scenario)
    plot.save(plot.timeline(log, start_seconds=850, end_seconds=1100), "failure.svg")

| picture | call |
|---|---|
| map: hops from the host, reception ratios by colour, hosts, failed links | `topology(scenario)` |
| map: what breaks where each node fails | `failures(planning.failures(plan))` |
| map: what a relay mends at each candidate place | `relays(planning.relays(plan))` |
| what each radio did, in any run and window | `timeline(log)` |
| delivery ratio of each stream at each node | `delivery(planning.delivery_ratio(log, "pair"))` |
| latencies of each stream | `latency(planning.latencies(log))` |
| what the radio time goes to | `energy(planning.radio_time(log))` |
| outages at changes of hosts | `outages(planning.outages(log, "stream"))` |
| the settings of a search, by life and margin | `search(planning.search(plan))` |

`save` writes a figure as SVG, PNG or PDF; SVG files are light or dark as the page in which they are shown. In a notebook a
figure shows itself. `hops` and `places` are what the map is drawn from. All times are seconds of true time from the start of
the run. Each function says what it raises. Tested, not proved.
"""

from __future__ import annotations

from .charts import delivery, energy, latency, outages
from .failures import failures, relays
from .frontier import search
from .maps import hops, places, topology
from .style import save
from .timeline import timeline

__all__ = ["delivery", "energy", "failures", "hops", "latency", "outages", "places", "relays", "save", "search", "timeline", "topology"]
