"""`foldcairn.run`: from a network to the log of its run, in one call. Tested, not proved."""

from __future__ import annotations

import os
import warnings
from typing import TextIO

from ..common import arguments
from ..model import cautions, faults
from ..model.scenario import Scenario, ScenarioWarning
from . import losses, program as programs, results as runs


def run(
    network: runs.Given, *, seed: int = 1, results: str | os.PathLike[str] | None = None, progress: bool | TextIO = True
) -> runs.Log:
    """The log of a run, with losses that a seed draws from reception ratios.

    Where a scenario has reception ratios (`prr`, `ratios`), or a text has them below a line `ratios` (docs/RATIOS.md), and no losses were
    drawn yet, they are drawn by the seed as it runs (`results.log`); the log keeps the seed in `log.origin`. It warns of what
    `Scenario.cautions` names.

    Parameters
    ----------
    network : Scenario, str, bytes or path
        The scenario, its text, or the file that has it (a `pathlib.Path`).
    seed : int
        The seed of the losses, 0 to 9,999,999,999,999.
    results : path, optional
        The folder of `losses.draw`, which keeps what is drawn where the planner's program has no command `log SEED`.
    progress : bool or file
        Whether a bar is shown then, as in `losses.draw`.

    Returns
    -------
    results.Log
        The report and the log.

    Raises
    ------
    ArgumentError
        Where the seed is no whole number, also where nothing is drawn.
    losses.TooManyLosses
        As `losses.draw` does, where the planner's program has no command `log SEED`.
    program.ProgramError
        As `results.log` does.
    """
    seed = arguments.whole("seed", seed)
    if not isinstance(network, Scenario):
        if ["ratios"] not in faults.split(arguments.text("network", network)):
            return runs.log(network)
        network = Scenario.read(network)
    is_long = network.is_to_be_drawn and takes_seed()
    for caution in cautions.of(network, long=is_long):
        warnings.warn(caution, ScenarioWarning, stacklevel=2)
    if network.is_to_be_drawn:
        return by_seed(network, seed, results=results, progress=progress)
    return runs.log(network, warn=False)


def takes_seed() -> bool:
    """Whether the planner's program runs a network by a seed, so that nothing has to be drawn before."""
    return programs.takes_seed("log", programs.find_planner())


def by_seed(
    network: Scenario, seed: int, *, results: str | os.PathLike[str] | None = None, progress: bool | TextIO = False
) -> runs.Log:
    """The log of a network with the losses that a seed draws from its ratios: by one call, or where the planner's program has no command
    `log SEED`, of the scenario that `losses.draw` makes. Raises what `losses.draw` and `results.log` raise."""
    if takes_seed():
        return runs.log(network.of_seed(seed), seed, warn=False)
    return runs.log(losses.draw(network, seed, results=results, progress=progress), warn=False)
