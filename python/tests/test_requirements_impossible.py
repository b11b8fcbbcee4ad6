"""Requirements that arithmetic calls impossible, without any run."""

from __future__ import annotations

from plans import asked, plan

from foldcairn.requirements import status, verdicts


def _impossible(requirements: str, **given: object) -> str:
    """The reason of the only verdict; no draw is made, so no program is needed."""
    table = verdicts(plan(requirements, **given), executor=None, progress=False)
    assert table["verdict"].tolist() == ["impossible"] and status(table) == 10 and table["draws"].tolist() == [0]
    return str(table["helps"][0])


def test_a_deadline_below_a_frame_and_a_round() -> None:
    """The tank's packets come every 20 s from 60 s on, at the starts of frames: the first data slot ends 1.112 s later."""
    assert "at most 0 % of the packets of tank" in _impossible(asked(tag="level", share=0.1, deadline=1.1))
    drawn = '[[stream]]\nname = "any"\nfrom = "pump"\nto = "hosts"\nevery = 30\nstart = "drawn"\ninterval = 12\n'
    # (3.612 - 1.112) / 5 is a half.
    assert "at most 50 % of the packets of any" in _impossible(asked(streams=["any"], share=0.51, deadline=3.612), streams=drawn)


def test_more_streams_than_a_host_takes() -> None:
    nodes = "".join(f'[[node]]\nname = "s{number}"\n' for number in range(8))
    links = "".join(f'[[link]]\nfrom = "gateway"\nto = "s{number}"\nratio = 1\nboth = true\n' for number in range(8))
    each = '[[stream]]\nname = "s{0}.{1}"\nfrom = "s{0}"\nstream = {1}\nto = "hosts"\nevery = 60\nstart = 60\n'
    streams = "".join(each.format(number, of) for number in range(8) for of in range(4))
    assert "34 streams are there at a time, and a host has room for 32" in _impossible(asked(ratio=0.5), nodes=nodes, links=links, streams=streams)


def test_more_packets_than_slots() -> None:
    quick = '[[stream]]\nname = "quick"\nfrom = "pump"\nto = "hosts"\nevery = 0.1\nstart = 60\ninterval = 1\n'
    assert "requests a slot every 1 s" in _impossible(asked(streams=["quick"], ratio=0.5), streams=quick)
    slow = '[[stream]]\nname = "slow"\nfrom = "pump"\nto = "hosts"\nevery = 5\nstart = 60\ninterval = 20\n'
    assert "request an interval of at most 4 s" in _impossible(asked(streams=["slow"], ratio=0.5), streams=slow)


def test_members_before_any_round() -> None:
    assert "after 26 s at the earliest" in _impossible(asked(joined=25))


def test_no_other_host() -> None:
    assert "gateway is the only host" in _impossible(asked(tag="level", outage=300, when="gateway fails"), backup=False)


def test_too_much_asleep() -> None:
    """2,600 mAh at 1 mA are 2,600 hours, 0.30 years."""
    assert "lasts 0.30 years" in _impossible(asked(years=1) + "[battery]\nsleep_ma = 1.0\n")
