"""Packets: the worked bytes of docs/internals/PACKETS.md, both versions, and what is no packet."""

import pytest
from hypothesis import given, settings, strategies

from foldcairn.runs import packets
from foldcairn.runs.packets import Acknowledgement, Data, NotAPacket, Owner, Request, Schedule

STREAM = Owner(2, 0)
ASKED = Acknowledgement(2, 1, 0, 4)
# Each value and its bytes, worked out by hand from the formats.
WORKED = [
    (Data(1, 0, 2, 1, 0, 0, b"\xaa"), "02 01 00 02 01 00 00 00 aa"),
    (Data(40, 11, 200, 200, 3, 65_534, b""), "02 28 0b c8 c8 03 ff fe"),
    (Request(1, 0, 2, 1, 0, 4), "03 01 00 02 01 00 04"),
    (Request(44, 2, 2, 1, 3, 0), "03 2c 02 02 01 03 00"),
    (Schedule(2, 0, 0, 4, 1, 0, (ASKED,), (STREAM,) * 4), "01 02 00 04 01 02 01 00 04 04 00 80"),
    (Schedule(0, 0, 0, 0, 1, 0, (ASKED,), (STREAM,) * 4), "01 00 00 00 01 02 01 00 04 04 00 80"),
    # Codes 4, 4 and 9: differences 0 and 5 in 3 bits each.
    (Schedule(0, 0, 0, 0, 1, 0, (), (Owner(1, 0), Owner(1, 0), Owner(2, 1))), "01 00 00 00 01 00 00 00 00 03 00 43 14"),
    (Schedule(0, 0, 0, 0, 1, 0, (), ()), "01 00 00 00 01 00 00 00 00 00"),
    # Version 2: two contention slots, two acknowledgements, and codes 8 and 12, four times each, by differences of 3 bits.
    (
        Schedule(3, 0, 0, 4, 1, 2, (Acknowledgement(2, 1, 0, 5), Acknowledgement(3, 1, 0, 5)), (Owner(2, 0),) * 4 + (Owner(3, 0),) * 4),
        "04 03 00 04 01 12 02 01 00 05 03 01 00 05 08 00 83 00 40 00",
    ),
    (Schedule(2, 5, 3, 1, 9, 1, (), ()), "04 02 05 31 09 00 00"),
]  # fmt: skip


@pytest.mark.parametrize(("value", "spelled"), WORKED)
def test_worked_bytes_both_ways(value: packets.Packet, spelled: str) -> None:
    data = bytes.fromhex(spelled)
    assert packets.encode(value) == data
    assert packets.decode(data) == value
    assert packets.decode(data.hex()) == value


@pytest.mark.parametrize(
    ("spelled", "why"),
    [
        ("", "3 to 125 bytes"),
        ("02 01", "3 to 125 bytes"),
        ("05 01 00", "kind is 5"),
        ("03 01 00 02 01 00 04 00", "7 bytes, not 8"),
        ("02 01 00 02 01 00 ff ff", "number is 65535"),
        ("02 29 00 02 01 00 00 00", "slot is 41"),
        ("02 01 0c 02 01 00 00 00", "counter is 12"),
        ("02 01 00 02 01 00 00", "too short"),
        ("01 00 00", "too short"),
        # The opening with codes 4, 4 and 9 by differences of 4 bits: the least width alone is allowed.
        ("01 00 00 00 01 00 00 00 00 03 00 44 05", "not spelled"),
        # Bits after the last difference are zero.
        ("01 00 00 00 01 00 00 00 00 03 00 43 15", "not spelled"),
        ("01 00 00 00 01 00 00 00 00 00 00", "bytes are left"),
        # The two acknowledgements exchanged.
        ("04 03 00 04 01 12 03 01 00 05 02 01 00 05 08 00 83 00 40 00", "not strictly ascending"),
        # An opening has slot 0, a closing has not.
        ("01 02 00 00 01 00 00 00 00 00", "slot is 2"),
        ("01 00 00 04 01 00 00 00 00 00", "slot is 0"),
        # Slot 43 is there with several contention slots alone.
        ("01 2b 00 04 01 00 00 00 00 00", "slot is 43"),
    ],
)
def test_what_is_no_packet(spelled: str, why: str) -> None:
    with pytest.raises(NotAPacket, match=why):
        packets.decode(bytes.fromhex(spelled))


def test_text_that_is_not_hexadecimal() -> None:
    with pytest.raises(NotAPacket, match="hex"):
        packets.decode("02zz")


def test_the_longest_packets() -> None:
    # 39 differences of 10 bits take 49 bytes.
    owners = (Owner(1, 0),) + (Owner(200, 3),) * 39
    assert len(packets.encode(Schedule(42, 0, 0, 1, 1, 0, (), owners))) == 61
    acknowledgements = tuple(Acknowledgement(node, 1, 0, 1) for node in (1, 2, 3, 4))
    assert len(packets.encode(Schedule(45, 0, 0, 1, 1, 4, acknowledgements, owners))) == 74
    assert len(packets.encode(Data(1, 0, 1, 1, 0, 0, bytes(96)))) == 104
    with pytest.raises(NotAPacket, match="97 bytes"):
        packets.encode(Data(1, 0, 1, 1, 0, 0, bytes(97)))


def test_a_table_has_the_fields_of_each_packet() -> None:
    texts = [bytes.fromhex(spelled).hex() for _, spelled in WORKED[:1] + WORKED[2:3] + WORKED[8:9]]
    table = packets.table(texts)
    assert list(table.index) == texts
    assert list(table["kind"]) == ["data", "request", "closing"]
    assert list(table["slot"]) == [1, 1, 3]
    assert list(table["origin"]) == [2, 2, -1]
    assert list(table["number"]) == [0, -1, -1]
    assert list(table["interval"]) == [-1, 4, -1]
    assert list(table["gap"]) == [-1, -1, 4]
    assert list(table["contention_slots"]) == [-1, -1, 2]
    assert packets.table([]).empty


codes = strategies.integers(4, 803)
node = strategies.integers(1, 200)
stream = strategies.integers(0, 3)
acknowledgement = strategies.builds(Acknowledgement, node, node, stream, strategies.integers(0, 120))


@strategies.composite
def schedules(draw: strategies.DrawFn) -> Schedule:
    contend = draw(strategies.integers(0, 4))
    gap = draw(strategies.integers(0, 4))
    taken = draw(strategies.lists(acknowledgement, max_size=4 if contend else 1, unique_by=lambda one: one.code))
    owners = sorted(draw(strategies.lists(codes, max_size=40)))
    return Schedule(
        draw(strategies.integers(2, 42)) if gap else 0, draw(strategies.integers(0, 11)), draw(strategies.integers(0, 3)), gap,
        draw(node), contend, tuple(sorted(taken, key=lambda one: one.code)), tuple(Owner(*divmod(code, 4)) for code in owners),
    )  # fmt: skip


@settings(max_examples=100, deadline=None)
@given(schedules())
def test_schedules_are_read_as_they_are_written(value: Schedule) -> None:
    assert packets.decode(packets.encode(value)) == value


@settings(max_examples=100, deadline=None)
@given(strategies.binary(max_size=30))
def test_bytes_are_a_packet_or_an_error_that_says_why(data: bytes) -> None:
    try:
        assert packets.encode(packets.decode(data)) == data
    except NotAPacket as error:
        assert str(error)
