"""Packets as they are on the air: decoded into named fields, and encoded, by the formats of docs/internals/PACKETS.md.

There are data packets, requests, and schedules of two versions. Each value has exactly one spelling, so bytes are a packet
if and only if what is read from them is written with the same bytes. Tested, not proved.
"""

from __future__ import annotations

from collections.abc import Iterable, Sequence
from dataclasses import dataclass

import numpy as np
import pandas as pd
from numpy.typing import NDArray

from ..common import limits

# Byte 0 of a packet.
_SCHEDULE_1, _DATA, _REQUEST, _SCHEDULE_2 = 1, 2, 3, 4
KINDS = ("opening", "data", "request", "closing")
MOST_OWNERS = limits.DATA_SLOTS
MOST_ACKNOWLEDGEMENTS = 4


class NotAPacket(ValueError):
    """These bytes are no packet; the message says which field is wrong."""


@dataclass(frozen=True, order=True)
class Owner:
    """A stream of a node, which owns a data slot.

    Parameters
    ----------
    node : int
        The id of the node, 1 to 200.
    stream : int
        The number of the stream, 0 to 3.
    """

    node: int
    stream: int

    @property
    def code(self) -> int:
        """4 times the node plus the stream, 4 to 803."""
        return 4 * self.node + self.stream


@dataclass(frozen=True, order=True)
class Acknowledgement:
    """A request that a host took.

    Parameters
    ----------
    node : int
        The id of the node, 1 to 200.
    boot : int
        Which boot of the node it is, 1 to 200.
    stream : int
        The number of the stream, 0 to 3.
    interval : int
        The interval in seconds, 0 to 120, where 0 ends the stream.
    """

    node: int
    boot: int
    stream: int
    interval: int

    @property
    def code(self) -> int:
        """The code of its owner."""
        return 4 * self.node + self.stream


@dataclass(frozen=True)
class Data:
    """A data packet.

    Parameters
    ----------
    slot : int
        The slot, 1 to 40.
    counter : int
        The relay counter, 0 to 11.
    node : int
        The id of the node, 1 to 200.
    boot : int
        Which boot of the node it is, 1 to 200.
    stream : int
        The number of the stream, 0 to 3.
    number : int
        The packet's number in that stream and boot, 0 to 65,534.
    payload : bytes
        What it carries, 0 to 96 bytes.
    """

    slot: int
    counter: int
    node: int
    boot: int
    stream: int
    number: int
    payload: bytes

    kind = "data"


@dataclass(frozen=True)
class Request:
    """A request for a stream.

    Parameters
    ----------
    slot : int
        The slot, 1 to 44.
    counter : int
        The relay counter, 0 to 11.
    node : int
        The id of the node, 1 to 200.
    boot : int
        Which boot of the node it is, 1 to 200.
    stream : int
        The number of the stream, 0 to 3.
    interval : int
        The interval that is asked for, in seconds, 1 to 120; 0 ends the stream.
    """

    slot: int
    counter: int
    node: int
    boot: int
    stream: int
    interval: int

    kind = "request"


@dataclass(frozen=True)
class Schedule:
    """A schedule of a host, which opens a round or closes it.

    Parameters
    ----------
    slot : int
        It is 0 in an opening, and 2 to 45 in a closing.
    counter : int
        The relay counter, 0 to 11.
    rank : int
        The rank of the host, 0 to 3.
    gap : int
        In a closing the frames to the next round, 1 to 4; 0 in an opening.
    host_boot : int
        Which boot of the host it is, 1 to 200.
    contend : int
        The number of contention slots that the schedule names, 1 to 4, and 0 in version 1, which names none and has one.
    acknowledgements : tuple of Acknowledgement
        At most 4, in version 1 at most one, by strictly ascending codes.
    owners : tuple of Owner
        At most 40, by ascending codes: owner i, counted from 0, has data slot i + 1 of the round that the schedule plans.
    """

    slot: int
    counter: int
    rank: int
    gap: int
    host_boot: int
    contend: int
    acknowledgements: tuple[Acknowledgement, ...]
    owners: tuple[Owner, ...]

    @property
    def kind(self) -> str:
        """"opening" or "closing"."""
        return "closing" if self.gap else "opening"

    @property
    def contention_slots(self) -> int:
        """The number of contention slots of its round, 1 to 4."""
        return self.contend or 1


Packet = Data | Request | Schedule


def decode(packet: bytes | str) -> Packet:
    """The packet of some bytes.

    Parameters
    ----------
    packet : bytes or str
        The bytes, 3 to 125, or their hexadecimal digits.

    Returns
    -------
    Data, Request or Schedule
        The packet.

    Raises
    ------
    NotAPacket
        Where they are none; it says which field is wrong.
    """
    try:
        data = bytes.fromhex(packet) if isinstance(packet, str) else bytes(packet)
        if not 3 <= len(data) <= 125:
            raise NotAPacket(f"a packet has 3 to 125 bytes, not {len(data)}")
        decoded = _read(data)
        if encode(decoded) != data:
            raise NotAPacket("its owners are not spelled as they should be, or bytes are left")
    except IndexError:
        raise NotAPacket(f"{data.hex()} is no packet: it is too short") from None
    except ValueError as error:
        raise NotAPacket(f"{packet if isinstance(packet, str) else data.hex()} is no packet: {error}") from None
    return decoded


def encode(packet: Packet) -> bytes:
    """The bytes of a packet.

    Parameters
    ----------
    packet : Data, Request or Schedule
        The packet.

    Returns
    -------
    bytes
        What `decode` makes this packet of.

    Raises
    ------
    NotAPacket
        Where a field is out of its range.
    """
    if isinstance(packet, Data):
        return _encode_data(packet)
    if isinstance(packet, Request):
        _check(packet, slot=(1, 44), counter=(0, 11), node=(1, 200), boot=(1, 200), stream=(0, 3), interval=(0, 120))
        fields = (packet.slot, packet.counter, packet.node, packet.boot, packet.stream, packet.interval)
        return bytes((_REQUEST, *fields))
    return _encode_schedule(packet)


def table(packets: Iterable[str]) -> pd.DataFrame:
    """The fields of packets, a row for each, with the hexadecimal digits as the index.

    `kind` is one of `KINDS`, `slot` the slot and `step` the relay counter. `origin` is the node that made a data packet or a
    request, `boot` its boot, and `stream` the stream; `number` is that of a data packet, `interval` that of a request, in
    seconds; `host_boot`, `gap` (frames) and `contention_slots` are those of a schedule. What a kind does not have is -1.
    `decoded` is the packet itself, with the payload, the owners and the acknowledgements.
    Raises `NotAPacket` for the first text that is no packet.
    """
    texts = list(packets)
    decoded = [decode(text) for text in texts]

    def column(name: str) -> pd.Series:
        return pd.Series([getattr(packet, name, -1) for packet in decoded], dtype="int64")

    return pd.DataFrame(
        {
            "kind": pd.Categorical([packet.kind for packet in decoded], categories=KINDS),
            "slot": column("slot"),
            "step": column("counter"),
            "origin": column("node"),
            "boot": column("boot"),
            "host_boot": column("host_boot"),
            "stream": column("stream"),
            "number": column("number"),
            "interval": column("interval"),
            "gap": column("gap"),
            "contention_slots": column("contention_slots"),
            "decoded": pd.Series(decoded, dtype=object),
        }
    ).set_axis(pd.Index(texts, name="packet", dtype=object), axis=0)


def places(packets: Iterable[str]) -> tuple[NDArray[np.int64], NDArray[np.int64]]:
    """The slots and the steps (relay counters) of packets that a run has sent, by the second and third of their bytes alone."""
    heads = np.array([bytes.fromhex(text[2:6]) for text in packets], dtype="S2").view(np.uint8).reshape(-1, 2).astype(np.int64)
    return heads[:, 0], heads[:, 1]


def _check(packet: object, **ranges: tuple[int, int]) -> None:
    for name, (low, high) in ranges.items():
        value = getattr(packet, name)
        if not low <= value <= high:
            raise NotAPacket(f"its {name} is {value}, and not from {low} to {high}")


def _encode_data(packet: Data) -> bytes:
    _check(packet, slot=(1, 40), counter=(0, 11), node=(1, 200), boot=(1, 200), stream=(0, 3), number=(0, 65_534))
    if len(packet.payload) > 96:
        raise NotAPacket(f"its payload has {len(packet.payload)} bytes, and at most 96 are allowed")
    head = bytes((_DATA, packet.slot, packet.counter, packet.node, packet.boot, packet.stream))
    return head + packet.number.to_bytes(2, "big") + packet.payload


def _encode_schedule(packet: Schedule) -> bytes:
    slots = (2, 45 if packet.contend else 42) if packet.gap else (0, 0)
    _check(packet, slot=slots, counter=(0, 11), rank=(0, 3), gap=(0, 4), host_boot=(1, 200), contend=(0, 4))
    for acknowledgement in packet.acknowledgements:
        _check(acknowledgement, node=(1, 200), boot=(1, 200), stream=(0, 3), interval=(0, 120))
    kind = _SCHEDULE_2 if packet.contend else _SCHEDULE_1
    head = bytes((kind, packet.slot, packet.counter, 16 * packet.rank + packet.gap, packet.host_boot))
    return head + _encode_acknowledgements(packet) + _encode_owners(packet.owners)


def _encode_acknowledgements(packet: Schedule) -> bytes:
    acknowledgements = packet.acknowledgements
    if len(acknowledgements) > (MOST_ACKNOWLEDGEMENTS if packet.contend else 1):
        raise NotAPacket(f"it has {len(acknowledgements)} acknowledgements, which are too many")
    codes = [one.code for one in acknowledgements]
    if sorted(set(codes)) != codes:
        raise NotAPacket("its acknowledgements are not strictly ascending")
    spelled = b"".join(bytes((one.node, one.boot, one.stream, one.interval)) for one in acknowledgements)
    if packet.contend:
        return bytes((16 * (packet.contend - 1) + len(acknowledgements),)) + spelled
    return spelled or bytes(4)


def _encode_owners(owners: Sequence[Owner]) -> bytes:
    if len(owners) > MOST_OWNERS:
        raise NotAPacket(f"it has {len(owners)} owners, and at most {MOST_OWNERS} are allowed")
    if not owners:
        return bytes(1)
    for owner in owners:
        _check(owner, node=(1, 200), stream=(0, 3))
    codes = [owner.code for owner in owners]
    differences = [after - before for before, after in zip(codes, codes[1:])]
    if min(differences, default=0) < 0:
        raise NotAPacket("its owners are not ascending")
    width = max(differences, default=0).bit_length()
    bits = 0
    for difference in differences:
        bits = bits << width | difference
    length = -(-width * len(differences) // 8)
    bits <<= 8 * length - width * len(differences)
    return bytes((len(owners),)) + (16 * codes[0] + width).to_bytes(2, "big") + bits.to_bytes(length, "big")


def _read(data: bytes) -> Packet:
    kind = data[0]
    if kind == _DATA:
        if len(data) < 8:
            raise IndexError
        slot, counter, node, boot, stream = data[1:6]
        return Data(slot, counter, node, boot, stream, int.from_bytes(data[6:8], "big"), data[8:])
    if kind == _REQUEST:
        if len(data) != 7:
            raise NotAPacket(f"a request has 7 bytes, not {len(data)}")
        return Request(*data[1:7])
    if kind not in (_SCHEDULE_1, _SCHEDULE_2):
        raise NotAPacket(f"its kind is {kind}, and not from 1 to 4")
    if kind == _SCHEDULE_1:
        if len(data) < 10:
            raise IndexError
        acknowledgements, at = (() if data[5:9] == bytes(4) else (Acknowledgement(*data[5:9]),)), 9
        contend = 0
    else:
        at = 6 + 4 * (data[5] & 15)
        if at > len(data):
            raise IndexError
        acknowledgements = tuple(Acknowledgement(*data[i : i + 4]) for i in range(6, at, 4))
        contend = (data[5] >> 4) + 1
    rank, gap = divmod(data[3], 16)
    return Schedule(data[1], data[2], rank, gap, data[4], contend, acknowledgements, _read_owners(data, at))


def _read_owners(data: bytes, at: int) -> tuple[Owner, ...]:
    count = data[at]
    if count == 0:
        return ()
    if count > MOST_OWNERS:
        raise NotAPacket(f"it has {count} owners, and at most {MOST_OWNERS} are allowed")
    code, width = divmod(256 * data[at + 1] + data[at + 2], 16)
    bits = int.from_bytes(data[at + 3 :], "big")
    left = 8 * (len(data) - at - 3)
    owners = [Owner(*divmod(code, 4))]
    for _ in range(count - 1):
        left -= width
        if left < 0:
            raise IndexError
        code += bits >> left & (1 << width) - 1
        owners.append(Owner(*divmod(code, 4)))
    return tuple(owners)
