"""The public path of `foldcairn.runs.packets`, which says what each of these is. Tested, not proved."""

from __future__ import annotations

from .runs.packets import Acknowledgement, Data, KINDS, NotAPacket, Owner, Packet, Request, Schedule, decode, encode

__all__ = ["Acknowledgement", "Data", "KINDS", "NotAPacket", "Owner", "Packet", "Request", "Schedule", "decode", "encode"]
