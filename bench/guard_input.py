"""The input of guard_time (bench/guard_time): rules and tables as numbers of eight bytes, and matches as on the wire."""

import struct
from typing import NamedTuple

DL_DST, NW_DST = 0, 1
IN_PORT, FLOOD, ALL = 0xFFF8, 0xFFFB, 0xFFFC
EDIT = 0  # the port that stands for an action which changes packets
NOT_JOINED = 65_535
IPV4 = 0x0800


class Row(NamedTuple):
    """A row: each field is any or a value; a prefix is an address and a length."""

    priority: int = 1
    in_port: int | None = None
    dl_src: int | None = None
    dl_dst: int | None = None
    dl_type: int | None = None
    nw_dst: tuple[int, int] | None = None
    ports: tuple[int, ...] = ()

    def match(self):
        """The 40 bytes of its match (OpenFlow 1.0.0, 5.2.3)."""
        wildcards = 0x3020FF
        for field, bit in ((self.in_port, 0), (self.dl_src, 2), (self.dl_dst, 3), (self.dl_type, 4)):
            if field is not None:
                wildcards &= ~(1 << bit)
        address, length = self.nw_dst or (0, 0)
        wildcards |= (32 - length) << 14
        head = struct.pack("!IH", wildcards, self.in_port or 0)
        ethernet = (self.dl_src or 0).to_bytes(6, "big") + (self.dl_dst or 0).to_bytes(6, "big")
        return head + ethernet + struct.pack("!HBxHBB2xIIHH", 0, 0, self.dl_type or 0, 0, 0, 0, address, 0, 0)

    def key(self):
        """What rows of a table stand in order by: the highest priority first, then the bytes of the match."""
        return -self.priority, self.match()

    def spelled(self):
        return numbers(self.priority) + self.match() + numbers(len(self.ports), *self.ports)


def numbers(*values):
    return struct.pack(f"!{len(values)}Q", *values)


def rule(field, links):
    """A rule: the field, and links as pairs of ends."""
    return numbers(field, len(links), *(number for link in links for end in link for number in end))


def rows(table):
    """How many rows there are, and these; `None` is the table of a switch that is not joined."""
    if table is None:
        return numbers(NOT_JOINED)
    return numbers(len(table)) + b"".join(row.spelled() for row in sorted(table, key=Row.key))


def tables(of_switches):
    """The tables of switches, by their numbers."""
    return numbers(len(of_switches)) + b"".join(numbers(dpid) + rows(table) for dpid, table in sorted(of_switches.items()))
