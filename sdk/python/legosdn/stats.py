"""The bodies of statistics (OpenFlow 1.0.0, 5.3.5): what is asked, and what is answered."""

from __future__ import annotations

import struct
from dataclasses import dataclass, fields


from .actions import Action, decode_actions, encode_actions
from .codes import ALL_TABLES, DEFAULT_PRIORITY, Port
from .errors import DecodeError
from .fields import check_range, need, padded_text, text_bytes
from .match import SIZE, Match

_FLOW = struct.Struct("!HBx40sIIHHH6xQQQ")
_TABLE = struct.Struct("!B3x32sIIIQQ")
_PORT = struct.Struct("!H6x12Q")
_DESC = struct.Struct("!256s256s256s32s256s")


@dataclass(frozen=True)
class FlowQuestion:
    """Which entries are asked for, singly or added up.

    table_id  0 to 255; ALL_TABLES is every table
    out_port  only entries with an Output to this port; Port.NONE for all
    """

    match: Match = Match()
    table_id: int = ALL_TABLES
    out_port: int = Port.NONE

    def __post_init__(self) -> None:
        check_range("table_id", self.table_id, 0xFF)
        check_range("out_port", self.out_port, 0xFFFF)

    def encode(self) -> bytes:
        return self.match.encode() + struct.pack("!BxH", self.table_id, self.out_port)

    @classmethod
    def decode(cls, data: bytes) -> FlowQuestion:
        need("a question for entries", data, SIZE + 4)
        return cls(Match.decode(data[:SIZE]), *struct.unpack("!BxH", data[SIZE:]))


@dataclass(frozen=True)
class FlowStats:
    """One entry of a switch.

    duration_sec, duration_nsec  how long it stands
    idle_timeout, hard_timeout   in seconds, 0 for none
    packet_count, byte_count     what it has counted
    """

    match: Match
    actions: tuple[Action, ...] = ()
    table_id: int = 0
    duration_sec: int = 0
    duration_nsec: int = 0
    priority: int = DEFAULT_PRIORITY
    idle_timeout: int = 0
    hard_timeout: int = 0
    cookie: int = 0
    packet_count: int = 0
    byte_count: int = 0

    def encode(self) -> bytes:
        actions = encode_actions(self.actions)
        return (
            _FLOW.pack(
                _FLOW.size + len(actions),
                self.table_id,
                self.match.encode(),
                self.duration_sec,
                self.duration_nsec,
                self.priority,
                self.idle_timeout,
                self.hard_timeout,
                self.cookie,
                self.packet_count,
                self.byte_count,
            )
            + actions
        )

    @classmethod
    def decode_all(cls, data: bytes) -> list[FlowStats]:
        """All rows of a reply."""
        rows, at = [], 0
        while at < len(data):
            size = int.from_bytes(data[at : at + 2], "big")
            if not _FLOW.size <= size <= len(data) - at:
                raise DecodeError(f"the row at byte {at} has a wrong length")
            _, table_id, match, *numbers = _FLOW.unpack_from(data, at)
            actions = decode_actions(data[at + _FLOW.size : at + size])
            rows.append(cls(Match.decode(match), actions, table_id, *numbers))
            at += size
        return rows


@dataclass(frozen=True)
class AggregateStats:
    """The entries that were asked for, added up."""

    packet_count: int
    byte_count: int
    flow_count: int

    def encode(self) -> bytes:
        return struct.pack("!QQI4x", self.packet_count, self.byte_count, self.flow_count)

    @classmethod
    def decode(cls, data: bytes) -> AggregateStats:
        need("a sum of entries", data, 24)
        return cls(*struct.unpack("!QQI4x", data))


@dataclass(frozen=True)
class TableStats:
    """One table of a switch. wildcards are the bits of a match that it can leave open; name has at most 32 bytes."""

    table_id: int
    name: str
    wildcards: int
    max_entries: int
    active_count: int
    lookup_count: int
    matched_count: int

    def encode(self) -> bytes:
        return _TABLE.pack(
            self.table_id,
            text_bytes("name", self.name, 32),
            self.wildcards,
            self.max_entries,
            self.active_count,
            self.lookup_count,
            self.matched_count,
        )

    @classmethod
    def decode_all(cls, data: bytes) -> list[TableStats]:
        """All rows of a reply."""
        if len(data) % _TABLE.size:
            raise DecodeError(f"rows of tables have {len(data)} bytes, and not {_TABLE.size} each")
        return [cls(number, padded_text(name), *rest) for number, name, *rest in _TABLE.iter_unpack(data)]


@dataclass(frozen=True)
class PortStats:
    """What one port has counted. A number that a switch does not count is 2^64 - 1."""

    port_no: int
    rx_packets: int = 0
    tx_packets: int = 0
    rx_bytes: int = 0
    tx_bytes: int = 0
    rx_dropped: int = 0
    tx_dropped: int = 0
    rx_errors: int = 0
    tx_errors: int = 0
    rx_frame_err: int = 0
    rx_over_err: int = 0
    rx_crc_err: int = 0
    collisions: int = 0

    def encode(self) -> bytes:
        return _PORT.pack(*(getattr(self, it.name) for it in fields(self)))

    @classmethod
    def decode_all(cls, data: bytes) -> list[PortStats]:
        """All rows of a reply."""
        if len(data) % _PORT.size:
            raise DecodeError(f"rows of ports have {len(data)} bytes, and not {_PORT.size} each")
        return [cls(*row) for row in _PORT.iter_unpack(data)]


@dataclass(frozen=True)
class DescStats:
    """What a switch says of itself: each a text of at most 256 bytes, serial_num of at most 32."""

    mfr_desc: str
    hw_desc: str
    sw_desc: str
    serial_num: str
    dp_desc: str

    def encode(self) -> bytes:
        sizes = (256, 256, 256, 32, 256)
        return b"".join(text_bytes(it.name, getattr(self, it.name), size) for it, size in zip(fields(self), sizes))

    @classmethod
    def decode(cls, data: bytes) -> DescStats:
        need("a description", data, _DESC.size)
        return cls(*map(padded_text, _DESC.unpack(data)))
