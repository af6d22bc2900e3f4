"""The messages of OpenFlow 1.0.0 (wire version 0x01), each as a value and as bytes.

`encode` writes a whole message with its header, `decode` reads one. Each class says in TYPE which message it is.
"""

from __future__ import annotations

import struct
from dataclasses import dataclass
from typing import ClassVar, Union, get_args

from .actions import Action, decode_actions, encode_actions
from .codes import NO_BUFFER, FlowCommand, Port
from .errors import DecodeError, error_names
from .fields import check_bytes, check_range, mac_bytes, mac_text, need, padded_text, text_bytes
from .match import Match

VERSION = 1
MOST_BYTES = 0xFFFF
"""The greatest length of a message."""

_HEADER = struct.Struct("!BBHI")
_PORT = struct.Struct("!H6s16sIIIIII")
_FLOW_MOD = struct.Struct("!40sQHHHHIHH")
_FLOW_REMOVED = struct.Struct("!40sQHBxIIH2xQQ")
_PACKET_IN = struct.Struct("!IHHBx")


@dataclass(frozen=True)
class PortDesc:
    """A port of a switch (5.2.1), 48 bytes.

    port_no     1 to 65,280, or Port.LOCAL
    hw_addr     its Ethernet address
    name        at most 16 bytes
    config      bits of PortConfig
    state       bits of PortState
    curr, advertised, supported, peer    bits of features, as the standard has them
    """

    port_no: int
    hw_addr: str
    name: str = ""
    config: int = 0
    state: int = 0
    curr: int = 0
    advertised: int = 0
    supported: int = 0
    peer: int = 0

    def encode(self) -> bytes:
        return _PORT.pack(
            self.port_no,
            mac_bytes(self.hw_addr),
            text_bytes("name", self.name, 16),
            self.config,
            self.state,
            self.curr,
            self.advertised,
            self.supported,
            self.peer,
        )

    @classmethod
    def decode(cls, data: bytes) -> PortDesc:
        need("a port", data, _PORT.size)
        port_no, hw_addr, name, *bits = _PORT.unpack(data)
        return cls(port_no, mac_text(hw_addr), padded_text(name), *bits)

    @classmethod
    def decode_all(cls, data: bytes) -> tuple[PortDesc, ...]:
        """Ports one after the other."""
        if len(data) % _PORT.size:
            raise DecodeError(f"ports have {len(data)} bytes, and not {_PORT.size} each")
        return tuple(cls.decode(data[at : at + _PORT.size]) for at in range(0, len(data), _PORT.size))


@dataclass(frozen=True)
class _Empty:
    """A message that is its header alone."""

    def body(self) -> bytes:
        return b""

    @classmethod
    def read(cls, body: bytes) -> _Empty:
        need("the body", body, 0)
        return cls()


@dataclass(frozen=True)
class _Bytes:
    """A message whose body is any bytes."""

    data: bytes = b""

    def body(self) -> bytes:
        return self.data

    @classmethod
    def read(cls, body: bytes) -> _Bytes:
        return cls(body)


@dataclass(frozen=True)
class Hello(_Bytes):
    """5.5.1; what it carries is ignored."""

    TYPE: ClassVar[int] = 0


@dataclass(frozen=True)
class Error:
    """5.4.4: type and code, and at least 64 bytes of the message that is refused, or all of it."""

    TYPE: ClassVar[int] = 1
    kind: int
    code: int
    data: bytes = b""

    def names(self) -> tuple[str, str]:
        """The standard's names of kind and code."""
        return error_names(self.kind, self.code)

    def body(self) -> bytes:
        return struct.pack("!HH", self.kind, self.code) + self.data

    @classmethod
    def read(cls, body: bytes) -> Error:
        return cls(*_front("!HH", body), body[4:])


@dataclass(frozen=True)
class EchoRequest(_Bytes):
    """5.5.2"""

    TYPE: ClassVar[int] = 2


@dataclass(frozen=True)
class EchoReply(_Bytes):
    """5.5.3"""

    TYPE: ClassVar[int] = 3


@dataclass(frozen=True)
class Vendor:
    """5.5.4: the vendor's number, 0 to 2^32 - 1, and bytes of its own."""

    TYPE: ClassVar[int] = 4
    vendor: int
    data: bytes = b""

    def body(self) -> bytes:
        return struct.pack("!I", self.vendor) + self.data

    @classmethod
    def read(cls, body: bytes) -> Vendor:
        return cls(*_front("!I", body), body[4:])


@dataclass(frozen=True)
class FeaturesRequest(_Empty):
    """5.3.1"""

    TYPE: ClassVar[int] = 5


@dataclass(frozen=True)
class FeaturesReply:
    """5.3.1: what a switch is.

    dpid                   its number, 0 to 2^64 - 1
    n_buffers, n_tables    how many packets it can buffer, how many tables it has
    capabilities, actions  bits, as the standard has them; bit N of actions is the action of type N
    """

    TYPE: ClassVar[int] = 6
    dpid: int
    n_buffers: int = 0
    n_tables: int = 1
    capabilities: int = 0
    actions: int = 0
    ports: tuple[PortDesc, ...] = ()

    def body(self) -> bytes:
        front = struct.pack("!QIB3xII", self.dpid, self.n_buffers, self.n_tables, self.capabilities, self.actions)
        return front + b"".join(port.encode() for port in self.ports)

    @classmethod
    def read(cls, body: bytes) -> FeaturesReply:
        return cls(*_front("!QIB3xII", body), PortDesc.decode_all(body[24:]))


@dataclass(frozen=True)
class GetConfigRequest(_Empty):
    """5.3.2"""

    TYPE: ClassVar[int] = 7


@dataclass(frozen=True)
class _Config:
    """flags are about fragments, 0 for nothing special; miss_send_len is how many bytes of a packet that no entry is
    for are sent to the controller. Both are from 0 to 65,535."""

    flags: int = 0
    miss_send_len: int = 128

    def body(self) -> bytes:
        return struct.pack("!HH", self.flags, self.miss_send_len)

    @classmethod
    def read(cls, body: bytes) -> _Config:
        need("the body", body, 4)
        return cls(*struct.unpack("!HH", body))


@dataclass(frozen=True)
class GetConfigReply(_Config):
    """5.3.2"""

    TYPE: ClassVar[int] = 8


@dataclass(frozen=True)
class SetConfig(_Config):
    """5.3.2"""

    TYPE: ClassVar[int] = 9


@dataclass(frozen=True)
class PacketIn:
    """5.4.1: a frame that came in by a port.

    total_len  the frame's length, of which data has the first bytes
    reason     one of PacketInReason
    """

    TYPE: ClassVar[int] = 10
    buffer_id: int
    total_len: int
    in_port: int
    reason: int
    data: bytes = b""

    def body(self) -> bytes:
        return _PACKET_IN.pack(self.buffer_id, self.total_len, self.in_port, self.reason) + self.data

    @classmethod
    def read(cls, body: bytes) -> PacketIn:
        return cls(*_front(_PACKET_IN.format, body), body[_PACKET_IN.size :])


@dataclass(frozen=True)
class FlowRemoved:
    """5.4.2: an entry went.

    reason                       one of RemovedReason
    duration_sec, duration_nsec  how long it stood
    idle_timeout                 in seconds, 0 for none
    packet_count, byte_count     what it has counted
    """

    TYPE: ClassVar[int] = 11
    match: Match
    cookie: int = 0
    priority: int = 0
    reason: int = 0
    duration_sec: int = 0
    duration_nsec: int = 0
    idle_timeout: int = 0
    packet_count: int = 0
    byte_count: int = 0

    def body(self) -> bytes:
        return _FLOW_REMOVED.pack(
            self.match.encode(),
            self.cookie,
            self.priority,
            self.reason,
            self.duration_sec,
            self.duration_nsec,
            self.idle_timeout,
            self.packet_count,
            self.byte_count,
        )

    @classmethod
    def read(cls, body: bytes) -> FlowRemoved:
        need("the body", body, _FLOW_REMOVED.size)
        match, *rest = _FLOW_REMOVED.unpack(body)
        return cls(Match.decode(match), *rest)


@dataclass(frozen=True)
class PortStatus:
    """5.4.3: a port came, went or changed. reason is one of PortReason."""

    TYPE: ClassVar[int] = 12
    reason: int
    port: PortDesc

    def body(self) -> bytes:
        return struct.pack("!B7x", self.reason) + self.port.encode()

    @classmethod
    def read(cls, body: bytes) -> PortStatus:
        return cls(*_front("!B7x", body), PortDesc.decode(body[8:]))


@dataclass(frozen=True)
class PacketOut:
    """5.3.6: a frame to send.

    actions    what is done with it; its Outputs say where it goes
    data       the frame, if no buffer is named
    in_port    the port that it is said to have come in by; Port.NONE for none
    buffer_id  a buffer of the switch; NO_BUFFER for none
    """

    TYPE: ClassVar[int] = 13
    actions: tuple[Action, ...] = ()
    data: bytes = b""
    in_port: int = Port.NONE
    buffer_id: int = NO_BUFFER

    def __post_init__(self) -> None:
        check_bytes("data", self.data)
        check_range("in_port", self.in_port, 0xFFFF)
        check_range("buffer_id", self.buffer_id, 0xFFFF_FFFF)

    def body(self) -> bytes:
        actions = encode_actions(self.actions)
        check_range("bytes of actions", len(actions), MOST_BYTES - 16)
        return struct.pack("!IHH", self.buffer_id, self.in_port, len(actions)) + actions + self.data

    @classmethod
    def read(cls, body: bytes) -> PacketOut:
        buffer_id, in_port, size = _front("!IHH", body)
        if size > len(body) - 8:
            raise DecodeError("the actions of a PACKET_OUT pass its end")
        return cls(decode_actions(body[8 : 8 + size]), body[8 + size :], in_port, buffer_id)


@dataclass(frozen=True)
class FlowMod:
    """5.3.3: a change of the flow table.

    command                     one of FlowCommand
    priority                    0 to 65,535; the greatest counts first
    cookie                      0 to 2^64 - 1, kept with the entry
    idle_timeout, hard_timeout  in seconds, 0 to 65,535; 0 for none
    buffer_id                   a packet that is then sent as the entry says; NO_BUFFER for none
    out_port                    of a deletion: only entries with an Output to this port; Port.NONE for all
    flags                       bits of FlowFlag
    """

    TYPE: ClassVar[int] = 14
    match: Match = Match()
    actions: tuple[Action, ...] = ()
    command: int = FlowCommand.ADD
    priority: int = 0
    cookie: int = 0
    idle_timeout: int = 0
    hard_timeout: int = 0
    buffer_id: int = NO_BUFFER
    out_port: int = Port.NONE
    flags: int = 0

    def __post_init__(self) -> None:
        values = vars(self)
        for name in ("command", "priority", "idle_timeout", "hard_timeout", "out_port", "flags"):
            check_range(name, values[name], 0xFFFF)
        check_range("cookie", self.cookie, 0xFFFF_FFFF_FFFF_FFFF)
        check_range("buffer_id", self.buffer_id, 0xFFFF_FFFF)

    def body(self) -> bytes:
        return _FLOW_MOD.pack(
            self.match.encode(),
            self.cookie,
            self.command,
            self.idle_timeout,
            self.hard_timeout,
            self.priority,
            self.buffer_id,
            self.out_port,
            self.flags,
        ) + encode_actions(self.actions)

    @classmethod
    def read(cls, body: bytes) -> FlowMod:
        match, cookie, command, idle, hard, priority, buffer_id, out_port, flags = _front(_FLOW_MOD.format, body)
        actions = decode_actions(body[_FLOW_MOD.size :])
        return cls(Match.decode(match), actions, command, priority, cookie, idle, hard, buffer_id, out_port, flags)


@dataclass(frozen=True)
class PortMod:
    """5.3.3: a change of a port's config.

    hw_addr       the port's address, which has to be the right one
    config, mask  bits of PortConfig; those of mask are set to those of config
    advertise     bits of features; 0 leaves them as they are
    """

    TYPE: ClassVar[int] = 15
    port_no: int
    hw_addr: str
    config: int
    mask: int
    advertise: int = 0

    def __post_init__(self) -> None:
        check_range("port_no", self.port_no, 0xFFFF)
        for name in ("config", "mask", "advertise"):
            check_range(name, getattr(self, name), 0xFFFF_FFFF)

    def body(self) -> bytes:
        return struct.pack("!H6sIII4x", self.port_no, mac_bytes(self.hw_addr), self.config, self.mask, self.advertise)

    @classmethod
    def read(cls, body: bytes) -> PortMod:
        need("the body", body, 24)
        port_no, hw_addr, *rest = struct.unpack("!H6sIII4x", body)
        return cls(port_no, mac_text(hw_addr), *rest)


@dataclass(frozen=True)
class _Stats:
    """kind is one of StatsKind; of flags only bit 0 of a reply means something: more parts follow."""

    kind: int
    data: bytes = b""
    flags: int = 0

    def __post_init__(self) -> None:
        check_range("kind", self.kind, 0xFFFF)
        check_range("flags", self.flags, 0xFFFF)

    def body(self) -> bytes:
        return struct.pack("!HH", self.kind, self.flags) + self.data

    @classmethod
    def read(cls, body: bytes) -> _Stats:
        kind, flags = _front("!HH", body)
        return cls(kind, body[4:], flags)


@dataclass(frozen=True)
class StatsRequest(_Stats):
    """5.3.5: data is empty, or a FlowQuestion for FLOW and AGGREGATE, or a port's number and 6 zero bytes for PORT."""

    TYPE: ClassVar[int] = 16


@dataclass(frozen=True)
class StatsReply(_Stats):
    """5.3.5: data is made of the rows of legosdn.stats."""

    TYPE: ClassVar[int] = 17


@dataclass(frozen=True)
class BarrierRequest(_Empty):
    """5.3.7"""

    TYPE: ClassVar[int] = 18


@dataclass(frozen=True)
class BarrierReply(_Empty):
    """5.3.7"""

    TYPE: ClassVar[int] = 19


@dataclass(frozen=True)
class QueueGetConfigRequest:
    """5.3.4: asks for the queues of a port, 0 to 65,535."""

    TYPE: ClassVar[int] = 20
    port: int

    def body(self) -> bytes:
        return struct.pack("!H2x", self.port)

    @classmethod
    def read(cls, body: bytes) -> QueueGetConfigRequest:
        need("the body", body, 4)
        return cls(*struct.unpack("!H2x", body))


@dataclass(frozen=True)
class QueueGetConfigReply:
    """5.3.4: the queues of a port, as bytes."""

    TYPE: ClassVar[int] = 21
    port: int
    queues: bytes = b""

    def body(self) -> bytes:
        return struct.pack("!H6x", self.port) + self.queues

    @classmethod
    def read(cls, body: bytes) -> QueueGetConfigReply:
        return cls(*_front("!H6x", body), body[8:])


Message = Union[
    Hello,
    Error,
    EchoRequest,
    EchoReply,
    Vendor,
    FeaturesRequest,
    FeaturesReply,
    GetConfigRequest,
    GetConfigReply,
    SetConfig,
    PacketIn,
    FlowRemoved,
    PortStatus,
    PacketOut,
    FlowMod,
    PortMod,
    StatsRequest,
    StatsReply,
    BarrierRequest,
    BarrierReply,
    QueueGetConfigRequest,
    QueueGetConfigReply,
]
"""Any message."""

_CLASSES = {it.TYPE: it for it in get_args(Message)}


def encode(message: Message, xid: int = 0) -> bytes:
    """A whole message. ValueError where a field is out of its range, or the message has more than 65,535 bytes."""
    try:
        body = message.body()
        check_range("bytes of the message", _HEADER.size + len(body), MOST_BYTES)
        return _HEADER.pack(VERSION, message.TYPE, _HEADER.size + len(body), xid) + body
    except struct.error as fault:
        raise ValueError(f"a field of {message} is out of its range: {fault}") from None


def decode(data: bytes) -> tuple[int, Message]:
    """The transaction id and the message of these bytes, which are one whole message; DecodeError where they are not."""
    if len(data) < _HEADER.size:
        raise DecodeError(f"a message has 8 bytes at least, and not {len(data)}")
    version, kind, size, xid = _HEADER.unpack_from(data)
    if version != VERSION:
        raise DecodeError(f"version {version} is not OpenFlow 1.0")
    if kind not in _CLASSES:
        raise DecodeError(f"there is no message of type {kind}")
    if size != len(data):
        raise DecodeError(f"its length says {size} bytes, and there are {len(data)}")
    return xid, _CLASSES[kind].read(data[_HEADER.size :])


def _front(layout: str, body: bytes) -> tuple:
    """The fields at the front of a body that may be longer."""
    if len(body) < struct.calcsize(layout):
        raise DecodeError(f"the body has {len(body)} bytes, and at least {struct.calcsize(layout)} are needed")
    return struct.unpack_from(layout, body)
