"""What is done with a packet: the actions of OpenFlow 1.0.0 (5.2.4)."""

from __future__ import annotations

import struct
from collections.abc import Iterable
from dataclasses import dataclass
from typing import ClassVar, Optional, Union, get_args

from .codes import Port
from .errors import DecodeError
from .fields import check_range, ipv4_number, ipv4_text, mac_bytes, mac_text


@dataclass(frozen=True)
class Output:
    """Send the packet out by a port, 0 to 65,535: a physical one or one of Port.

    max_len is how many bytes Port.CONTROLLER is sent, 0 to 65,535. Without it that is 65,535, and 0 for other ports,
    which do not look at it.
    """

    TYPE: ClassVar[int] = 0
    port: int
    max_len: Optional[int] = None

    def __post_init__(self) -> None:
        if self.max_len is None:
            object.__setattr__(self, "max_len", 0xFFFF if self.port == Port.CONTROLLER else 0)
        check_range("port", self.port, 0xFFFF)
        check_range("max_len", self.max_len, 0xFFFF)

    def body(self) -> bytes:
        return struct.pack("!HH", self.port, self.max_len)

    @classmethod
    def read(cls, body: bytes) -> Output:
        return cls(*struct.unpack("!HH", body))


@dataclass(frozen=True)
class SetVlanVid:
    """Set the VLAN identifier, 0 to 65,535, whose low 12 bits count; a tag is put in where there is none."""

    TYPE: ClassVar[int] = 1
    vid: int

    def __post_init__(self) -> None:
        check_range("vid", self.vid, 0xFFFF)

    def body(self) -> bytes:
        return struct.pack("!H2x", self.vid)

    @classmethod
    def read(cls, body: bytes) -> SetVlanVid:
        return cls(*struct.unpack("!H2x", body))


@dataclass(frozen=True)
class SetVlanPcp:
    """Set the VLAN priority, 0 to 255, whose low 3 bits count; a tag is put in where there is none."""

    TYPE: ClassVar[int] = 2
    pcp: int

    def __post_init__(self) -> None:
        check_range("pcp", self.pcp, 0xFF)

    def body(self) -> bytes:
        return struct.pack("!B3x", self.pcp)

    @classmethod
    def read(cls, body: bytes) -> SetVlanPcp:
        return cls(*struct.unpack("!B3x", body))


@dataclass(frozen=True)
class StripVlan:
    """Take the tag out."""

    TYPE: ClassVar[int] = 3

    def body(self) -> bytes:
        return bytes(4)

    @classmethod
    def read(cls, body: bytes) -> StripVlan:
        return cls()


@dataclass(frozen=True)
class _SetAddress:
    """Sets an Ethernet address, a text such as "02:00:00:00:00:01"."""

    address: str

    def __post_init__(self) -> None:
        object.__setattr__(self, "address", mac_text(mac_bytes(self.address)))

    def body(self) -> bytes:
        return mac_bytes(self.address) + bytes(6)

    @classmethod
    def read(cls, body: bytes) -> _SetAddress:
        return cls(mac_text(body[:6]))


@dataclass(frozen=True)
class SetDlSrc(_SetAddress):
    """Set the Ethernet source, a text such as "02:00:00:00:00:01"."""

    TYPE: ClassVar[int] = 4


@dataclass(frozen=True)
class SetDlDst(_SetAddress):
    """Set the Ethernet destination, a text such as "02:00:00:00:00:01"."""

    TYPE: ClassVar[int] = 5


@dataclass(frozen=True)
class _SetNetwork:
    """Sets an IPv4 address, a text such as "10.0.0.1"."""

    address: str

    def __post_init__(self) -> None:
        ipv4_number(self.address)

    def body(self) -> bytes:
        return struct.pack("!I", ipv4_number(self.address))

    @classmethod
    def read(cls, body: bytes) -> _SetNetwork:
        return cls(ipv4_text(*struct.unpack("!I", body)))


@dataclass(frozen=True)
class SetNwSrc(_SetNetwork):
    """Set the IPv4 source, a text such as "10.0.0.1"."""

    TYPE: ClassVar[int] = 6


@dataclass(frozen=True)
class SetNwDst(_SetNetwork):
    """Set the IPv4 destination, a text such as "10.0.0.1"."""

    TYPE: ClassVar[int] = 7


@dataclass(frozen=True)
class SetNwTos:
    """Set the IPv4 type of service, 0 to 255; its low two bits stay as they are in the packet."""

    TYPE: ClassVar[int] = 8
    tos: int

    def __post_init__(self) -> None:
        check_range("tos", self.tos, 0xFF)

    def body(self) -> bytes:
        return struct.pack("!B3x", self.tos)

    @classmethod
    def read(cls, body: bytes) -> SetNwTos:
        return cls(*struct.unpack("!B3x", body))


@dataclass(frozen=True)
class _SetPort:
    """Sets a TCP or UDP port, 0 to 65,535."""

    port: int

    def __post_init__(self) -> None:
        check_range("port", self.port, 0xFFFF)

    def body(self) -> bytes:
        return struct.pack("!H2x", self.port)

    @classmethod
    def read(cls, body: bytes) -> _SetPort:
        return cls(*struct.unpack("!H2x", body))


@dataclass(frozen=True)
class SetTpSrc(_SetPort):
    """Set the TCP or UDP source port, 0 to 65,535."""

    TYPE: ClassVar[int] = 9


@dataclass(frozen=True)
class SetTpDst(_SetPort):
    """Set the TCP or UDP destination port, 0 to 65,535."""

    TYPE: ClassVar[int] = 10


@dataclass(frozen=True)
class Enqueue:
    """Send the packet out by a queue of a port. LegoSDN refuses it: (2,0)."""

    TYPE: ClassVar[int] = 11
    port: int
    queue: int

    def __post_init__(self) -> None:
        check_range("port", self.port, 0xFFFF)
        check_range("queue", self.queue, 0xFFFF_FFFF)

    def body(self) -> bytes:
        return struct.pack("!H6xI", self.port, self.queue)

    @classmethod
    def read(cls, body: bytes) -> Enqueue:
        return cls(*struct.unpack("!H6xI", body))


@dataclass(frozen=True)
class VendorAction:
    """An action of a vendor: 4, 12, 20 .. bytes, the vendor's number first. LegoSDN refuses it: (2,2)."""

    TYPE: ClassVar[int] = 0xFFFF
    data: bytes

    def __post_init__(self) -> None:
        if len(self.data) % 8 != 4 or len(self.data) > 0xFFF4:
            raise ValueError(f"the data of a vendor's action has {len(self.data)} bytes, and must have 4, 12, 20 ..")

    def body(self) -> bytes:
        return self.data

    @classmethod
    def read(cls, body: bytes) -> VendorAction:
        return cls(body)


Action = Union[
    Output,
    SetVlanVid,
    SetVlanPcp,
    StripVlan,
    SetDlSrc,
    SetDlDst,
    SetNwSrc,
    SetNwDst,
    SetNwTos,
    SetTpSrc,
    SetTpDst,
    Enqueue,
    VendorAction,
]
"""Any action."""

_CLASSES = {it.TYPE: it for it in get_args(Action)}
_SIZES = {it: 16 if it in (4, 5, 11) else 8 for it in _CLASSES}


def encode_actions(actions: Iterable[Action]) -> bytes:
    """The bytes of a list of actions, in their order."""
    bodies = [(it.TYPE, it.body()) for it in actions]
    return b"".join(struct.pack("!HH", kind, 4 + len(body)) + body for kind, body in bodies)


def decode_actions(data: bytes) -> tuple[Action, ...]:
    """The actions of these bytes; DecodeError says where the first one begins that is none."""
    actions, at = [], 0
    while at < len(data):
        kind, size = struct.unpack_from("!HH", data, at) if len(data) - at >= 4 else (0, 0)
        if size < 8 or size % 8 or size > len(data) - at:
            raise DecodeError(f"the action at byte {at} has a wrong length")
        if kind not in _CLASSES:
            raise DecodeError(f"the action at byte {at} has the unknown type {kind}")
        if size != _SIZES[kind] and kind != VendorAction.TYPE:
            raise DecodeError(f"the action at byte {at} has {size} bytes and not {_SIZES[kind]}")
        actions.append(_CLASSES[kind].read(data[at + 4 : at + size]))
        at += size
    return tuple(actions)
