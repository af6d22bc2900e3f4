"""Which packets a flow entry is for: the match of OpenFlow 1.0.0 (5.2.3), 40 bytes."""

from __future__ import annotations

import struct
from dataclasses import dataclass, fields
from typing import Optional

from .codes import NO_VLAN
from .errors import MatchError
from .fields import check_range, ipv4_number, ipv4_text, mac_bytes, mac_text, need

_LAYOUT = struct.Struct("!IH6s6sHBxHBB2xIIHH")
SIZE = _LAYOUT.size
"""Bytes of a match on the wire: 40."""

# The wildcard bit of each field that has one.
_BITS = {
    "in_port": 0,
    "dl_vlan": 1,
    "dl_src": 2,
    "dl_dst": 3,
    "dl_type": 4,
    "nw_proto": 5,
    "tp_src": 6,
    "tp_dst": 7,
    "dl_vlan_pcp": 20,
    "nw_tos": 21,
}
# Where the count of ignored low bits of an address begins. A count of 32 or more ignores the address.
_COUNTS = {"nw_src": 8, "nw_dst": 14}
_ANY_ADDRESS = 32
# The greatest value of each field that is a number.
_MOST = {
    "in_port": 0xFFFF,
    "dl_vlan": 0xFFFF,
    "dl_vlan_pcp": 7,
    "dl_type": 0xFFFF,
    "nw_tos": 0xFF,
    "nw_proto": 0xFF,
    "tp_src": 0xFFFF,
    "tp_dst": 0xFFFF,
}

_IP, _ARP = 0x0800, 0x0806
_ICMP, _TCP, _UDP = 1, 6, 17


@dataclass(frozen=True)
class Match:
    """A match: each field is None, which means any, or the value that a packet must have. Match() is any packet.

    in_port       a port, 0 to 65,535
    dl_src        Ethernet source, a text such as "02:00:00:00:00:01"
    dl_dst        Ethernet destination
    dl_vlan       VLAN identifier, 0 to 65,535; NO_VLAN (65,535) for frames without a tag
    dl_vlan_pcp   VLAN priority, 0 to 7
    dl_type       Ethernet type, 0 to 0xffff: 0x0800 is IPv4, 0x0806 is ARP
    nw_tos        type of service, a byte with its low two bits clear
    nw_proto      IPv4 protocol, 0 to 255: 6 is TCP, 17 is UDP, 1 is ICMP; of ARP the operation
    nw_src        IPv4 or ARP source, "10.0.0.1", or with a prefix of 1 to 32 bits "10.0.0.0/24"
    nw_dst        IPv4 or ARP destination
    tp_src        TCP or UDP source port, or the type of an ICMP message
    tp_dst        TCP or UDP destination port, or the code of an ICMP message

    A value that is out of its range raises ValueError, and so does an address with bits outside its prefix.
    """

    in_port: Optional[int] = None
    dl_src: Optional[str] = None
    dl_dst: Optional[str] = None
    dl_vlan: Optional[int] = None
    dl_vlan_pcp: Optional[int] = None
    dl_type: Optional[int] = None
    nw_tos: Optional[int] = None
    nw_proto: Optional[int] = None
    nw_src: Optional[str] = None
    nw_dst: Optional[str] = None
    tp_src: Optional[int] = None
    tp_dst: Optional[int] = None

    def __post_init__(self) -> None:
        values = vars(self)
        for name, most in _MOST.items():
            if values[name] is not None:
                check_range(name, values[name], most)
        for name in ("dl_src", "dl_dst"):
            text = values[name]
            if text is not None:
                object.__setattr__(self, name, mac_text(mac_bytes(text)))
        for name in _COUNTS:
            text = values[name]
            if text is not None:
                object.__setattr__(self, name, _prefix_text(*_prefix(name, text)))

    def check(self) -> None:
        """Raises MatchError where a field has no meaning, since a field that it needs is not given.

        A switch ignores such a field: it would install another entry than the one that was asked for.
        """
        for name in ("nw_dst", "nw_proto", "nw_src"):
            if getattr(self, name) is not None and self.dl_type not in (_IP, _ARP):
                raise MatchError(f"{name} needs dl_type=0x0800 (IPv4) or dl_type=0x0806 (ARP)")
        if self.nw_tos is not None and self.dl_type != _IP:
            raise MatchError("nw_tos needs dl_type=0x0800 (IPv4)")
        if self.nw_tos is not None and self.nw_tos & 3:
            raise MatchError(f"nw_tos is {self.nw_tos}, and a switch clears its low two bits: write {self.nw_tos & 0xFC}")
        for name in ("tp_dst", "tp_src"):
            value = getattr(self, name)
            if value is None:
                continue
            if self.dl_type != _IP or self.nw_proto not in (_ICMP, _TCP, _UDP):
                raise MatchError(f"{name} needs dl_type=0x0800 (IPv4) and nw_proto 6 (TCP), 17 (UDP) or 1 (ICMP)")
            if self.nw_proto == _ICMP and value > 0xFF:
                raise MatchError(f"{name} of ICMP (nw_proto=1) is a type or code, from 0 to 255")
        if self.dl_vlan_pcp is not None and self.dl_vlan == NO_VLAN:
            raise MatchError("dl_vlan_pcp needs a tag, and dl_vlan=65535 says that there is none")

    def encode(self) -> bytes:
        """The 40 bytes, in their one normal form: whatever is ignored is 0, an ignored address has the count 32."""
        values, wildcards, numbers = vars(self), 0, {}
        for name, bit in _BITS.items():
            if values[name] is None:
                wildcards |= 1 << bit
        for name, shift in _COUNTS.items():
            text = values[name]
            numbers[name], length = (0, 0) if text is None else _prefix(name, text)
            wildcards |= (_ANY_ADDRESS - length) << shift
        return _LAYOUT.pack(
            wildcards,
            self.in_port or 0,
            mac_bytes(self.dl_src) if self.dl_src else bytes(6),
            mac_bytes(self.dl_dst) if self.dl_dst else bytes(6),
            self.dl_vlan or 0,
            self.dl_vlan_pcp or 0,
            self.dl_type or 0,
            self.nw_tos or 0,
            self.nw_proto or 0,
            numbers["nw_src"],
            numbers["nw_dst"],
            self.tp_src or 0,
            self.tp_dst or 0,
        )

    @classmethod
    def decode(cls, data: bytes) -> Match:
        """The match of 40 bytes. Whatever the wildcards ignore is any; bits outside a prefix are cleared."""
        need("a match", data, SIZE)
        wildcards, *values = _LAYOUT.unpack(data)
        given = dict(zip((it.name for it in fields(cls)), values))
        for name in ("dl_src", "dl_dst"):
            given[name] = mac_text(given[name])
        given["dl_vlan_pcp"] &= 7
        for name, shift in _COUNTS.items():
            length = _ANY_ADDRESS - min(wildcards >> shift & 0x3F, _ANY_ADDRESS)
            given[name] = _prefix_text(given[name] & _mask(length), length) if length else None
        for name, bit in _BITS.items():
            if wildcards >> bit & 1:
                given[name] = None
        return cls(**given)

    @classmethod
    def parse(cls, text: str) -> Match:
        """The match of a text such as `in_port=1,dl_type=0x0800`, as reports have them; `any` is any packet."""
        given: dict[str, object] = {}
        for part in [] if text == "any" else text.split(","):
            name, equals, value = part.partition("=")
            if not equals or name in given:
                raise ValueError(f"{part!r} is no field such as in_port=1, or the second of its name")
            given[name] = field_of(name, value)
        return cls(**given)

    def __str__(self) -> str:
        """The text of a report: `any`, or the fields that are not any, joined by commas."""
        return ",".join(self.words()) or "any"

    def words(self) -> list[str]:
        """The fields that are not any as `name=value`, in the order of the 40 bytes."""
        given = ((it.name, getattr(self, it.name)) for it in fields(self))
        return [f"{name}=0x{it:04x}" if name == "dl_type" else f"{name}={it}" for name, it in given if it is not None]


NAMES = tuple(it.name for it in fields(Match))
"""The names of the twelve fields, in the order of the 40 bytes."""


def field_of(name: str, text: str) -> object:
    """The value of a field that is written as text: numbers are decimal, or hexadecimal behind 0x."""
    if name not in NAMES:
        raise ValueError(f"{name!r} is no field of a match; there are {', '.join(NAMES)}")
    if name not in _MOST:
        return text
    try:
        return int(text, 16 if text.startswith("0x") else 10)
    except ValueError:
        raise ValueError(f"{name} is {text!r}, and must be a number") from None


def _mask(length: int) -> int:
    return (1 << 32) - (1 << (32 - length))


def _prefix(name: str, text: str) -> tuple[int, int]:
    """The bits and the length of an address with a prefix."""
    address, slash, count = text.partition("/")
    number = ipv4_number(address)
    length = int(count) if count.isdigit() else -1 if slash else 32
    if not 1 <= length <= 32:
        raise ValueError(f"{name} is {text!r}: a prefix has 1 to 32 bits; leave the field out for any address")
    if number & ~_mask(length):
        right = _prefix_text(number & _mask(length), length)
        raise ValueError(f"{name} is {text!r}, with bits outside its prefix: write {right}")
    return number, length


def _prefix_text(number: int, length: int) -> str:
    return ipv4_text(number) if length == 32 else f"{ipv4_text(number)}/{length}"
