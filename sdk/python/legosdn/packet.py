"""What stands in a frame: a view of Ethernet, VLAN tags, IPv4, ARP, TCP, UDP and ICMP.

Fields have the names and the meaning of those of a match (OpenFlow 1.0.0, 3.4).
"""

from __future__ import annotations

from functools import cached_property
from typing import Optional

from .codes import NO_VLAN
from .fields import ipv4_text, mac_text
from .match import Match

IPV4, ARP = 0x0800, 0x0806
ICMP, TCP, UDP = 1, 6, 17

_ETHERNET = 14
_TAG = 0x8100
_LEAST_TYPE = 0x0600
_SNAP = bytes.fromhex("aaaa03000000")
_NO_TYPE = 0x05FF


class Packet:
    """A frame, of which each field is read when it is asked for. A field that the frame does not have is None.

    A frame that is cut short, or that says of itself what cannot be, has no fields beyond that place.
    """

    def __init__(self, data: bytes) -> None:
        self.data = data

    @property
    def dl_dst(self) -> Optional[str]:
        """The Ethernet destination, such as "02:00:00:00:00:01"."""
        return mac_text(self.data[:6]) if self._is_ethernet else None

    @property
    def dl_src(self) -> Optional[str]:
        """The Ethernet source."""
        return mac_text(self.data[6:12]) if self._is_ethernet else None

    @property
    def is_multicast(self) -> bool:
        """Whether the destination is a group of stations, such as all of them."""
        return self._is_ethernet and bool(self.data[0] & 1)

    @cached_property
    def dl_vlan(self) -> Optional[int]:
        """The VLAN identifier of the outer tag, 0 to 4,095."""
        return self._number(14) & 0xFFF if self._is_tagged else None

    @cached_property
    def dl_vlan_pcp(self) -> Optional[int]:
        """The VLAN priority of the outer tag, 0 to 7."""
        return self.data[14] >> 5 if self._is_tagged else None

    @cached_property
    def dl_type(self) -> Optional[int]:
        """The Ethernet type behind the tag. A frame of IEEE 802.3 has the type of its SNAP header, or else 0x05ff."""
        if not self._is_ethernet:
            return None
        at = self._type_at
        if self._number(at) >= _LEAST_TYPE:
            return self._number(at)
        return self._number(at + 8) if self._is_snap else _NO_TYPE

    @cached_property
    def payload(self) -> bytes:
        """What stands behind the Ethernet header; empty where nothing is known of it."""
        if not self._is_ethernet or self.dl_type == _NO_TYPE:
            return b""
        return self.data[self._type_at + (10 if self._is_snap else 2) :]

    @cached_property
    def nw_src(self) -> Optional[str]:
        """The source of IPv4, or the sender's address of ARP, such as "10.0.0.1"."""
        return self._address(12, 14)

    @cached_property
    def nw_dst(self) -> Optional[str]:
        """The destination of IPv4, or the target's address of ARP."""
        return self._address(16, 24)

    @cached_property
    def nw_proto(self) -> Optional[int]:
        """The protocol of IPv4, 0 to 255, or the low 8 bits of ARP's operation: 1 asks, 2 answers."""
        if self.is_ipv4:
            return self.payload[9]
        return self.payload[7] if self.is_arp else None

    @cached_property
    def nw_tos(self) -> Optional[int]:
        """The type of service of IPv4, with its low two bits 0."""
        return self.payload[1] & 0xFC if self.is_ipv4 else None

    @cached_property
    def tp_src(self) -> Optional[int]:
        """The source port of TCP or UDP, or the type of an ICMP message; None of fragments."""
        return self._transport(0)

    @cached_property
    def tp_dst(self) -> Optional[int]:
        """The destination port of TCP or UDP, or the code of an ICMP message; None of fragments."""
        return self._transport(1)

    @cached_property
    def is_ipv4(self) -> bool:
        """Whether a whole header of IPv4 stands in the frame."""
        data = self.payload
        if self.dl_type != IPV4 or len(data) < 20 or data[0] >> 4 != 4:
            return False
        return 20 <= self._header <= len(data)

    @cached_property
    def is_arp(self) -> bool:
        """Whether a whole ARP message stands in the frame."""
        return self.dl_type == ARP and len(self.payload) >= 28

    @cached_property
    def segment(self) -> bytes:
        """What stands behind the header of IPv4; empty where there is none."""
        return self.payload[self._header :] if self.is_ipv4 else b""

    def match(self, in_port: Optional[int] = None) -> Match:
        """The match that has all of these fields: the flow that this packet belongs to."""
        tagged = self._is_tagged
        return Match(
            in_port=in_port,
            dl_src=self.dl_src,
            dl_dst=self.dl_dst,
            dl_vlan=self.dl_vlan if tagged else NO_VLAN if self._is_ethernet else None,
            dl_vlan_pcp=self.dl_vlan_pcp,
            dl_type=self.dl_type,
            nw_tos=self.nw_tos,
            nw_proto=self.nw_proto,
            nw_src=self.nw_src,
            nw_dst=self.nw_dst,
            tp_src=self.tp_src,
            tp_dst=self.tp_dst,
        )

    def __repr__(self) -> str:
        return f"Packet({self.match()}, {len(self.data)} bytes)"

    @property
    def _is_ethernet(self) -> bool:
        return len(self.data) >= _ETHERNET

    @cached_property
    def _is_tagged(self) -> bool:
        return len(self.data) >= _ETHERNET + 4 and self._number(12) == _TAG

    @cached_property
    def _type_at(self) -> int:
        return 16 if self._is_tagged else 12

    @cached_property
    def _is_snap(self) -> bool:
        at = self._type_at
        return self._number(at) < _LEAST_TYPE and self.data[at + 2 : at + 8] == _SNAP and len(self.data) >= at + 10

    @cached_property
    def _header(self) -> int:
        """Bytes of the header of IPv4, as it says."""
        return (self.payload[0] & 0xF) * 4

    def _number(self, at: int) -> int:
        return int.from_bytes(self.data[at : at + 2], "big")

    def _address(self, in_ipv4: int, in_arp: int) -> Optional[str]:
        if not self.is_ipv4 and not self.is_arp:
            return None
        at = in_ipv4 if self.is_ipv4 else in_arp
        return ipv4_text(int.from_bytes(self.payload[at : at + 4], "big"))

    def _transport(self, which: int) -> Optional[int]:
        if not self.is_ipv4 or int.from_bytes(self.payload[6:8], "big") & 0x3FFF:
            return None
        data = self.segment
        if self.nw_proto in (TCP, UDP) and len(data) >= 4:
            return int.from_bytes(data[2 * which : 2 * which + 2], "big")
        return data[which] if self.nw_proto == ICMP and len(data) >= 2 else None
