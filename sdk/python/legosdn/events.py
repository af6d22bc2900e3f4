"""What an application is told, one class for each kind of event."""

from __future__ import annotations

import struct
from collections.abc import Callable
from dataclasses import dataclass
from functools import cached_property
from typing import Optional, TypeVar

from . import frames, messages
from .codes import EventKind
from .errors import DecodeError, HostError, error_names
from .messages import PortDesc
from .packet import Packet

_Body = TypeVar("_Body")


@dataclass(frozen=True)
class Event:
    """Any event.

    number  counts the events of the host, from 1
    moment  in seconds since the host began
    dpid    the switch that it came from, 0 to 2^64 - 1
    """

    number: int
    moment: int
    dpid: int


@dataclass(frozen=True)
class JoinEvent(Event):
    """A switch joined; its table is empty. features is its FEATURES_REPLY."""

    features: messages.FeaturesReply

    @property
    def ports(self) -> tuple[PortDesc, ...]:
        """Its ports."""
        return self.features.ports


@dataclass(frozen=True)
class LeaveEvent(Event):
    """A switch left, with all that it held. ports are those that were known of it, by number."""

    ports: tuple[PortDesc, ...]


@dataclass(frozen=True)
class PacketInEvent(Event):
    """A switch sent a frame to the controller. message is the PACKET_IN."""

    message: messages.PacketIn

    @property
    def in_port(self) -> int:
        """The port that the frame came in by."""
        return self.message.in_port

    @property
    def reason(self) -> int:
        """One of PacketInReason."""
        return self.message.reason

    @property
    def data(self) -> bytes:
        """The frame, or its first bytes if message.total_len is greater."""
        return self.message.data

    @cached_property
    def packet(self) -> Packet:
        """What stands in the frame."""
        return Packet(self.data)


@dataclass(frozen=True)
class FlowRemovedEvent(Event):
    """An entry went that was added with send_flow_removed. removed says which, and why."""

    removed: messages.FlowRemoved


@dataclass(frozen=True)
class PortStatusEvent(Event):
    """A port came, went or changed. reason is one of PortReason, port is what it is now."""

    reason: int
    port: PortDesc


@dataclass(frozen=True)
class ErrorEvent(Event):
    """A switch sent an ERROR unasked, with the standard's type and code."""

    kind: int
    code: int

    @property
    def names(self) -> tuple[str, str]:
        """The standard's names of kind and code."""
        return error_names(self.kind, self.code)


def read_event(frame: frames.Event) -> Optional[Event]:
    """The event of a frame of the host; None of a kind that this library does not know."""
    known = _READERS.get(frame.kind)
    if known is None:
        return None
    try:
        return known(frame.data, frame.number, frame.moment, frame.dpid)
    except (DecodeError, struct.error) as fault:
        raise HostError(f"event {frame.number} of kind {frame.kind} has a wrong body: {fault}") from fault


def _message(kind: Callable[..., _Body], data: bytes) -> _Body:
    message = messages.decode(data)[1]
    if not isinstance(message, kind):
        raise DecodeError(f"a {type(message).__name__} stands there")
    return message


def _join(data: bytes, *front: int) -> JoinEvent:
    return JoinEvent(*front, _message(messages.FeaturesReply, data))


def _leave(data: bytes, *front: int) -> LeaveEvent:
    return LeaveEvent(*front, PortDesc.decode_all(data))


def _packet_in(data: bytes, *front: int) -> PacketInEvent:
    return PacketInEvent(*front, _message(messages.PacketIn, data))


def _flow_removed(data: bytes, *front: int) -> FlowRemovedEvent:
    return FlowRemovedEvent(*front, _message(messages.FlowRemoved, data))


def _port_status(data: bytes, *front: int) -> PortStatusEvent:
    message = _message(messages.PortStatus, data)
    return PortStatusEvent(*front, message.reason, message.port)


def _error(data: bytes, *front: int) -> ErrorEvent:
    return ErrorEvent(*front, *struct.unpack("!HH", data))


_READERS = {
    EventKind.JOIN: _join,
    EventKind.LEAVE: _leave,
    EventKind.PACKET_IN: _packet_in,
    EventKind.FLOW_REMOVED: _flow_removed,
    EventKind.PORT_STATUS: _port_status,
    EventKind.ERROR: _error,
}
