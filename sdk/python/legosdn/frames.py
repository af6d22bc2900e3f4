"""The frames between host and application, as values and as bytes: a length of 4 bytes, a kind of one byte, a body.

`encode` writes a frame of either side. `decode_app` and `decode_host` read the frame at the front of some bytes.
"""

from __future__ import annotations

import struct
from dataclasses import dataclass
from typing import ClassVar, Optional, Union

from .errors import FrameError
from .fields import check_range

MOST_CHECKPOINT = 1_048_576
"""The greatest checkpoint, in bytes."""

_MOST_LENGTH = MOST_CHECKPOINT + 3
_EVENT = struct.Struct("!QQBQ")


@dataclass(frozen=True)
class Message:
    """From an application: one OpenFlow message of 8 to 65,535 bytes for the switch dpid."""

    KIND: ClassVar[int] = 1
    dpid: int
    data: bytes

    def body(self) -> bytes:
        check_range("dpid", self.dpid, 0xFFFF_FFFF_FFFF_FFFF)
        check_range("bytes of a message", len(self.data), 0xFFFF, 8)
        return struct.pack("!Q", self.dpid) + self.data


@dataclass(frozen=True)
class _Mark:
    """A frame without a body."""

    def body(self) -> bytes:
        return b""


@dataclass(frozen=True)
class Save(_Mark):
    """From an application: mark the state of the switches."""

    KIND: ClassVar[int] = 2


@dataclass(frozen=True)
class Keep(_Mark):
    """From an application: forget the newest mark, and keep what was changed since."""

    KIND: ClassVar[int] = 3


@dataclass(frozen=True)
class Undo(_Mark):
    """From an application: undo what was changed since the newest mark, and forget it."""

    KIND: ClassVar[int] = 4


@dataclass(frozen=True)
class Done:
    """From an application: the turn is over. After stop no further application is given the event.

    checkpoint is None, or at most 1,048,576 bytes from which the application can be started again.
    """

    KIND: ClassVar[int] = 5
    stop: bool = False
    checkpoint: Optional[bytes] = None

    def body(self) -> bytes:
        checkpoint = self.checkpoint or b""
        check_range("bytes of a checkpoint", len(checkpoint), MOST_CHECKPOINT)
        return bytes([self.stop, self.checkpoint is not None]) + checkpoint


@dataclass(frozen=True)
class Ready(_Mark):
    """From an application: the answer to Restore."""

    KIND: ClassVar[int] = 6


@dataclass(frozen=True)
class Restore:
    """From the host: the checkpoint to start from; it is empty at a first start."""

    KIND: ClassVar[int] = 1
    checkpoint: bytes = b""

    def body(self) -> bytes:
        return self.checkpoint


@dataclass(frozen=True)
class Event:
    """From the host: an event, numbered from 1, at a moment in seconds.

    kind is one of EventKind, or a number that a later host knows; data has its own bytes.
    """

    KIND: ClassVar[int] = 2
    number: int
    moment: int
    kind: int
    dpid: int
    data: bytes = b""

    def body(self) -> bytes:
        return _EVENT.pack(self.number, self.moment, self.kind, self.dpid) + self.data


@dataclass(frozen=True)
class Answer:
    """From the host, to one Message, Save, Keep or Undo.

    code   DONE; ERROR with kind and the standard's code in detail; STATS with the statistics' type in kind and their
           body in data; UNKNOWN_SWITCH
    """

    KIND: ClassVar[int] = 3
    DONE: ClassVar[int] = 0
    ERROR: ClassVar[int] = 1
    STATS: ClassVar[int] = 2
    UNKNOWN_SWITCH: ClassVar[int] = 3
    code: int
    kind: int = 0
    detail: int = 0
    data: bytes = b""

    def body(self) -> bytes:
        if self.code == self.ERROR:
            return struct.pack("!BHH", self.code, self.kind, self.detail)
        if self.code == self.STATS:
            return struct.pack("!BH", self.code, self.kind) + self.data
        return bytes([self.code])


_DONE = Answer(Answer.DONE)

AppFrame = Union[Message, Save, Keep, Undo, Done, Ready]
"""Any frame of an application."""

HostFrame = Union[Restore, Event, Answer]
"""Any frame of the host."""


def encode(frame: Union[AppFrame, HostFrame]) -> bytes:
    """The bytes of a frame; ValueError where something is out of its range."""
    body = frame.body()
    return struct.pack("!IB", 1 + len(body), frame.KIND) + body


def decode_app(data: bytes) -> Optional[tuple[AppFrame, int]]:
    """The frame of an application at the front with how many bytes it takes; None where it is yet to come.

    FrameError comes as soon as length or kind show the fault, and for a bad body once all of it is there.
    """
    length = int.from_bytes(data[:4], "big")
    if len(data) >= 4 and length > _MOST_LENGTH:
        raise FrameError("too long", f"{length:,} bytes and at most {_MOST_LENGTH:,} are allowed")
    whole = _whole(data, length, 6)
    return (_app_frame(*whole), 4 + length) if whole else None


def decode_host(data: bytes) -> Optional[tuple[HostFrame, int]]:
    """The frame of the host at the front, as `decode_app` has it; no length is too long. An event may be of any kind."""
    length = int.from_bytes(data[:4], "big")
    whole = _whole(data, length, 3)
    return (_host_frame(*whole), 4 + length) if whole else None


def _whole(data: bytes, length: int, kinds: int) -> Optional[tuple[int, bytes]]:
    """Kind and body of the frame at the front; None where it is yet to come."""
    if len(data) < 4:
        return None
    if length == 0:
        raise FrameError("bad kind", "a length of 0 leaves none")
    if len(data) < 5:
        return None
    if not 1 <= data[4] <= kinds:
        raise FrameError("bad kind", f"{data[4]} is not from 1 to {kinds}")
    return (data[4], data[5 : 4 + length]) if len(data) >= 4 + length else None


def _app_frame(kind: int, body: bytes) -> AppFrame:
    if kind == Message.KIND and 16 <= len(body) <= 8 + 0xFFFF:
        return Message(int.from_bytes(body[:8], "big"), body[8:])
    if kind == Done.KIND and len(body) >= 2 and body[0] <= 1 and body[1] <= 1 and (body[1] or len(body) == 2):
        return Done(bool(body[0]), body[2:] if body[1] else None)
    marks = {it.KIND: it for it in (Save, Keep, Undo, Ready)}
    if kind in marks and not body:
        return marks[kind]()
    raise FrameError("bad body", f"kind {kind} has no body of these {len(body)} bytes")


def _host_frame(kind: int, body: bytes) -> HostFrame:
    if kind == Restore.KIND:
        return Restore(body)
    if kind == Event.KIND and len(body) >= _EVENT.size:
        return Event(*_EVENT.unpack_from(body), body[_EVENT.size :])
    if kind == Answer.KIND and body == b"\0":
        return _DONE
    if kind == Answer.KIND and body:
        code = body[0]
        if code in (Answer.DONE, Answer.UNKNOWN_SWITCH) and len(body) == 1:
            return Answer(code)
        if code == Answer.ERROR and len(body) == 5:
            return Answer(*struct.unpack("!BHH", body))
        if code == Answer.STATS and len(body) >= 3:
            return Answer(code, int.from_bytes(body[1:3], "big"), 0, body[3:])
    raise FrameError("bad body", f"kind {kind} has no body of these {len(body)} bytes")
