"""A host within one program, to try an application without a controller: events go in, what it says comes out.

    turns = rehearse(LearningSwitch(), [join(1, [1, 2]), packet_in(1, 1, "eth dst=.. src=.. type=0x88b5")])
    turns[0].said     ["add 1 any out=flood out=controller:65535"]
    turns[0].line()   the line of a session in which an application says the same

There is no switch behind it: what is asked is answered as `answer` says, and events are those that are given.
"""

from __future__ import annotations

from collections.abc import Callable, Iterable, Sequence
from dataclasses import dataclass, field, replace
from typing import Optional, Union

from . import frame_words, frames, messages, words
from .app import App
from .codes import NO_BUFFER, EventKind, PacketInReason, PortReason, PortState
from .errors import OpenFlowError, UnknownSwitch
from .match import Match

Outcome = Union[None, OpenFlowError, UnknownSwitch, messages.StatsReply]
"""How a message is answered: done, refused, for no switch that is joined, or by statistics."""


@dataclass
class Turn:
    """What an application said to one event, or what it raised in place of an end."""

    frames: list[frames.AppFrame] = field(default_factory=list)
    raised: Optional[Exception] = None

    @property
    def said(self) -> list[str]:
        """Its requests in the words of `session.py`, such as `add 1 in_port=1 prio=100 out=2`."""
        return [_in_words(frame) for frame in self.frames if not isinstance(frame, frames.Done)]

    @property
    def stop(self) -> bool:
        """Whether it said `stop`."""
        return any(isinstance(frame, frames.Done) and frame.stop for frame in self.frames)

    @property
    def state(self) -> Optional[bytes]:
        """The state that it handed over; None for none."""
        return next((frame.checkpoint for frame in self.frames if isinstance(frame, frames.Done)), None)

    def line(self, name: str = "app") -> str:
        """The line of a session in which the application of this name says the same, and closes if it raised."""
        steps = [_step(frame) for frame in self.frames] + ["closed"] * (self.raised is not None)
        return " ".join(["reply", name, *steps])


def refuse_statistics(dpid: int, message: messages.Message) -> Outcome:
    """Everything is done but statistics: OFPBRC_BAD_TYPE."""
    return OpenFlowError(1, 1) if isinstance(message, messages.StatsRequest) else None


def rehearse(
    app: App,
    events: Iterable[frames.Event],
    answer: Callable[[int, messages.Message], Outcome] = refuse_statistics,
    state: bytes = b"",
) -> list[Turn]:
    """Starts an application from a state, gives it events one by one, and keeps what it says in each turn.

    If it raises, that turn is the last one, as a host would end it there. What it raises at its start is raised here.
    """
    host = _Rehearsal(list(events), answer, state)
    try:
        app.serve(host)
    except Exception as fault:
        if not host.turns:
            raise
        host.turns[-1].raised = fault
    return host.turns


class _Rehearsal:
    """The host of a rehearsal."""

    def __init__(self, events: list[frames.Event], answer: Callable[[int, messages.Message], Outcome], state: bytes) -> None:
        self.turns: list[Turn] = []
        self._events, self._answer = events, answer
        self._next: Optional[frames.HostFrame] = frames.Restore(state)

    def give(self, frame: frames.AppFrame) -> None:
        if isinstance(frame, frames.Ready):
            return
        self.turns[-1].frames.append(frame)
        if isinstance(frame, frames.Message):
            self._next = _answer(self._answer(frame.dpid, messages.decode(frame.data)[1]))
        elif not isinstance(frame, frames.Done):
            self._next = frames.Answer(frames.Answer.DONE)

    def take(self) -> Optional[frames.HostFrame]:
        frame, self._next = self._next, None
        if frame is None and len(self.turns) < len(self._events):
            frame = replace(self._events[len(self.turns)], number=len(self.turns) + 1)
            self.turns.append(Turn())
        return frame


def join(dpid: int, ports: Sequence[int] = (), moment: int = 0) -> frames.Event:
    """A switch joins with these ports, which are described as a simulated switch describes its own."""
    reply = messages.FeaturesReply(dpid, 0, 1, 0x87, 0x7FF, tuple(port_of(dpid, it) for it in ports))
    return _event(EventKind.JOIN, dpid, messages.encode(reply), moment)


def leave(dpid: int, ports: Sequence[int] = (), moment: int = 0) -> frames.Event:
    """A switch leaves that had these ports."""
    return _event(EventKind.LEAVE, dpid, b"".join(port_of(dpid, it).encode() for it in ports), moment)


def packet_in(
    dpid: int, in_port: int, frame: Union[str, bytes], reason: int = PacketInReason.ACTION, moment: int = 0
) -> frames.Event:
    """A frame is sent to the controller: its bytes, or its words as `legosdn.frame_words` has them."""
    data = frame_words.write(frame.split(" ")) if isinstance(frame, str) else frame
    message = messages.PacketIn(NO_BUFFER, len(data), in_port, int(reason), data)
    return _event(EventKind.PACKET_IN, dpid, messages.encode(message), moment)


def flow_removed(dpid: int, match: Match, moment: int = 0, **fields: int) -> frames.Event:
    """An entry went; fields are those of `legosdn.messages.FlowRemoved`."""
    return _event(EventKind.FLOW_REMOVED, dpid, messages.encode(messages.FlowRemoved(match, **fields)), moment)


def port_status(
    dpid: int, port_no: int, up: bool = True, reason: int = PortReason.MODIFY, moment: int = 0
) -> frames.Event:
    """A port came, went or changed: its link is up, or down."""
    port = replace(port_of(dpid, port_no), state=0 if up else int(PortState.LINK_DOWN))
    return _event(EventKind.PORT_STATUS, dpid, messages.encode(messages.PortStatus(int(reason), port)), moment)


def error(dpid: int, kind: int, code: int, moment: int = 0) -> frames.Event:
    """A switch sends an error unasked."""
    return _event(EventKind.ERROR, dpid, messages.Error(kind, code).body(), moment)


def port_of(dpid: int, number: int) -> messages.PortDesc:
    """A port as a simulated switch describes it."""
    low = dpid & 0xFFFF
    return messages.PortDesc(number, f"02:00:{low >> 8:02x}:{low & 0xFF:02x}:{number >> 8:02x}:{number & 0xFF:02x}", f"p{number}")


def _event(kind: EventKind, dpid: int, data: bytes, moment: int) -> frames.Event:
    return frames.Event(0, moment, int(kind), dpid, data)


def _answer(outcome: Outcome) -> frames.Answer:
    if outcome is None:
        return frames.Answer(frames.Answer.DONE)
    if isinstance(outcome, OpenFlowError):
        return frames.Answer(frames.Answer.ERROR, outcome.kind, outcome.code)
    if isinstance(outcome, UnknownSwitch):
        return frames.Answer(frames.Answer.UNKNOWN_SWITCH)
    return frames.Answer(frames.Answer.STATS, outcome.kind, 0, outcome.data)


def _in_words(frame: frames.AppFrame) -> str:
    if isinstance(frame, frames.Message):
        return words.with_switch(words.tell_message(frame.data), frame.dpid)
    return type(frame).__name__.lower()


def _step(frame: frames.AppFrame) -> str:
    """A frame as a step of a session."""
    if isinstance(frame, frames.Message):
        return f"m:{frame.dpid}:{frame.data.hex()}"
    if not isinstance(frame, frames.Done):
        return type(frame).__name__.lower()
    name = "stop" if frame.stop else "done"
    # A session has no checkpoint of no bytes.
    return f"{name}:{frame.checkpoint.hex()}" if frame.checkpoint else name
