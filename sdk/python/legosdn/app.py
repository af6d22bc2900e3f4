"""The application: it is started by the host, told of events, and answers them over standard input and output."""

from __future__ import annotations

import contextlib
import json
import struct
import sys
from collections.abc import Callable, Iterable
from typing import Any, BinaryIO, Optional, Protocol, TypeVar

from . import frames, messages
from .actions import Action
from .codes import ALL_TABLES, DEFAULT_PRIORITY, NO_BUFFER, EventKind, FlowCommand, FlowFlag, Port, StatsKind
from .errors import FrameError, HostClosed, HostError, OpenFlowError, UnknownSwitch
from .events import (
    ErrorEvent,
    FlowRemovedEvent,
    JoinEvent,
    LeaveEvent,
    PacketInEvent,
    PortStatusEvent,
    read_event,
)
from .match import Match
from .stats import AggregateStats, DescStats, FlowQuestion, FlowStats, PortStats, TableStats

_NAMES = {int(it): it.name.lower() for it in EventKind}
_Handler = TypeVar("_Handler", bound=Callable[..., None])


class Host(Protocol):
    """The other end of an application."""

    def give(self, frame: frames.AppFrame) -> None:
        """Takes a frame of the application."""

    def take(self) -> Optional[frames.HostFrame]:
        """The next frame of the host; None if it has closed its end between two frames."""


class App:
    """An application. Make a class of it with methods such as `on_join`, or put `@app.on("join")` above functions;
    then call `run`. A class with an `__init__` of its own calls `super().__init__()` in it.

    A handler is called for one event at a time: its turn. In it the calls below change and ask switches, each named by
    its dpid, 0 to 2^64 - 1. A call comes back when the host has answered: what it changed then stands in the switch.
    When the handler returns, the turn is done and its changes stay together. If it raises, the program ends with a
    traceback on standard error; the host then takes back all that the turn changed, and starts the program again.

    Each call raises OpenFlowError if the host or the switch refuses it, UnknownSwitch if that switch is not joined,
    and MatchError or ValueError, before anything is sent, for a match or a number that cannot be.
    """

    def __init__(self) -> None:
        self._handlers: dict[str, Callable[[Any], None]] = {}
        self._host: Optional[Host] = None
        self._event: Optional[frames.Event] = None
        self._stop = False

    # Handlers

    def on_join(self, event: JoinEvent) -> None:
        """A switch joined."""

    def on_leave(self, event: LeaveEvent) -> None:
        """A switch left."""

    def on_packet_in(self, event: PacketInEvent) -> None:
        """A switch sent a frame, since no entry is for it or an entry says so."""

    def on_flow_removed(self, event: FlowRemovedEvent) -> None:
        """An entry went by a timeout, or by a deletion."""

    def on_port_status(self, event: PortStatusEvent) -> None:
        """A port came, went or changed."""

    def on_error(self, event: ErrorEvent) -> None:
        """A switch sent an error that answers no request."""

    def on(self, kind: str) -> Callable[[_Handler], _Handler]:
        """Makes the function below it the handler of a kind: `join`, `leave`, `packet_in`, `flow_removed`,
        `port_status` or `error`. It takes the event, and comes before a method of that kind."""
        if kind.upper() not in EventKind.__members__:
            raise ValueError(f"{kind!r} is no kind of event; there are {', '.join(it.name.lower() for it in EventKind)}")
        if kind in self._handlers:
            raise ValueError(f"there is a handler for {kind} already")

        def keep(handler: _Handler) -> _Handler:
            self._handlers[kind] = handler
            return handler

        return keep

    # The state that outlives a crash

    def get_state(self) -> Optional[bytes]:
        """The checkpoint that the host is given at the end of each turn, at most 1,048,576 bytes; None for none, which
        leaves the one that it has. Override it together with `set_state`; `to_json` makes bytes of plain values."""
        return None

    def set_state(self, state: bytes) -> None:
        """Takes back what `get_state` gave at the end of the last turn that was done. It is called before the first
        event, and not at all if the host has nothing but an empty checkpoint."""

    # Changes of the flow table

    def add_flow(
        self,
        dpid: int,
        match: Match,
        actions: Iterable[Action],
        *,
        priority: int = DEFAULT_PRIORITY,
        idle_timeout: int = 0,
        hard_timeout: int = 0,
        cookie: int = 0,
        check_overlap: bool = False,
        send_flow_removed: bool = False,
        buffer_id: int = NO_BUFFER,
    ) -> None:
        """Adds an entry, or replaces the one of the same match and priority. No actions drop the packet.

        priority                    0 to 65,535; of all entries for a packet the greatest counts
        idle_timeout, hard_timeout  in seconds, 0 to 65,535; 0 for none
        cookie                      0 to 2^64 - 1, kept with the entry
        check_overlap               refuse it (OFPFMFC_OVERLAP) if another entry of its priority overlaps
        send_flow_removed           tell this application when the entry goes
        buffer_id                   a packet in a buffer of the switch, to be sent as the entry says
        """
        flags = (FlowFlag.SEND_FLOW_REM if send_flow_removed else 0) | (FlowFlag.CHECK_OVERLAP if check_overlap else 0)
        timeouts = {"idle_timeout": idle_timeout, "hard_timeout": hard_timeout}
        rest = {"priority": priority, "cookie": cookie, "flags": int(flags), "buffer_id": buffer_id}
        self._change(dpid, match, actions, FlowCommand.ADD, **timeouts, **rest)

    def modify_flow(
        self,
        dpid: int,
        match: Match,
        actions: Iterable[Action],
        *,
        strict: bool = False,
        priority: int = DEFAULT_PRIORITY,
        idle_timeout: int = 0,
        hard_timeout: int = 0,
        cookie: int = 0,
        send_flow_removed: bool = False,
    ) -> None:
        """Gives entries other actions: all whose match is within this one, or with strict the one of exactly this match
        and priority. Where there is none, an entry is added, with the rest of the arguments as `add_flow` has them."""
        command = FlowCommand.MODIFY_STRICT if strict else FlowCommand.MODIFY
        timeouts = {"idle_timeout": idle_timeout, "hard_timeout": hard_timeout}
        flags = int(FlowFlag.SEND_FLOW_REM) if send_flow_removed else 0
        self._change(dpid, match, actions, command, priority=priority, cookie=cookie, flags=flags, **timeouts)

    def delete_flow(
        self,
        dpid: int,
        match: Match = Match(),
        *,
        strict: bool = False,
        priority: int = DEFAULT_PRIORITY,
        out_port: int = Port.NONE,
    ) -> None:
        """Removes entries: all whose match is within this one, or with strict the one of exactly this match and
        priority; with out_port only those that have an Output to that port."""
        command = FlowCommand.DELETE_STRICT if strict else FlowCommand.DELETE
        self._change(dpid, match, (), command, priority=priority if strict else 0, out_port=out_port)

    def _change(self, dpid: int, match: Match, actions: Iterable[Action], command: int, **rest: int) -> None:
        match.check()
        self.send(dpid, messages.FlowMod(match, tuple(actions), int(command), **rest))

    # Other changes

    def packet_out(
        self,
        dpid: int,
        actions: Iterable[Action],
        data: bytes = b"",
        *,
        in_port: int = Port.NONE,
        buffer_id: int = NO_BUFFER,
    ) -> None:
        """Sends a frame as the actions say when the turn is done, behind its changes; if the turn fails it is not sent.

        actions    Outputs say where it goes; Port.TABLE has the switch look it up in its table
        data       the whole frame
        in_port    the port that it is said to have come in by, 0 to 65,535; Port.NONE for none
        buffer_id  a buffer of the switch that has the frame, in place of data; LegoSDN takes none

        The host answers this call by itself. What the switch answers is an event of a later turn, also where it refuses
        an output (`on_error`).
        """
        if bool(data) == (buffer_id != NO_BUFFER):
            raise ValueError("a packet has its frame in data or in a buffer, and not in both")
        self.send(dpid, messages.PacketOut(tuple(actions), data, int(in_port), buffer_id))

    def port_mod(self, dpid: int, port_no: int, hw_addr: str, *, config: int, mask: int, advertise: int = 0) -> None:
        """Sets those bits of a port's config (PortConfig) that mask has to those of config. hw_addr is the port's own."""
        self.send(dpid, messages.PortMod(port_no, hw_addr, int(config), int(mask), advertise))

    def set_config(self, dpid: int, *, flags: int = 0, miss_send_len: int = 128) -> None:
        """Says how fragments are handled (0 for nothing special), and how many bytes of a frame that no entry is for are
        sent to the controller, 0 to 65,535."""
        self.send(dpid, messages.SetConfig(flags, miss_send_len))

    def barrier(self, dpid: int) -> None:
        """Waits until the switch has done all that was asked. LegoSDN does that after each change anyway."""
        self.send(dpid, messages.BarrierRequest())

    # Statistics

    def flow_stats(
        self, dpid: int, match: Match = Match(), *, table_id: int = ALL_TABLES, out_port: int = Port.NONE
    ) -> list[FlowStats]:
        """The entries whose match is within this one; with out_port only those with an Output to that port."""
        match.check()
        question = FlowQuestion(match, table_id, int(out_port))
        return FlowStats.decode_all(self._ask(dpid, StatsKind.FLOW, question.encode()))

    def aggregate_stats(
        self, dpid: int, match: Match = Match(), *, table_id: int = ALL_TABLES, out_port: int = Port.NONE
    ) -> AggregateStats:
        """The same entries as `flow_stats`, added up."""
        match.check()
        question = FlowQuestion(match, table_id, int(out_port))
        return AggregateStats.decode(self._ask(dpid, StatsKind.AGGREGATE, question.encode()))

    def table_stats(self, dpid: int) -> list[TableStats]:
        """The tables of a switch."""
        return TableStats.decode_all(self._ask(dpid, StatsKind.TABLE))

    def port_stats(self, dpid: int, port_no: int = Port.NONE) -> list[PortStats]:
        """What a port has counted; without a number all ports."""
        return PortStats.decode_all(self._ask(dpid, StatsKind.PORT, struct.pack("!H6x", port_no)))

    def desc_stats(self, dpid: int) -> DescStats:
        """What a switch says of itself."""
        return DescStats.decode(self._ask(dpid, StatsKind.DESC))

    def _ask(self, dpid: int, kind: StatsKind, question: bytes = b"") -> bytes:
        answer = self.send(dpid, messages.StatsRequest(int(kind), question))
        if answer is None or answer.kind != kind:
            raise HostError(f"the answer to statistics of kind {kind.name} is {answer}")
        return answer.data

    # Marks within a turn

    def save(self) -> None:
        """Marks the state of all switches. At most 7 marks may be open, and none at the end of a turn."""
        self._exchange(frames.Save())

    def keep(self) -> None:
        """Forgets the newest mark, and keeps what was changed since."""
        self._exchange(frames.Keep())

    def undo(self) -> None:
        """Takes back what was changed since the newest mark, over all switches, and forgets the mark."""
        self._exchange(frames.Undo())

    # Turns

    def stop(self) -> None:
        """Ends the way of this event: no further application is given it once this turn is done."""
        self._in_turn()
        self._stop = True

    def log(self, *values: object) -> None:
        """Writes a line to standard error, with the number of the event in front. Standard output belongs to the host."""
        print(f"event {self._event.number}:" if self._event else "start:", *values, file=sys.stderr, flush=True)

    def send(self, dpid: int, message: messages.Message) -> Optional[messages.StatsReply]:
        """Sends any message to a switch and awaits the answer: None for done, or the whole body of statistics."""
        answer = self._exchange(frames.Message(dpid, messages.encode(message)))
        if answer.code == frames.Answer.ERROR:
            raise OpenFlowError(answer.kind, answer.detail)
        if answer.code == frames.Answer.UNKNOWN_SWITCH:
            raise UnknownSwitch(dpid)
        return messages.StatsReply(answer.kind, answer.data) if answer.code == frames.Answer.STATS else None

    def run(self, source: Optional[BinaryIO] = None, sink: Optional[BinaryIO] = None) -> None:
        """Speaks with the host until it closes its end: over standard input and output, or over these streams.

        While it runs, what the program prints goes to standard error.
        """
        with contextlib.redirect_stdout(sys.stderr):
            self.serve(_Streams(source or sys.stdin.buffer, sink or sys.__stdout__.buffer))

    def serve(self, host: Host) -> None:
        """Speaks with a host until it closes its end."""
        self._host = host
        try:
            self._start(host)
            for frame in iter(host.take, None):
                if not isinstance(frame, frames.Event):
                    raise HostError(f"{type(frame).__name__} stands where an Event has to")
                self._event, self._stop = frame, False
                host.give(self._turn(frame))
                self._event = None
        finally:
            self._host = self._event = None

    def _start(self, host: Host) -> None:
        frame = host.take()
        if frame is None:
            return
        if not isinstance(frame, frames.Restore):
            raise HostError(f"the first frame is {type(frame).__name__} and not Restore")
        if frame.checkpoint:
            self.set_state(frame.checkpoint)
        host.give(frames.Ready())

    def _turn(self, frame: frames.Event) -> frames.Done:
        event = read_event(frame)
        if event is None:
            return frames.Done()
        kind = _NAMES[frame.kind]
        handler = self._handlers.get(kind) or getattr(self, f"on_{kind}")
        handler(event)
        return frames.Done(self._stop, self.get_state())

    def _exchange(self, frame: frames.AppFrame) -> frames.Answer:
        """Gives a frame that is answered, and takes the answer."""
        host = self._in_turn()
        host.give(frame)
        answer = host.take()
        if answer is None:
            raise HostClosed("the host closed its end and did not answer")
        if not isinstance(answer, frames.Answer):
            raise HostError(f"{type(answer).__name__} stands where an Answer has to")
        return answer

    def _in_turn(self) -> Host:
        if self._host is None or self._event is None:
            raise RuntimeError("a switch can be asked only while an event is handled")
        return self._host


class _Streams:
    """A host behind two streams."""

    def __init__(self, source: BinaryIO, sink: BinaryIO) -> None:
        self._source, self._sink = source, sink

    def give(self, frame: frames.AppFrame) -> None:
        self._sink.write(frames.encode(frame))
        self._sink.flush()

    def take(self) -> Optional[frames.HostFrame]:
        front = self._source.read(4)
        if not front:
            return None
        data = front + self._source.read(int.from_bytes(front, "big"))
        try:
            found = frames.decode_host(data)
        except FrameError as fault:
            raise HostError(f"the host gave no frame: {fault}") from fault
        if found is None:
            raise HostClosed("the host closed its end in the middle of a frame")
        return found[0]


def to_json(value: object) -> bytes:
    """A state made of dicts, lists, texts, numbers, booleans and None as bytes, the same bytes for the same state.

    The keys of a dict become texts. ValueError where the value has no such form.
    """
    return json.dumps(value, sort_keys=True, separators=(",", ":"), allow_nan=False).encode()


def from_json(state: bytes) -> Any:
    """The value that `to_json` made bytes of."""
    return json.loads(state)
