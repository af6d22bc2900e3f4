"""Unit tests of an application, made of a recorded run of it.

    from legosdn import recording
    from my_app import MyApp

    TestMyApp = recording.test_case("crash.txt", MyApp)

The class has a test for each life of the application in the recording: it starts from the state that was kept then, is given the
events of the recorded turns, and has to say in each turn that was done what it said then. Of a turn that failed it has to come to
an end: such a test fails until the application is mended.

A recording holds what happened to switches, and not the events themselves. An event is made again of each line `join`, `leave`,
`port` and of each `raw` with a PACKET_IN or an ERROR, as real switches make them; a run over simulated frames, entries that
expire, or an application that is not given all kinds of events, has to name its own: `given=`.
"""

from __future__ import annotations

import unittest
from collections.abc import Callable, Iterable, Iterator, Sequence
from dataclasses import dataclass, field
from typing import Optional

from . import frames, messages, rehearsal, session
from .app import App
from .codes import EventKind, PortReason


@dataclass
class Turn:
    """What an application said to one event, and whether it came to an end."""

    frames: list[frames.AppFrame] = field(default_factory=list)

    @property
    def done(self) -> Optional[frames.Done]:
        """The frame that ended it; None where it failed."""
        return next((frame for frame in self.frames if isinstance(frame, frames.Done)), None)

    @property
    def said(self) -> list[str]:
        """Its requests in the words of `session.py`."""
        return rehearsal.Turn(self.frames).said


@dataclass
class Life:
    """What an application did between two starts, from a state."""

    state: bytes
    turns: list[Turn] = field(default_factory=list)


def lives(text: str, name: str = "app") -> list[Life]:
    """The lives of the application of this name that got ready, in their order."""
    found: list[Life] = []
    state, rest = b"", b""
    for parts in _lines(text):
        if parts[0] == "start" and parts[1] == name and parts[2] == "ready":
            found.append(Life(state))
            rest = b""
        elif parts[0] == "reply" and parts[1] == name:
            if not found:
                found.append(Life(state))
            turn, rest = _turn(rest + b"".join(_bytes_of(step) for step in parts[2:]))
            found[-1].turns.append(turn)
            if turn.done and turn.done.checkpoint is not None:
                state = turn.done.checkpoint
    return found


def events(text: str) -> list[frames.Event]:
    """The events that a real switch's run has: one of each line that surely makes one."""
    ports: dict[int, list[int]] = {}
    made, moment = [], 0
    for parts in _lines(text):
        if parts[0] == "switch":
            ports[int(parts[1])] = [] if parts[3] == "-" else [int(it) for it in parts[3].split(",")]
        elif parts[0] == "at":
            moment = int(parts[1])
        else:
            made += _events_of(parts, ports, moment)
    return made


def test_case(
    path: str,
    make: Callable[[], App],
    name: str = "app",
    answer: Callable[[int, messages.Message], rehearsal.Outcome] = rehearsal.refuse_statistics,
    given: Optional[Sequence[frames.Event]] = None,
) -> type[unittest.TestCase]:
    """A class of tests, one for each life of the application of this name in the recording."""
    with open(path, encoding="latin-1") as file:
        text = file.read()
    left = list(events(text) if given is None else given)
    tests: dict[str, object] = {"__doc__": f"What {name} did in {path}."}
    for number, life in enumerate(lives(text, name), 1):
        mine, left = left[: len(life.turns)], left[len(life.turns) :]
        tests[f"test_life_{number}"] = _test(make, life, mine, answer)
    return type("Recorded", (unittest.TestCase,), tests)


test_case.__test__ = False  # type: ignore[attr-defined]  # (it makes tests, and is none)


def _test(
    make: Callable[[], App], life: Life, given: list[frames.Event], answer: Callable[[int, messages.Message], rehearsal.Outcome]
) -> Callable[[unittest.TestCase], None]:
    def test(case: unittest.TestCase) -> None:
        turns = rehearsal.rehearse(make(), given, answer, life.state)
        case.assertEqual(len(turns), len(life.turns), "it came to an end early")
        for number, (turn, recorded) in enumerate(zip(turns, life.turns), 1):
            case.assertIsNone(turn.raised, f"turn {number}")
            if recorded.done:
                case.assertEqual(turn.said, recorded.said, f"turn {number}")

    return test


def _lines(text: str) -> Iterator[list[str]]:
    """The words of each line of the session."""
    lines = text.splitlines()
    begin = lines.index(session.SEPARATOR) + 1 if session.SEPARATOR in lines else 0
    for line in lines[begin:]:
        if line and not line.startswith("#") and line != "session 1":
            yield line.split(" ")


def _turn(data: bytes) -> tuple[Turn, bytes]:
    """The frames up to the one that ends the turn, and the bytes behind it."""
    turn = Turn()
    while True:
        found = frames.decode_app(data)
        if found is None:
            return turn, b""
        turn.frames.append(found[0])
        data = data[found[1] :]
        if isinstance(found[0], frames.Done):
            return turn, data


_MARKS = {"save": frames.Save, "keep": frames.Keep, "undo": frames.Undo}


def _bytes_of(step: str) -> bytes:
    """The bytes that a step gives."""
    name, colon, digits = step.partition(":")
    if name == "x":
        return bytes.fromhex(digits)
    if name == "m":
        dpid, _, data = digits.partition(":")
        return frames.encode(frames.Message(int(dpid), bytes.fromhex(data)))
    if name in ("done", "stop"):
        return frames.encode(frames.Done(name == "stop", bytes.fromhex(digits) if colon else None))
    return frames.encode(_MARKS[name]()) if name in _MARKS else b""


def _events_of(parts: list[str], ports: dict[int, list[int]], moment: int) -> Iterable[frames.Event]:
    dpid = int(parts[1]) if parts[1].isdigit() else 0
    if parts[0] == "join":
        yield rehearsal.join(dpid, ports.get(dpid, []), moment)
    elif parts[0] == "leave":
        yield rehearsal.leave(dpid, ports.get(dpid, []), moment)
    elif parts[0] == "port":
        reason = {"add": PortReason.ADD, "delete": PortReason.DELETE}.get(parts[3], PortReason.MODIFY)
        yield rehearsal.port_status(dpid, int(parts[2]), parts[3] != "down", reason, moment)
    elif parts[0] == "raw":
        message = messages.decode(bytes.fromhex(parts[2]))[1]
        if isinstance(message, messages.PacketIn):
            data = messages.encode(message)
            yield frames.Event(0, moment, int(EventKind.PACKET_IN), dpid, data)
        elif isinstance(message, messages.Error):
            yield rehearsal.error(dpid, message.kind, message.code, moment)
