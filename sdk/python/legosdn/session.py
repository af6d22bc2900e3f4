"""Writes sessions of LegoSDN in words, and explains sessions and reports.

    python3 -m legosdn.session write < WORDS      the session that these lines stand for
    python3 -m legosdn.session explain < TEXT     a session in words again, or a report with its actions in words

sdk/python/session.py is the same, where the library is not installed.

Both work line by line: line N of what comes out is line N of what went in. A line that has none of the words below stays as
it is, so every line of a session may be written as docs/SESSION.md has it. Behind two spaces and # stands a remark: `write`
drops it.

    switch 1 ports 1,2,5-8 room 8                       ports may be `none`; `buffers 2` may stand behind
    reply app: STEP; STEP; STEP                         what the application gives in its next turn
    frame 1 port 2 eth dst=.. src=.. type=0x88b5        a frame arrives; or HEX for eth and what follows
    raw 1 packet_in in=2 eth dst=.. src=.. type=0x88b5  the switch sends a message
    count 1 prio=100 packets=3 bytes=300                entries count

    STEP is a message with the number of its switch behind its name:
        add 1 in_port=1 prio=100 out=2          modify, modify_strict, delete, delete_strict likewise
        packet_out 1 in=1 out=2 eth dst=.. src=.. type=0x88b5
        stats flow 1 any                        stats aggregate, stats table, stats port, stats desc
        port_mod 1 port=2 addr=.. config=no_flood mask=no_flood
        barrier 1                               and every other message of legosdn.words
    or `done TEXT`, `stop TEXT` with a checkpoint in ASCII, or a step as docs/SESSION.md has it: done, closed, x:00 ..

Everything before the first line `---` is a policy and stays as it is. If a line cannot be read, nothing is written to standard
output, standard error says why, and the status is 1. It is 2 if the command is none.
"""

from __future__ import annotations

import re
import sys
from collections.abc import Callable

from . import frame_words, frames, words
from .actions import decode_actions
from .errors import DecodeError, FrameError
from .packet import Packet

SEPARATOR = "---"
TURNS = ("reply", "again")
"""First words of lines with steps: `again` is what an application gives when a turn is repeated to it."""

_HEX = re.compile(r"([0-9a-fA-F]{2})+")
_ENDS = ("done", "stop")
_REMARK = "  # "


def write(text: str) -> str:
    """The session of some lines in words; ValueError begins with the number of the line that is at fault."""
    return _by_line(text, write_line, lambda line: _without_remark(line) == SEPARATOR)


def explain(text: str) -> str:
    """The words of a session, or a report with remarks."""
    return _by_line(text, explain_line, SEPARATOR.__eq__)


def _by_line(text: str, change: Callable[[str], str], separates: Callable[[str], bool]) -> str:
    """Changes each line from the first one on that separates, or each line where none does; ends of lines stay."""
    lines = text.split("\n")
    plain = [line[:-1] if line.endswith("\r") else line for line in lines]
    first = next((at for at, line in enumerate(plain) if separates(line)), 0)
    for at in range(first, len(lines)):
        if plain[at] and not plain[at].startswith("#"):
            try:
                lines[at] = change(plain[at]) + lines[at][len(plain[at]) :]
            except ValueError as fault:
                raise ValueError(f"line {at + 1}: {fault}") from fault
    return "\n".join(lines)


def _without_remark(line: str) -> str:
    return re.sub(r"\s\s+#.*$", "", line)


# Words to sessions


def write_line(line: str) -> str:
    """One line of a session."""
    line = _without_remark(line)
    parts = line.split(" ")
    if parts[0] in TURNS and len(parts) > 1 and parts[1].endswith(":"):
        steps = line.split(":", 1)[1].split(";")
        return " ".join([parts[0], parts[1][:-1], *(_write_step(step.strip(" ")) for step in steps)])
    if parts[0] == "switch" and len(parts) > 2 and parts[2] in ("ports", "room", "buffers"):
        return _write_switch(parts)
    if parts[0] == "frame" and len(parts) > 4 and parts[2] == "port":
        data = parts[4] if len(parts) == 5 and _HEX.fullmatch(parts[4]) else frame_words.write(parts[4:]).hex()
        return f"frame {parts[1]} {parts[3]} {data}"
    if parts[0] == "raw" and len(parts) > 2 and words.split_name(parts[2:])[0] in words.NAMES_OF_MESSAGES:
        return f"raw {parts[1]} {words.read_message(*words.split_name(parts[2:])).hex()}"
    if parts[0] == "count" and len(parts) > 2 and "=" in parts[2]:
        given = _named(parts[2:], ("prio", "packets", "bytes"), "=")
        return " ".join(["count", parts[1], *given])
    return line


def _named(parts: list[str], names: tuple[str, ...], equals: str) -> list[str]:
    """The values of words NAME=VALUE, which may stand in any order, each once."""
    given = dict(part.partition(equals)[::2] for part in parts)
    if sorted(given) != sorted(names) or len(parts) != len(names):
        raise ValueError(f"{' '.join(parts)!r} has to be {', '.join(names)}, each once")
    return [given[name] for name in names]


def _write_switch(parts: list[str]) -> str:
    pairs = [" ".join(parts[at : at + 2]) for at in range(2, len(parts), 2)]
    names = ("room", "ports", "buffers") if "buffers" in parts else ("room", "ports")
    room, ports, *buffers = _named(pairs, names, " ")
    return " ".join(["switch", parts[1], room, _write_ports(ports), *buffers])


def _write_ports(text: str) -> str:
    if text in ("-", "none"):
        return "-"
    found = []
    for part in text.split(","):
        first, dash, last = part.partition("-")
        if not first.isdigit() or not (last or first).isdigit() or (dash and int(last or "0") > 0xFFFF):
            raise ValueError(f"ports are {text!r}, and must be like 1,2,5-8, or none")
        found += range(int(first), int(last) + 1) if dash else [first]
    return ",".join(map(str, found))


def _write_step(step: str) -> str:
    name, rest = words.split_name(step.split(" "))
    if name in words.NAMES_OF_MESSAGES:
        if not rest or not rest[0].isdigit():
            raise ValueError(f"{step!r} needs the number of a switch behind {name}")
        return f"m:{rest[0]}:{words.read_message(name, rest[1:]).hex()}"
    if name in _ENDS and rest:
        return f"{name}:{' '.join(rest).encode('ascii').hex()}"
    if not step or " " in step:
        raise ValueError(f"{step!r} is no step")
    return step


# Sessions and reports to words


def explain_line(line: str) -> str:
    """One line of a session in words, or one of a report with a remark.

    `write_line` makes the same line of it, with HEX in lower case; a line of which no words can be said stays as it is.
    """
    told = _explain_line(line)
    try:
        return told if write_line(told).lower() == line.lower() else line
    except ValueError:
        return line


def _explain_line(line: str) -> str:
    parts = line.split(" ")
    if "" in parts:
        return line
    if parts[0] in TURNS and len(parts) > 2 and not parts[1].endswith(":"):
        told = [_explain_step(step) for step in parts[2:]]
        remarks = [f"step {at + 1}: {remark}" for at, (_, remark) in enumerate(told) if remark]
        return _with_remark(f"{parts[0]} {parts[1]}: " + "; ".join(step for step, _ in told), "; ".join(remarks))
    if parts[0] == "switch" and len(parts) in (4, 5) and parts[2].isdigit():
        ports = "none" if parts[3] == "-" else parts[3]
        return f"switch {parts[1]} ports {ports} room {parts[2]}" + "".join(f" buffers {it}" for it in parts[4:])
    if parts[0] == "frame" and len(parts) == 4 and _HEX.fullmatch(parts[3]):
        data = bytes.fromhex(parts[3])
        told = frame_words.tell(data) or parts[3]
        return _with_remark(f"frame {parts[1]} port {parts[2]} {told}", _about_frame(data, told))
    if parts[0] == "raw" and len(parts) == 3 and _HEX.fullmatch(parts[2]):
        told, remark = _explain_message(bytes.fromhex(parts[2]))
        return _with_remark(f"raw {parts[1]} {told or parts[2]}", remark)
    if parts[0] == "count" and len(parts) == 5:
        return f"count {parts[1]} prio={parts[2]} packets={parts[3]} bytes={parts[4]}"
    if parts[0] == "flow" and parts[-1].startswith("actions="):
        return _with_remark(line, _about_actions(parts[-1].partition("=")[2]))
    return line


def _with_remark(line: str, remark: str) -> str:
    return line + _REMARK + remark if remark else line


def _explain_step(step: str) -> tuple[str, str]:
    """A step in words, and what there is to remark."""
    name, colon, digits = step.partition(":")
    if name == "m":
        dpid, _, digits = digits.partition(":")
        if not dpid.isdigit() or not _HEX.fullmatch(digits):
            return step, "no number of a switch and digits of a message"
        told, remark = _explain_message(bytes.fromhex(digits))
        return (words.with_switch(told, dpid) if told else step), remark
    if not colon:
        return step, ""
    if not _HEX.fullmatch(digits):
        return step, "no even number of digits"
    data = bytes.fromhex(digits)
    if name == "x":
        return step, _about_bytes(data)
    text = data.decode("latin-1")
    if name in _ENDS and re.fullmatch(r"[!-~]( ?[!-~])*", text) and ";" not in text:
        return f"{name} {text}", ""
    return step, f"a checkpoint of {_bytes(data)}"


def _explain_message(data: bytes) -> tuple[str, str]:
    """The words that make these bytes again, or none, and what there is to remark."""
    try:
        told = words.tell_message(data)
    except DecodeError as fault:
        return "", f"no message: {fault}"
    name, rest = words.split_name(told.split(" "))
    if name not in words.NAMES_OF_MESSAGES or words.read_message(name, rest) != data:
        return "", told
    if name == "error":
        return told, words.tell_error(*(int.from_bytes(data[at : at + 2], "big") for at in (8, 10)))
    _, eth, frame = told.partition(" eth ")
    return told, _about_frame(frame_words.write(["eth", *frame.split(" ")]), told) if eth else ""


def _about_frame(data: bytes, told: str) -> str:
    """What the words of a frame do not tell of it."""
    packet = Packet(data)
    if "payload=" in told and " ip " not in told and " arp " not in told and packet.nw_src:
        return str(packet.match())
    return ""


def _about_bytes(data: bytes) -> str:
    """The frames of an application that bytes spell, and what follows them."""
    told = []
    while data:
        try:
            found = frames.decode_app(data)
        except FrameError as fault:
            told.append(f"{_bytes(data)}, no frame ({fault})")
            break
        if found is None:
            told.append(f"{_bytes(data)} of a frame that does not end")
            break
        told.append(_about_app_frame(found[0]))
        data = data[found[1] :]
    return ", then ".join(told)


def _about_app_frame(frame: frames.AppFrame) -> str:
    if isinstance(frame, frames.Message):
        told, remark = _explain_message(frame.data)
        return f"for switch {frame.dpid}: {told or remark}"
    if isinstance(frame, frames.Done):
        state = "" if frame.checkpoint is None else f" with a checkpoint of {_bytes(frame.checkpoint)}"
        return ("stop" if frame.stop else "done") + state
    return type(frame).__name__.lower()


def _bytes(data: bytes) -> str:
    return f"{len(data)} byte{'s' * (len(data) != 1)}"


def _about_actions(digits: str) -> str:
    if digits != "-" and not _HEX.fullmatch(digits):
        return "no actions"
    try:
        return words.tell_actions(decode_actions(b"" if digits == "-" else bytes.fromhex(digits)))
    except DecodeError as fault:
        return f"no actions: {fault}"


def main(arguments: list[str]) -> int:
    """Runs one command; the answer is the status."""
    commands = {"write": write, "explain": explain}
    if len(arguments) != 1 or arguments[0] not in commands:
        print("usage: session.py write, session.py explain", file=sys.stderr)
        return 2
    try:
        text = commands[arguments[0]](sys.stdin.buffer.read().decode("latin-1"))
    except ValueError as fault:
        print(f"session.py: {fault}", file=sys.stderr)
        return 1
    sys.stdout.buffer.write(text.encode("latin-1"))
    return 0


if __name__ == "__main__":
    sys.exit(main(sys.argv[1:]))
