"""OpenFlow messages and actions in words, and words as messages.

    add in_port=1 prio=100 idle=60 out=2           delete any
    packet_out in=1 out=flood eth dst=ff:ff:ff:ff:ff:ff src=02:00:00:00:00:01 type=0x88b5
    stats flow dl_type=0x0800 nw_dst=10.0.0.0/24   port_mod port=2 addr=02:00:00:01:00:02 config=no_flood mask=no_flood

A word that is left out has its default, which is mostly 0. Actions happen in the order of their words. Numbers are
decimal, or hexadecimal behind 0x.
"""

from __future__ import annotations

import struct
from collections.abc import Callable, Iterable, Sequence
from dataclasses import dataclass, field
from enum import IntEnum, IntFlag
from typing import Any, NamedTuple, Union

from . import actions, frame_words, messages
from .codes import ALL_TABLES, NO_BUFFER, FlowCommand, FlowFlag, PacketInReason, Port, PortConfig, StatsKind
from .errors import DecodeError, error_names
from .fields import check_range, mac_bytes, mac_text
from .match import NAMES, Match, field_of
from .stats import FlowQuestion


class _Kind(NamedTuple):
    """How the value of a word is read, and how it is told."""

    read: Callable[[str], Any]
    tell: Callable[[Any], str]


def _number(most: int) -> _Kind:
    def read(text: str) -> int:
        try:
            number = int(text, 16 if text.startswith("0x") else 10)
        except ValueError:
            raise ValueError(f"{text!r} is no number") from None
        check_range("the number", number, most)
        return number

    return _Kind(read, str)


def _named(kind: type[IntEnum], most: int) -> _Kind:
    names = {it.name.lower(): int(it) for it in kind}
    numbers = {number: name for name, number in names.items()}
    plain = _number(most)
    return _Kind(lambda text: names[text] if text in names else plain.read(text), lambda it: numbers.get(it, str(it)))


def _flags(kind: type[IntFlag], most: int) -> _Kind:
    """Names joined by +, or a number."""
    names = {it.name.lower(): int(it) for it in kind}
    plain = _number(most)

    def read(text: str) -> int:
        parts = text.split("+")
        return sum({names[part] for part in parts}) if all(part in names for part in parts) else plain.read(text)

    def tell(value: int) -> str:
        known = [name for name, bit in names.items() if value & bit]
        return "+".join(known) if known and sum(names[name] for name in known) == value else str(value)

    return _Kind(read, tell)


_U8, _U16, _U32, _U64 = (_number((1 << bits) - 1) for bits in (8, 16, 32, 64))
_PORT = _named(Port, 0xFFFF)
_HEX = _Kind(bytes.fromhex, bytes.hex)
_MAC = _Kind(lambda text: mac_text(mac_bytes(text)), str)
_BUFFER = _Kind(lambda text: NO_BUFFER if text == "none" else _U32.read(text), lambda it: "none" if it == NO_BUFFER else str(it))
_TABLE = _Kind(lambda text: ALL_TABLES if text == "all" else _U8.read(text), lambda it: "all" if it == ALL_TABLES else str(it))


class _Word(NamedTuple):
    """A word NAME=VALUE of a message: the field that it sets, and what the field is without it (None: it is needed)."""

    field: str
    kind: _Kind
    default: Any = None


@dataclass(frozen=True)
class _Question:
    """A STATS_REQUEST whose body is taken apart."""

    kind: int
    flags: int = 0
    match: Match = Match()
    table_id: int = ALL_TABLES
    out_port: int = Port.NONE
    port: int = Port.NONE
    data: bytes = b""

    def message(self) -> messages.StatsRequest:
        body = self.data
        if self.kind in (StatsKind.FLOW, StatsKind.AGGREGATE):
            body = FlowQuestion(self.match, self.table_id, self.out_port).encode()
        elif self.kind == StatsKind.PORT:
            body = struct.pack("!H6x", self.port)
        return messages.StatsRequest(self.kind, body, self.flags)

    @classmethod
    def of(cls, message: messages.StatsRequest) -> _Question:
        kind, flags, data = message.kind, message.flags, message.data
        if kind in (StatsKind.FLOW, StatsKind.AGGREGATE):
            asked = FlowQuestion.decode(data)
            return cls(kind, flags, asked.match, asked.table_id, asked.out_port)
        if kind == StatsKind.PORT and len(data) == 8:
            return cls(kind, flags, port=int.from_bytes(data[:2], "big"))
        if kind in (StatsKind.TABLE, StatsKind.DESC):
            return cls(kind, flags, data=data)
        raise DecodeError(f"statistics of kind {kind} have no words of their own")


@dataclass(frozen=True)
class _Form:
    """How a message is written: its class, the fields that its name says, its words, and what else it may have."""

    kind: type
    says: dict[str, int] = field(default_factory=dict)
    words: dict[str, _Word] = field(default_factory=dict)
    match: bool = False
    actions: bool = False
    frame: bool = False


_DATA = {"data": _Word("data", _HEX, b"")}
_PRIORITY = {"prio": _Word("priority", _U16, 0)}
_FLOW = {
    **_PRIORITY,
    "cookie": _Word("cookie", _U64, 0),
    "idle": _Word("idle_timeout", _U16, 0),
    "hard": _Word("hard_timeout", _U16, 0),
    "buffer": _Word("buffer_id", _BUFFER, NO_BUFFER),
    "out_port": _Word("out_port", _PORT, Port.NONE),
    "flags": _Word("flags", _flags(FlowFlag, 0xFFFF), 0),
}
_FLAGS = {"flags": _Word("flags", _U16, 0)}
_ASKED = {"table": _Word("table_id", _TABLE, ALL_TABLES), "out_port": _Word("out_port", _PORT, Port.NONE), **_FLAGS}
_CONFIG = {**_FLAGS, "miss_send_len": _Word("miss_send_len", _U16, 128)}
_BITS = _flags(PortConfig, 0xFFFF_FFFF)

_FORMS: dict[str, _Form] = {
    "hello": _Form(messages.Hello, words=_DATA),
    "error": _Form(messages.Error, words={"kind": _Word("kind", _U16), "code": _Word("code", _U16), **_DATA}),
    "echo_request": _Form(messages.EchoRequest, words=_DATA),
    "echo_reply": _Form(messages.EchoReply, words=_DATA),
    "vendor": _Form(messages.Vendor, words={"vendor": _Word("vendor", _U32), **_DATA}),
    "features_request": _Form(messages.FeaturesRequest),
    "get_config_request": _Form(messages.GetConfigRequest),
    "get_config_reply": _Form(messages.GetConfigReply, words=_CONFIG),
    "set_config": _Form(messages.SetConfig, words=_CONFIG),
    "packet_in": _Form(
        messages.PacketIn,
        words={
            "in": _Word("in_port", _PORT),
            "reason": _Word("reason", _named(PacketInReason, 0xFF), 0),
            "buffer": _Word("buffer_id", _BUFFER, NO_BUFFER),
            "total_len": _Word("total_len", _U16),
            **_DATA,
        },
        frame=True,
    ),
    "packet_out": _Form(
        messages.PacketOut,
        words={"in": _Word("in_port", _PORT, Port.NONE), "buffer": _Word("buffer_id", _BUFFER, NO_BUFFER), **_DATA},
        actions=True,
        frame=True,
    ),
    **{it.name.lower(): _Form(messages.FlowMod, {"command": int(it)}, _FLOW, match=True, actions=True) for it in FlowCommand},
    "flow_mod": _Form(messages.FlowMod, words={"command": _Word("command", _U16), **_FLOW}, match=True, actions=True),
    "port_mod": _Form(
        messages.PortMod,
        words={
            "port": _Word("port_no", _PORT),
            "addr": _Word("hw_addr", _MAC),
            "config": _Word("config", _BITS, 0),
            "mask": _Word("mask", _BITS, 0),
            "advertise": _Word("advertise", _U32, 0),
        },
    ),
    "stats flow": _Form(_Question, {"kind": int(StatsKind.FLOW)}, _ASKED, match=True),
    "stats aggregate": _Form(_Question, {"kind": int(StatsKind.AGGREGATE)}, _ASKED, match=True),
    "stats port": _Form(_Question, {"kind": int(StatsKind.PORT)}, {"port": _Word("port", _PORT, Port.NONE), **_FLAGS}),
    "stats table": _Form(_Question, {"kind": int(StatsKind.TABLE)}, {**_FLAGS, **_DATA}),
    "stats desc": _Form(_Question, {"kind": int(StatsKind.DESC)}, {**_FLAGS, **_DATA}),
    "stats other": _Form(messages.StatsRequest, words={"kind": _Word("kind", _U16), **_FLAGS, **_DATA}),
    "barrier": _Form(messages.BarrierRequest),
    "barrier_reply": _Form(messages.BarrierReply),
    "queue_get_config_request": _Form(messages.QueueGetConfigRequest, words={"port": _Word("port", _PORT)}),
}
NAMES_OF_MESSAGES = tuple(_FORMS)
"""The names that a message can begin with; some are two words."""

# The actions that have a value: their class, and the words of its fields between colons.
_ACTIONS: dict[str, tuple[type, tuple[_Kind, ...]]] = {
    "out": (actions.Output, (_PORT, _U16)),
    "set_vlan_vid": (actions.SetVlanVid, (_U16,)),
    "set_vlan_pcp": (actions.SetVlanPcp, (_U8,)),
    "set_dl_src": (actions.SetDlSrc, (_Kind(str, str),)),
    "set_dl_dst": (actions.SetDlDst, (_Kind(str, str),)),
    "set_nw_src": (actions.SetNwSrc, (_Kind(str, str),)),
    "set_nw_dst": (actions.SetNwDst, (_Kind(str, str),)),
    "set_nw_tos": (actions.SetNwTos, (_U8,)),
    "set_tp_src": (actions.SetTpSrc, (_U16,)),
    "set_tp_dst": (actions.SetTpDst, (_U16,)),
    "enqueue": (actions.Enqueue, (_PORT, _U32)),
    "vendor_action": (actions.VendorAction, (_HEX,)),
}
_STRIP, _NO_ACTION = "strip_vlan", "drop"


def read_message(name: str, words: Sequence[str]) -> bytes:
    """The message of this name and these words; ValueError says what is wrong with them."""
    if name not in _FORMS:
        raise ValueError(f"{name!r} is no message; there are {', '.join(NAMES_OF_MESSAGES)}")
    form = _FORMS[name]
    given: dict[str, Any] = dict(form.says)
    match: dict[str, Any] = {}
    done: list[actions.Action] = []
    xid, left = 0, list(words)
    while left:
        word = left.pop(0)
        key, equals, value = word.partition("=")
        if word == "eth" and form.frame and "data" not in given:
            given["data"], left = frame_words.write([word, *left]), []
        elif (word == "any" and form.match) or (word == _NO_ACTION and form.actions):
            continue
        elif key == "xid" and equals:
            xid = _U32.read(value)
        elif key in form.words and equals and form.words[key].field not in given:
            given[form.words[key].field] = _value(key, form.words[key].kind, value)
        elif form.match and key in NAMES and equals and key not in match:
            match[key] = field_of(key, value)
        elif form.actions and (word == _STRIP or (equals and key in _ACTIONS)):
            done.append(_action(key, value))
        else:
            raise ValueError(f"{word!r} is no word of {name}, or the second of its name")
    return messages.encode(_made(name, form, given, Match(**match), tuple(done)), xid)


def tell_message(data: bytes) -> str:
    """The name and the words of a message; DecodeError where the bytes are none.

    `read_message` makes a message of them that means the same: pads and ignored bits may differ, and a message that only
    switches send may have no more than a name and a size.
    """
    xid, message = messages.decode(data)
    name, value = _form_of(message)
    if name not in _FORMS:
        return f"{name} of {len(data)} bytes"
    form = _FORMS[name]
    words = [name]
    if form.match:
        words += value.match.words() or ["any"]
    for key, (where, kind, default) in form.words.items():
        it = getattr(value, where)
        usual = len(value.data) if where == "total_len" else default
        if it != usual and not (form.frame and where == "data"):
            words.append(f"{key}={kind.tell(it)}")
    if xid:
        words.append(f"xid={xid}")
    if form.actions and (value.actions or name not in ("delete", "delete_strict")):
        words.append(tell_actions(value.actions))
    if form.frame and value.data:
        words.append(frame_words.tell(value.data) or f"data={value.data.hex()}")
    return " ".join(words)


def split_name(words: Sequence[str]) -> tuple[str, list[str]]:
    """The name of a message, which is one word or `stats` and another, and the words behind it."""
    size = 2 if words[:1] == ["stats"] else 1
    return " ".join(words[:size]), list(words[size:])


def with_switch(told: str, dpid: Union[int, str]) -> str:
    """A message in words with the number of its switch behind the name, as a step of a session has it."""
    name, rest = split_name(told.split(" "))
    return " ".join([name, str(dpid), *rest])


def tell_error(kind: int, code: int) -> str:
    """An error by the standard's names."""
    return "/".join(error_names(kind, code))


def tell_actions(done: Iterable[actions.Action]) -> str:
    """A list of actions in words: `set_vlan_vid=5 out=2`; `drop` if it is empty."""
    return " ".join(map(_tell_action, done)) or _NO_ACTION


def _value(key: str, kind: _Kind, text: str) -> Any:
    try:
        return kind.read(text)
    except ValueError as fault:
        raise ValueError(f"{key}: {fault}") from None


def _action(key: str, text: str) -> actions.Action:
    if key == _STRIP:
        return actions.StripVlan()
    kind, parts = _ACTIONS[key]
    texts = [text] if len(parts) == 1 else text.split(":")
    if len(texts) > len(parts) or (len(texts) < len(parts) and key != "out"):
        raise ValueError(f"{key} is {text!r}, and has {len(parts)} parts with a colon between them")
    values = [_value(key, part, it) for part, it in zip(parts, texts)]
    # In sessions an output sends no more than it says.
    return kind(*values, *([0] if key == "out" and len(values) == 1 else []))


def _tell_action(done: actions.Action) -> str:
    if isinstance(done, actions.StripVlan):
        return _STRIP
    name, (_, parts) = next(it for it in _ACTIONS.items() if it[1][0] is type(done))
    values = list(vars(done).values())
    if isinstance(done, actions.Output) and not done.max_len:
        values.pop()
    return f"{name}=" + ":".join(part.tell(it) for part, it in zip(parts, values))


def _made(name: str, form: _Form, given: dict[str, Any], match: Match, done: tuple[actions.Action, ...]) -> messages.Message:
    if form.kind is messages.PacketIn:
        given.setdefault("total_len", len(given.get("data", b"")))
    for key, word in form.words.items():
        if word.field not in given:
            if word.default is None:
                raise ValueError(f"{name} needs {key}=")
            given[word.field] = word.default
    if form.match:
        given["match"] = match
    if form.actions:
        given["actions"] = done
    made = form.kind(**given)
    return made.message() if isinstance(made, _Question) else made


def _form_of(message: messages.Message) -> tuple[str, Any]:
    """The name under which a message is told, and the value that has the fields of its words."""
    value: Any = message
    if isinstance(message, messages.StatsRequest):
        try:
            value = _Question.of(message)
        except DecodeError:
            return "stats other", message
    for name, form in _FORMS.items():
        if isinstance(value, form.kind) and all(getattr(value, key) == it for key, it in form.says.items()):
            return name, value
    return type(message).__name__, value
