"""Ethernet frames in words, and words as frames.

    eth dst=ff:ff:ff:ff:ff:ff src=02:00:00:00:00:01 arp op=1 sha=02:00:00:00:00:01 spa=10.0.0.1 tpa=10.0.0.2
    eth dst=02:00:00:00:00:02 src=02:00:00:00:00:01 vlan=5 ip src=10.0.0.1 dst=10.0.0.2 udp src=53 dst=5353 payload=00ff

A frame is layers from the outside in: `eth`, then `ip` or `arp` or none, behind `ip` one of `tcp`, `udp`, `icmp` or none.
Each has words of its own, which may be left out where a default is given below. `payload=HEX` stands behind the last layer,
and `pad=N` puts N zero bytes at the end. Lengths and checksums are worked out.
"""

from __future__ import annotations

import struct
from collections.abc import Iterator, Sequence
from typing import Optional

from .fields import check_range, ipv4_number, ipv4_text, mac_bytes, mac_text
from .packet import ARP, ICMP, IPV4, TCP, UDP

_NO_MAC = "00:00:00:00:00:00"
# The words of each layer with their defaults; None has to be given, "" may be left out.
_LAYERS: dict[str, dict[str, Optional[str]]] = {
    "eth": {"dst": None, "src": None, "type": "", "vlan": "", "pcp": "", "cfi": "0"},
    "arp": {"op": None, "sha": None, "spa": None, "tha": _NO_MAC, "tpa": None},
    "ip": {"src": None, "dst": None, "proto": "", "tos": "0", "ttl": "64", "id": "0", "frag": "0"},
    "tcp": {"src": None, "dst": None, "seq": "0", "ack": "0", "flags": "0x02", "window": "65535", "urgent": "0"},
    "udp": {"src": None, "dst": None},
    "icmp": {"type": None, "code": "0", "rest": "0"},
}
_BEHIND = {"eth": ("arp", "ip"), "ip": ("tcp", "udp", "icmp")}
_TYPES = {"arp": ARP, "ip": IPV4}
_PROTOCOLS = {"tcp": TCP, "udp": UDP, "icmp": ICMP}
_TAG = 0x8100
_ARP_FRONT = bytes.fromhex("000108000604")

_Layer = dict[str, str]


def write(words: Sequence[str]) -> bytes:
    """The frame of these words, the first of which is `eth`; ValueError says what is wrong with them."""
    layers, payload, pad = _read(words)
    names = list(layers)
    data = payload
    for at in range(len(names) - 1, -1, -1):
        inner = names[at + 1] if at + 1 < len(names) else ""
        layer = layers[names[at]]
        if names[at] == "eth":
            data = _ethernet(layer, inner) + data
        elif names[at] == "arp":
            data = _arp(layer) + data
        elif names[at] == "ip":
            data = _ip(layer, inner, len(data)) + data
        else:
            data = _transport(names[at], layer, layers["ip"], data)
    return data + bytes(pad)


def tell(data: bytes) -> Optional[str]:
    """The words of a frame, which `write` makes the same bytes of; None of fewer than 14 bytes."""
    for words in _candidates(data):
        if write(words) == data:
            return " ".join(words)
    return None


def _read(words: Sequence[str]) -> tuple[dict[str, _Layer], bytes, int]:
    """The layers in their order, the payload, and how many zero bytes follow."""
    layers: dict[str, _Layer] = {}
    payload, pad, name = b"", 0, ""
    for word in words:
        key, equals, value = word.partition("=")
        if not equals:
            if word not in (_BEHIND.get(name, ()) if layers else ("eth",)):
                raise ValueError(f"{word!r} is no layer behind {name}" if name else f"a frame begins with eth, not {word!r}")
            name = word
            layers[name] = {}
        elif key == "payload":
            payload = bytes.fromhex(value)
        elif key == "pad":
            pad = _number(key, value, 0xFFFF)
        elif name and key in _LAYERS[name] and key not in layers[name]:
            layers[name][key] = value
        else:
            raise ValueError(f"{word!r} is no word of {name or 'a frame'}, or the second of its name")
    if not layers:
        raise ValueError("a frame begins with eth")
    return {name: _with_defaults(name, given) for name, given in layers.items()}, payload, pad


def _with_defaults(name: str, given: _Layer) -> _Layer:
    for key, default in _LAYERS[name].items():
        if key not in given and default is None:
            raise ValueError(f"{name} needs {key}=")
    return {key: given.get(key, default or "") for key, default in _LAYERS[name].items()}


def _number(key: str, text: str, most: int) -> int:
    try:
        number = int(text, 16 if text.startswith("0x") else 10)
    except ValueError:
        raise ValueError(f"{key} is {text!r}, and must be a number") from None
    check_range(key, number, most)
    return number


def _ethernet(layer: _Layer, inner: str) -> bytes:
    if not layer["type"] and inner not in _TYPES:
        raise ValueError("eth needs type=, or arp or ip behind it")
    kind = _number("type", layer["type"], 0xFFFF) if layer["type"] else _TYPES[inner]
    tag = b""
    if layer["vlan"] or layer["pcp"]:
        number = _number("vlan", layer["vlan"] or "0", 0xFFF) | _number("pcp", layer["pcp"] or "0", 7) << 13
        tag = struct.pack("!HH", _TAG, number | _number("cfi", layer["cfi"], 1) << 12)
    return mac_bytes(layer["dst"]) + mac_bytes(layer["src"]) + tag + struct.pack("!H", kind)


def _arp(layer: _Layer) -> bytes:
    sender = mac_bytes(layer["sha"]) + struct.pack("!I", ipv4_number(layer["spa"]))
    target = mac_bytes(layer["tha"]) + struct.pack("!I", ipv4_number(layer["tpa"]))
    return _ARP_FRONT + struct.pack("!H", _number("op", layer["op"], 0xFFFF)) + sender + target


def _ip(layer: _Layer, inner: str, size: int) -> bytes:
    if not layer["proto"] and not inner:
        raise ValueError("ip needs proto=, or tcp, udp or icmp behind it")
    protocol = _protocol(layer, inner)
    check_range("bytes of the datagram", 20 + size, 0xFFFF)
    front = (0x45, _number("tos", layer["tos"], 0xFF), 20 + size, _number("id", layer["id"], 0xFFFF))
    rest = (_number("frag", layer["frag"], 0xFFFF), _number("ttl", layer["ttl"], 0xFF), protocol)
    addresses = struct.pack("!II", ipv4_number(layer["src"]), ipv4_number(layer["dst"]))
    head = struct.pack("!BBHHHBB", *front, *rest)
    return head + struct.pack("!H", _checksum(head + bytes(2) + addresses)) + addresses


def _protocol(layer: _Layer, inner: str) -> int:
    return _number("proto", layer["proto"], 0xFF) if layer["proto"] else _PROTOCOLS[inner]


def _transport(name: str, layer: _Layer, ip: _Layer, payload: bytes) -> bytes:
    """A segment with its checksum, which TCP and UDP take over a pseudo header too."""
    number = {key: _number(key, text, 0xFFFF_FFFF if key in ("seq", "ack", "rest") else 0xFFFF) for key, text in layer.items()}
    if name == "icmp":
        check_range("type", number["type"], 0xFF)
        check_range("code", number["code"], 0xFF)
        head, tail, pseudo = struct.pack("!BB", number["type"], number["code"]), struct.pack("!I", number["rest"]), b""
    else:
        pseudo = struct.pack("!II", ipv4_number(ip["src"]), ipv4_number(ip["dst"]))
        ports = struct.pack("!HH", number["src"], number["dst"])
        if name == "udp":
            head, tail = ports + struct.pack("!H", 8 + len(payload)), b""
        else:
            check_range("flags", number["flags"], 0x0FFF)
            head = ports + struct.pack("!IIHH", number["seq"], number["ack"], 0x5000 | number["flags"], number["window"])
            tail = struct.pack("!H", number["urgent"])
        pseudo += struct.pack("!HH", _protocol(ip, name), len(head) + 2 + len(tail) + len(payload))
    checksum = _checksum(pseudo + head + bytes(2) + tail + payload)
    if name == "udp":
        checksum = checksum or 0xFFFF
    return head + struct.pack("!H", checksum) + tail + payload


def _checksum(data: bytes) -> int:
    """The checksum of the Internet (RFC 1071)."""
    total = sum(number for (number,) in struct.iter_unpack("!H", data + bytes(len(data) % 2)))
    while total > 0xFFFF:
        total = (total & 0xFFFF) + (total >> 16)
    return 0xFFFF - total


def _candidates(data: bytes) -> Iterator[list[str]]:
    """Words that may be those of a frame, from the innermost layer on; the last ones always are."""
    if len(data) < 14:
        return
    eth = ["eth", f"dst={mac_text(data[:6])}", f"src={mac_text(data[6:12])}"]
    at = 12
    if len(data) >= 18 and data[12:14] == _TAG.to_bytes(2, "big"):
        number = int.from_bytes(data[14:16], "big")
        eth += [f"vlan={number & 0xFFF}", *_given(("pcp", number >> 13, 0), ("cfi", number >> 12 & 1, 0))]
        at = 16
    kind, rest = int.from_bytes(data[at : at + 2], "big"), data[at + 2 :]
    if kind == ARP and len(rest) >= 28:
        yield eth + _arp_words(rest) + _rest_words(rest[28:])
    if kind == IPV4 and len(rest) >= 20:
        size = int.from_bytes(rest[2:4], "big")
        behind = rest[20:size]
        for inner in _inner_words(rest[9], behind):
            pad = len(rest) - size
            yield eth + _ip_words(rest, inner) + inner + ([f"pad={pad}"] if pad > 0 else [])
    yield eth + [f"type=0x{kind:04x}"] + _rest_words(rest)


def _given(*words: tuple[str, int, int]) -> list[str]:
    """The words whose number is not its default."""
    return [f"{name}={number}" for name, number, default in words if number != default]


def _rest_words(data: bytes) -> list[str]:
    if not any(data):
        return [f"pad={len(data)}"] if data else []
    return [f"payload={data.hex()}"]


def _arp_words(data: bytes) -> list[str]:
    op, sha, spa, tha, tpa = struct.unpack_from("!H6sI6sI", data, 6)
    words = ["arp", f"op={op}", f"sha={mac_text(sha)}", f"spa={ipv4_text(spa)}"]
    return words + ([f"tha={mac_text(tha)}"] if any(tha) else []) + [f"tpa={ipv4_text(tpa)}"]


def _ip_words(data: bytes, inner: list[str]) -> list[str]:
    tos, _, number, frag, ttl, protocol, _, src, dst = struct.unpack_from("!xBHHHBBHII", data)
    words = ["ip", f"src={ipv4_text(src)}", f"dst={ipv4_text(dst)}"]
    if not inner or inner[0] not in _PROTOCOLS:
        words += [f"proto={protocol}"]
    return words + _given(("tos", tos, 0), ("ttl", ttl, 64), ("id", number, 0), ("frag", frag, 0))


def _inner_words(protocol: int, data: bytes) -> Iterator[list[str]]:
    """Words for what stands in a datagram: a segment, or else bytes."""
    if protocol == TCP and len(data) >= 20:
        src, dst, seq, ack, flags, window, _, urgent = struct.unpack_from("!HHIIHHHH", data)
        words = ["tcp", f"src={src}", f"dst={dst}", *_given(("seq", seq, 0), ("ack", ack, 0)), f"flags=0x{flags & 0xFFF:02x}"]
        yield words + _given(("window", window, 0xFFFF), ("urgent", urgent, 0)) + _payload(data[20:])
    if protocol == UDP and len(data) >= 8:
        src, dst = struct.unpack_from("!HH", data)
        yield ["udp", f"src={src}", f"dst={dst}", *_payload(data[8:])]
    if protocol == ICMP and len(data) >= 8:
        kind, code, rest = struct.unpack_from("!BB2xI", data)
        yield ["icmp", f"type={kind}", *_given(("code", code, 0), ("rest", rest, 0)), *_payload(data[8:])]
    yield _payload(data)


def _payload(data: bytes) -> list[str]:
    return [f"payload={data.hex()}"] if data else []
