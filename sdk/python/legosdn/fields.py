"""Numbers and addresses as they stand in messages. Every number has its highest byte first."""

from __future__ import annotations

import re

from .errors import DecodeError

_MAC = re.compile(r"[0-9a-f]{2}(:[0-9a-f]{2}){5}")
_BYTE = r"(0|[1-9][0-9]{0,2})"
_IPV4 = re.compile(rf"{_BYTE}\.{_BYTE}\.{_BYTE}\.{_BYTE}")


def check_range(name: str, value: int, most: int, least: int = 0) -> None:
    """Raises TypeError unless value is an int, ValueError unless it is from least to most."""
    if not isinstance(value, int):
        raise TypeError(f"{name} is {value!r}, and must be an int")
    if not least <= value <= most:
        raise ValueError(f"{name} is {value}, and must be from {least} to {most}")


def check_bytes(name: str, value: bytes) -> None:
    """Raises TypeError unless value is bytes."""
    if not isinstance(value, (bytes, bytearray)):
        raise TypeError(f"{name} is a {type(value).__name__}, and must be bytes")


def mac_bytes(text: str) -> bytes:
    """The 6 bytes of an Ethernet address such as 02:00:00:00:00:01."""
    if not _MAC.fullmatch(text.lower()):
        raise ValueError(f"{text!r} is no Ethernet address such as 02:00:00:00:00:01")
    return bytes.fromhex(text.replace(":", ""))


def mac_text(data: bytes) -> str:
    """The 6 bytes of an Ethernet address as text, with lower-case digits."""
    return data.hex(":")


def ipv4_number(text: str) -> int:
    """The 32 bits of an IPv4 address such as 10.0.0.1."""
    found = _IPV4.fullmatch(text)
    parts = [int(part) for part in found.groups()] if found else [256]
    if max(parts) > 255:
        raise ValueError(f"{text!r} is no IPv4 address such as 10.0.0.1")
    return int.from_bytes(bytes(parts), "big")


def ipv4_text(number: int) -> str:
    """32 bits as an IPv4 address."""
    return ".".join(str(byte) for byte in number.to_bytes(4, "big"))


def padded_text(data: bytes) -> str:
    """A text that is padded with zero bytes, such as the name of a port; bytes beyond ASCII become `?`."""
    return data.split(b"\0", 1)[0].decode("ascii", "replace").replace("\N{REPLACEMENT CHARACTER}", "?")


def text_bytes(name: str, text: str, size: int) -> bytes:
    """A text as ASCII, padded with zero bytes to size bytes."""
    data = text.encode("ascii")
    if len(data) > size:
        raise ValueError(f"{name} has {len(data)} bytes, and must have at most {size}")
    return data.ljust(size, b"\0")


def need(what: str, data: bytes, size: int) -> None:
    """Raises DecodeError unless there are exactly size bytes."""
    if len(data) != size:
        raise DecodeError(f"{what} has {len(data)} bytes and not {size}")
