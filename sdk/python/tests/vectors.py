"""Bytes that are written out by hand, after the structures of OpenFlow 1.0.0. Nothing here is made by the library."""


def hexed(*parts: str) -> bytes:
    """The bytes of some digits; spaces stand between fields."""
    return bytes.fromhex("".join(parts).replace(" ", ""))


ANY = "003820ff" + "00" * 36
"""A match of any packet (5.2.3)."""

OUT_2 = "0000 0008 0002 0000"
"""The action OUTPUT to port 2 (5.2.4)."""

F = "ffffffffffff 020000000001 88b5"
"""A frame to all stations from 02:00:00:00:00:01, of a type that has no meaning: 14 bytes."""

G = "ffffffffffff 020000000001 0806 0001 0800 06 04 0001 020000000001 0a000001 000000000000 0a000002"
"""An ARP request from 10.0.0.1 for 10.0.0.2 in a frame to all stations: 42 bytes."""


def in_port(number: int) -> str:
    """A match of all packets that come in by a port: bit 0 of the wildcards is clear."""
    return f"003820fe {number:04x}" + "00" * 34


def flow_mod(match: str, actions: str = "", **fields: int) -> str:
    """A FLOW_MOD (5.3.3) with xid 0, without a buffer, with the out_port OFPP_NONE; fields that are not named are 0."""
    has = {"cookie": 0, "command": 0, "idle": 0, "hard": 0, "priority": 0, "flags": 0, **fields}
    size = 72 + len(actions.replace(" ", "")) // 2
    front = f"01 0e {size:04x} 00000000 {match} {has['cookie']:016x} {has['command']:04x}"
    return f"{front} {has['idle']:04x} {has['hard']:04x} {has['priority']:04x} ffffffff ffff {has['flags']:04x} {actions}"


def packet_out(actions: str, by: int, frame: str) -> str:
    """A PACKET_OUT (5.3.6) with xid 0 and without a buffer: a whole frame that came in by a port."""
    size = len(actions.replace(" ", "")) // 2
    return f"01 0d {16 + size + len(frame.replace(' ', '')) // 2:04x} 00000000 ffffffff {by:04x} {size:04x} {actions} {frame}"


def framed(kind: int, body: str = "") -> str:
    """A frame between host and application: the length of kind and body, the kind, the body."""
    return f"{1 + len(body.replace(' ', '')) // 2:08x} {kind:02x} {body}"


def message(dpid: int, digits: str) -> str:
    """The frame Message of an application."""
    return framed(1, f"{dpid:016x} {digits}")


def event(number: int, kind: int, dpid: int, body: str, moment: int = 0) -> str:
    """The frame Event of the host."""
    return framed(2, f"{number:016x} {moment:016x} {kind:02x} {dpid:016x} {body}")


RESTORE, READY, ANSWER_DONE, DONE = framed(1), framed(6), framed(3, "00"), framed(5, "00 00")


def port(number: int, state: int = 0) -> str:
    """A port (5.2.1) of switch 1 as the simulated switch has it: address 02:00:00:01 and its number, name p and it."""
    name = f"p{number}".encode().hex().ljust(32, "0")
    return f"{number:04x} 02000001{number:04x} {name} 00000000 {state:08x}" + "00" * 16


def joined(number: int, *ports: int, dpid: int = 1) -> str:
    """The event join: a FEATURES_REPLY (5.3.1) with these ports."""
    size = 32 + 48 * len(ports)
    reply = f"01 06 {size:04x} 00000000 {dpid:016x} 00000000 01 000000 00000087 000007ff"
    return event(number, 1, dpid, reply + "".join(port(it) for it in ports))


def packet_in(number: int, by: int, frame: str, reason: int = 1) -> str:
    """The event packet_in of switch 1: a PACKET_IN (5.4.1) of a whole frame. The reason 0 is that no entry was for it."""
    size = len(frame.replace(" ", "")) // 2
    return event(number, 3, 1, f"01 0a {18 + size:04x} 00000000 ffffffff {size:04x} {by:04x} {reason:02x} 00 {frame}")
