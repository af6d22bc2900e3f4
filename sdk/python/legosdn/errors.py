"""What can go wrong: the exceptions of this library, and the standard's names of errors (OpenFlow 1.0.0, 5.4.4)."""

from __future__ import annotations

_CODES: dict[str, tuple[str, tuple[str, ...]]] = {
    "OFPET_HELLO_FAILED": ("OFPHFC", ("INCOMPATIBLE", "EPERM")),
    "OFPET_BAD_REQUEST": (
        "OFPBRC",
        (
            "BAD_VERSION",
            "BAD_TYPE",
            "BAD_STAT",
            "BAD_VENDOR",
            "BAD_SUBTYPE",
            "EPERM",
            "BAD_LEN",
            "BUFFER_EMPTY",
            "BUFFER_UNKNOWN",
        ),
    ),
    "OFPET_BAD_ACTION": (
        "OFPBAC",
        (
            "BAD_TYPE",
            "BAD_LEN",
            "BAD_VENDOR",
            "BAD_VENDOR_TYPE",
            "BAD_OUT_PORT",
            "BAD_ARGUMENT",
            "EPERM",
            "TOO_MANY",
            "BAD_QUEUE",
        ),
    ),
    "OFPET_FLOW_MOD_FAILED": (
        "OFPFMFC",
        ("ALL_TABLES_FULL", "OVERLAP", "EPERM", "BAD_EMERG_TIMEOUT", "BAD_COMMAND", "UNSUPPORTED"),
    ),
    "OFPET_PORT_MOD_FAILED": ("OFPPMFC", ("BAD_PORT", "BAD_HW_ADDR")),
    "OFPET_QUEUE_OP_FAILED": ("OFPQOFC", ("BAD_PORT", "BAD_QUEUE", "EPERM")),
}
_KINDS = tuple(_CODES)


def error_names(kind: int, code: int) -> tuple[str, str]:
    """The standard's names of an error's type and code, such as OFPET_FLOW_MOD_FAILED and OFPFMFC_OVERLAP.

    A number that the standard does not have stands for itself, in decimal.
    """
    if not 0 <= kind < len(_KINDS):
        return str(kind), str(code)
    prefix, codes = _CODES[_KINDS[kind]]
    return _KINDS[kind], f"{prefix}_{codes[code]}" if 0 <= code < len(codes) else str(code)


class LegoError(Exception):
    """Any error of this library."""


class OpenFlowError(LegoError):
    """The host or the switch answered a request by an error; nothing was changed by it.

    kind and code are the standard's numbers, kind_name and code_name its names. The turn goes on: a handler may catch
    this and do something else.
    """

    def __init__(self, kind: int, code: int) -> None:
        self.kind, self.code = kind, code
        self.kind_name, self.code_name = error_names(kind, code)
        super().__init__(f"{self.kind_name}/{self.code_name} ({kind},{code})")


class UnknownSwitch(LegoError):
    """A request was for a switch that is not joined, and changed nothing; or the switch was lost while it was asked.

    One that was lost leaves by an event to come, and is emptied when it joins again.
    """

    def __init__(self, dpid: int) -> None:
        self.dpid = dpid
        super().__init__(f"no switch {dpid} is joined")


class MatchError(LegoError, ValueError):
    """A match has a field that has no meaning without another field, which is missing."""


class DecodeError(LegoError, ValueError):
    """Bytes are not what they ought to be: no message, no match, no actions, no statistics."""


class FrameError(LegoError, ValueError):
    """Bytes are no frame between host and application. fault is `too long`, `bad kind` or `bad body`."""

    def __init__(self, fault: str, why: str) -> None:
        self.fault = fault
        super().__init__(f"{fault}: {why}")


class HostError(LegoError):
    """The host gave what it must not: no frame, or a frame out of its place."""


class HostClosed(LegoError):
    """The host closed its end in the middle of a frame, or where an answer was awaited: it has given this program up."""
