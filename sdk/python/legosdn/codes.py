"""The numbers of OpenFlow 1.0.0 that an application meets, under the standard's names without their prefixes."""

from __future__ import annotations

from enum import IntEnum, IntFlag

MAX_PORT = 0xFF00
"""The greatest number of a physical port; the least is 1 (5.2.1)."""

NO_BUFFER = 0xFFFF_FFFF
"""The buffer_id that names no buffer."""

NO_VLAN = 0xFFFF
"""The dl_vlan of a frame without a tag (5.2.3)."""

ALL_TABLES = 0xFF
"""The table_id of a request for statistics that means every table (5.3.5)."""

DEFAULT_PRIORITY = 0x8000
"""The priority that the standard gives an entry if nothing else is said (5.3.3)."""


class Port(IntEnum):
    """Ports that are no physical ones (5.2.1)."""

    IN_PORT = 0xFFF8
    TABLE = 0xFFF9
    NORMAL = 0xFFFA
    FLOOD = 0xFFFB
    ALL = 0xFFFC
    CONTROLLER = 0xFFFD
    LOCAL = 0xFFFE
    NONE = 0xFFFF


class FlowCommand(IntEnum):
    """What a FLOW_MOD does (5.3.3)."""

    ADD = 0
    MODIFY = 1
    MODIFY_STRICT = 2
    DELETE = 3
    DELETE_STRICT = 4


class FlowFlag(IntFlag):
    """Flags of a FLOW_MOD (5.3.3)."""

    SEND_FLOW_REM = 1
    CHECK_OVERLAP = 2
    EMERG = 4


class RemovedReason(IntEnum):
    """Why an entry went (5.4.2)."""

    IDLE_TIMEOUT = 0
    HARD_TIMEOUT = 1
    DELETE = 2


class PacketInReason(IntEnum):
    """Why a frame was sent to the controller (5.4.1)."""

    NO_MATCH = 0
    ACTION = 1


class PortReason(IntEnum):
    """What became of a port (5.4.3)."""

    ADD = 0
    DELETE = 1
    MODIFY = 2


class PortConfig(IntFlag):
    """What a port is told to do (5.2.1)."""

    PORT_DOWN = 1 << 0
    NO_STP = 1 << 1
    NO_RECV = 1 << 2
    NO_RECV_STP = 1 << 3
    NO_FLOOD = 1 << 4
    NO_FWD = 1 << 5
    NO_PACKET_IN = 1 << 6


class PortState(IntFlag):
    """What is seen of a port (5.2.1); its bits for STP are left out."""

    LINK_DOWN = 1 << 0


class StatsKind(IntEnum):
    """What statistics are about (5.3.5)."""

    DESC = 0
    FLOW = 1
    AGGREGATE = 2
    TABLE = 3
    PORT = 4
    QUEUE = 5
    VENDOR = 0xFFFF


class EventKind(IntEnum):
    """What an event of the host is about. This is LegoSDN's own."""

    JOIN = 1
    LEAVE = 2
    PACKET_IN = 3
    FLOW_REMOVED = 4
    PORT_STATUS = 5
    ERROR = 6
