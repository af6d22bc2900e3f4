"""Write applications for the controller LegoSDN. docs/SDK.md is the page to read.

    from legosdn import App, Match, Output

    app = App()

    @app.on("join")
    def joined(event):
        app.add_flow(event.dpid, Match(in_port=1), [Output(2)])

    app.run()
"""

from .actions import (
    Action,
    Enqueue,
    Output,
    SetDlDst,
    SetDlSrc,
    SetNwDst,
    SetNwSrc,
    SetNwTos,
    SetTpDst,
    SetTpSrc,
    SetVlanPcp,
    SetVlanVid,
    StripVlan,
    VendorAction,
)
from .app import App, from_json, to_json
from .codes import (
    ALL_TABLES,
    DEFAULT_PRIORITY,
    MAX_PORT,
    NO_BUFFER,
    NO_VLAN,
    FlowFlag,
    PacketInReason,
    Port,
    PortConfig,
    PortReason,
    PortState,
    RemovedReason,
)
from .errors import DecodeError, FrameError, HostClosed, HostError, LegoError, MatchError, OpenFlowError, UnknownSwitch
from .events import ErrorEvent, Event, FlowRemovedEvent, JoinEvent, LeaveEvent, PacketInEvent, PortStatusEvent
from .match import Match
from .messages import PortDesc
from .packet import Packet
from .stats import AggregateStats, DescStats, FlowStats, PortStats, TableStats

__all__ = [
    "ALL_TABLES",
    "Action",
    "AggregateStats",
    "App",
    "DEFAULT_PRIORITY",
    "DecodeError",
    "DescStats",
    "Enqueue",
    "ErrorEvent",
    "Event",
    "FlowFlag",
    "FlowRemovedEvent",
    "FlowStats",
    "FrameError",
    "HostClosed",
    "HostError",
    "JoinEvent",
    "LeaveEvent",
    "LegoError",
    "MAX_PORT",
    "Match",
    "MatchError",
    "NO_BUFFER",
    "NO_VLAN",
    "OpenFlowError",
    "Output",
    "Packet",
    "PacketInEvent",
    "PacketInReason",
    "Port",
    "PortConfig",
    "PortDesc",
    "PortReason",
    "PortState",
    "PortStats",
    "PortStatusEvent",
    "RemovedReason",
    "SetDlDst",
    "SetDlSrc",
    "SetNwDst",
    "SetNwSrc",
    "SetNwTos",
    "SetTpDst",
    "SetTpSrc",
    "SetVlanPcp",
    "SetVlanVid",
    "StripVlan",
    "TableStats",
    "UnknownSwitch",
    "VendorAction",
    "from_json",
    "to_json",
]
