#!/usr/bin/env python3
"""A firewall between port 1, where the own stations are, and port 2, where the rest of the world is.

What goes out may go out. What comes in may come in only if it belongs to a connection that began inside: the first
frame of each is told to the controller, and the application adds an entry for the answers. Everything else is dropped
by an entry without actions, which needs no application at all: if this program dies, nothing comes in that should not.

The two entries of a connection go together, after two minutes. Its next frame is then told again.
"""

import uninstalled
from legosdn import App, Match, OpenFlowError, Output, PacketInReason, Port

INSIDE, OUTSIDE = 1, 2
TCP, UDP = 6, 17
HARD_SECONDS = 120


class Firewall(App):
    def on_join(self, event):
        self.begin(event.dpid)

    def begin(self, dpid):
        # Of all entries for a frame the one of the greatest priority counts.
        self.add_flow(dpid, Match(in_port=OUTSIDE), [], priority=1)
        self.add_flow(dpid, Match(in_port=INSIDE), [Output(OUTSIDE)], priority=1)
        # ARP may pass both ways. The first frames of connections are told to the controller, and pass too.
        for here, there in ((INSIDE, OUTSIDE), (OUTSIDE, INSIDE)):
            self.add_flow(dpid, Match(in_port=here, dl_type=0x0806), [Output(there)], priority=2)
        for protocol in (TCP, UDP):
            match = Match(in_port=INSIDE, dl_type=0x0800, nw_proto=protocol)
            self.add_flow(dpid, match, [Output(OUTSIDE), Output(Port.CONTROLLER)], priority=2)

    def on_packet_in(self, event):
        packet = event.packet
        if event.reason == PacketInReason.NO_MATCH and event.in_port in (INSIDE, OUTSIDE):
            # No entry is there: this program failed when the switch joined, and was started again.
            self.begin(event.dpid)
        if event.in_port != INSIDE or packet.tp_src is None or packet.nw_proto not in (TCP, UDP):
            return
        same = {"dl_type": 0x0800, "nw_proto": packet.nw_proto}
        there = {"nw_src": packet.nw_src, "nw_dst": packet.nw_dst, "tp_src": packet.tp_src, "tp_dst": packet.tp_dst}
        back = {"nw_src": packet.nw_dst, "nw_dst": packet.nw_src, "tp_src": packet.tp_dst, "tp_dst": packet.tp_src}
        rest = {"priority": 10, "hard_timeout": HARD_SECONDS}
        try:
            self.add_flow(event.dpid, Match(in_port=OUTSIDE, **same, **back), [Output(INSIDE)], **rest)
        except OpenFlowError as refused:
            self.log(f"no answers for {packet.match()}: {refused}")
            return
        # If this one is refused, the turn fails, and the entry for the answers is taken back: both stand, or none.
        self.add_flow(event.dpid, Match(in_port=INSIDE, **same, **there), [Output(OUTSIDE)], **rest)


if __name__ == "__main__":
    Firewall().run()
