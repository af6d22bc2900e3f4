#!/usr/bin/env python3
"""An application that reads counters: live/counters.py FILE

It adds an entry to each switch that joins. At a PACKET_IN it asks the switch for statistics of each kind, and for those of one port and of
the entries for the frame's source, and writes a line to FILE for each answer.
"""

import os
import sys

sys.path.insert(0, os.path.join(os.path.dirname(os.path.abspath(__file__)), "..", "sdk", "python"))
from legosdn import App, Match, OpenFlowError, Output, Port, UnknownSwitch


class Counters(App):
    def on_join(self, event):
        self.add_flow(event.dpid, Match(dl_dst="ff:ff:ff:ff:ff:ff"), [Output(Port.FLOOD)], priority=10)

    def on_packet_in(self, event):
        source = Match(dl_dst=event.packet.dl_src)
        self.add_flow(event.dpid, source, [Output(event.in_port)], priority=20)
        self.tell("description", lambda: self.desc_stats(event.dpid).dp_desc)
        self.tell("flows", lambda: [(row.priority, row.packet_count, row.byte_count) for row in self.flow_stats(event.dpid)])
        self.tell("aggregate", lambda: self.aggregate(event.dpid, Match()))
        self.tell("of the source", lambda: self.aggregate(event.dpid, source))
        self.tell("tables", lambda: [(row.name, row.active_count) for row in self.table_stats(event.dpid)])
        self.tell("ports", lambda: [(row.port_no, row.rx_packets) for row in self.port_stats(event.dpid)])
        self.tell("port 2", lambda: [(row.port_no, row.rx_packets) for row in self.port_stats(event.dpid, 2)])

    def aggregate(self, dpid, match):
        found = self.aggregate_stats(dpid, match)
        return found.packet_count, found.byte_count, found.flow_count

    def tell(self, what, ask):
        """Writes what an answer says, or why there is none."""
        try:
            told = ask()
        except (OpenFlowError, UnknownSwitch) as fault:
            told = f"{type(fault).__name__} {getattr(fault, 'kind', '')}".strip()
        with open(sys.argv[1], "a", encoding="ascii") as file:
            file.write(f"{what}: {told}\n")


if __name__ == "__main__":
    Counters().run()
