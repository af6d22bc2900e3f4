#!/usr/bin/env python3
"""An application that knows what to do where a link goes, but not where a switch leaves: live/link_watcher.py FILE [PORT]

It adds an entry to each switch that joins, and ends where one leaves. Where a port loses its link it writes a line to FILE, adds an entry
for an address with the port's number to switch 2, and sends a packet there; at a port of the number PORT it ends then. Its state is how
many turns it has done; an entry has the number of its turn as cookie.
"""

import os
import sys

sys.path.insert(0, os.path.join(os.path.dirname(os.path.abspath(__file__)), "..", "sdk", "python"))
from counting import Counting
from legosdn import Match, Output


class LinkWatcher(Counting):
    def __init__(self, file, last):
        super().__init__()
        self.file, self.last = file, last

    def on_leave(self, event):
        os._exit(1)

    def on_port_status(self, event):
        self.turns += 1
        number = event.port.port_no
        self.file.write(f"event {event.number}: switch {event.dpid} port {number} state {event.port.state}\n")
        self.file.flush()
        self.add_flow(2, Match(dl_dst=f"02:00:00:00:00:{number:02x}"), [Output(1)], priority=20, cookie=self.turns)
        self.packet_out(2, [Output(1)], bytes.fromhex(f"0200000000990200000000{number:02x}88b5"))
        if number == self.last:
            os._exit(1)


if __name__ == "__main__":
    with open(sys.argv[1], "a", encoding="ascii") as file:
        LinkWatcher(file, int(sys.argv[2]) if len(sys.argv) > 2 else None).run()
