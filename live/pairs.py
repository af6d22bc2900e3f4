#!/usr/bin/env python3
"""An application that is killed: live/pairs.py [EVENT]

Each frame from an address that it has not seen gives two entries that belong together, with the number of the event as
their cookie. So a flow table shows whether half of a change stands in it. In the turn of EVENT it waits for a second
behind its two entries, and then dies without a word.
"""

import os
import signal
import sys
import time

sys.path.insert(0, os.path.join(os.path.dirname(os.path.abspath(__file__)), "..", "sdk", "python"))
from legosdn import App, Match, Output, Port

FATAL = int(sys.argv[1]) if len(sys.argv) > 1 else None


class Pairs(App):
    def __init__(self):
        super().__init__()
        self.seen = set()

    def on_packet_in(self, event):
        source = event.packet.dl_src
        if source is None or (event.dpid, source) in self.seen:
            return
        self.seen.add((event.dpid, source))
        self.add_flow(event.dpid, Match(dl_dst=source), [Output(event.in_port)], cookie=event.number)
        self.add_flow(event.dpid, Match(dl_src=source), [Output(Port.FLOOD)], cookie=event.number)
        if event.number == FATAL:
            time.sleep(1)
            os.kill(os.getpid(), signal.SIGKILL)


if __name__ == "__main__":
    Pairs().run()
