#!/usr/bin/env python3
"""An application that has each switch that joins flood all that comes: live/floods.py"""

import os
import sys

sys.path.insert(0, os.path.join(os.path.dirname(os.path.abspath(__file__)), "..", "sdk", "python"))
from legosdn import App, Match, Output, Port


class Floods(App):
    def on_join(self, event):
        self.add_flow(event.dpid, Match(), [Output(Port.FLOOD)], priority=1)


if __name__ == "__main__":
    Floods().run()
