"""An application whose state is how many turns it has done, and that adds an entry to each switch that joins, with that number as cookie."""

import os
import sys

sys.path.insert(0, os.path.join(os.path.dirname(os.path.abspath(__file__)), "..", "sdk", "python"))
from legosdn import App, Match, Output, Port


class Counting(App):
    def __init__(self):
        super().__init__()
        self.turns = 0

    def get_state(self):
        return str(self.turns).encode()

    def set_state(self, state):
        self.turns = int(state)

    def on_join(self, event):
        self.turns += 1
        self.add_flow(event.dpid, Match(dl_dst="ff:ff:ff:ff:ff:ff"), [Output(Port.FLOOD)], priority=10, cookie=self.turns)
