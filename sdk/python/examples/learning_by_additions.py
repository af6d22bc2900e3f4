#!/usr/bin/env python3
"""A learning switch that only ever adds entries, one for each address, and never the same entry twice.

When a switch joins, two entries go in. One floods every frame that no other entry is for, and sends a copy to the
controller. The other does the same for ARP, above the entries that are learnt: so the answer of a station is told, too,
and not only its questions. From each frame that is told, the application learns where its sender is, and adds an entry
that sends the frames for this address there. Nothing is sent by the application itself: switches do the flooding.

An entry goes after five minutes and is learnt again, so that a station may move to another port. The application
remembers until when its entries stand. It does not add one again before that, since today's controller refuses an
addition that would replace an entry. What it remembers is its state, which the controller gives back after a crash. It
hands the state over once a second at most, since a state has all that is remembered. What was learnt after that is not
in it: then an addition of an entry that stands is refused, and passed over.
"""

import uninstalled
from legosdn import App, Match, OpenFlowError, Output, PacketInReason, Port, from_json, to_json

ARP = 0x0806
HARD_SECONDS = 300


class LearningByAdditions(App):
    def __init__(self):
        super().__init__()
        # By switch, the moment until which the entry of each address stands.
        self.stands = {}
        # The moment now, and that at which the state was handed over.
        self.now, self.handed = 0, -1

    def on_join(self, event):
        self.now = event.moment
        # The table of a switch that joins is empty.
        self.stands[event.dpid] = {}
        self.begin(event.dpid)

    def begin(self, dpid):
        for match, priority in ((Match(), 0), (Match(dl_type=ARP), 20)):
            self.add_if_new(dpid, match, [Output(Port.FLOOD), Output(Port.CONTROLLER)], priority=priority)

    def on_leave(self, event):
        self.now = event.moment
        self.stands.pop(event.dpid, None)

    def on_packet_in(self, event):
        self.now = event.moment
        source = event.packet.dl_src
        if source is None or int(source[:2], 16) & 1:
            # It is no frame, or it says that it comes from a group of stations, which none does.
            return
        if event.reason == PacketInReason.NO_MATCH:
            # Not even the first entries are there: this program failed when the switch joined, and was started again.
            self.begin(event.dpid)
        stands = self.stands.setdefault(event.dpid, {})
        if event.moment <= stands.get(source, -1):
            return
        there = [Output(event.in_port)]
        self.add_if_new(event.dpid, Match(dl_dst=source), there, priority=10, hard_timeout=HARD_SECONDS)
        stands[source] = event.moment + HARD_SECONDS

    def get_state(self):
        if self.now <= self.handed:
            return None
        self.handed = self.now
        return to_json(self.stands)

    def set_state(self, state):
        self.stands = {int(dpid): stands for dpid, stands in from_json(state).items()}

    def add_if_new(self, dpid, match, actions, **rest):
        try:
            self.add_flow(dpid, match, actions, **rest)
        except OpenFlowError as refused:
            # It stands already, or the table is full. Frames go as they went before.
            self.log(f"no entry for {match}: {refused}")


if __name__ == "__main__":
    LearningByAdditions().run()
