#!/usr/bin/env python3
"""A learning switch: it sends on each frame that no entry is for, and puts in entries between pairs of addresses.

A frame that no entry is for is told to the controller. From it the application learns by which port its sender is. If it
knows where the receiver is, too, it adds an entry for the frames of this sender to this receiver, and sends this frame
there as a packet; if not, it floods the frame. Packets go out when the turn is done, behind the entry. Entries go when
they are not used for a minute, and after five minutes anyway, so that a station may move to another port.

Packets carry whole frames. A switch that keeps a frame in a buffer tells its front alone, and no buffer is taken by
today's controller: such a frame is learnt from, and lost. `learning_by_additions.py` lets switches do the flooding.

What was learnt is handed over as a checkpoint at the end of each turn, and is given back after a crash.
"""

import uninstalled
from legosdn import App, Match, OpenFlowError, Output, Port, UnknownSwitch, from_json, to_json

IDLE_SECONDS, HARD_SECONDS = 60, 300


class LearningSwitch(App):
    def __init__(self):
        super().__init__()
        # By switch, the port of each address. JSON has texts as keys, so the number of a switch is one here.
        self.port_of = {}

    def on_join(self, event):
        self.port_of[str(event.dpid)] = {}

    def on_leave(self, event):
        self.port_of.pop(str(event.dpid), None)

    def on_packet_in(self, event):
        source, destination = event.packet.dl_src, event.packet.dl_dst
        if source is None or int(source[:2], 16) & 1:
            # It is no frame, or it says that it comes from a group of stations, which none does.
            return
        known = self.port_of.setdefault(str(event.dpid), {})
        known[source] = event.in_port
        port = known.get(destination, Port.FLOOD)
        if port == event.in_port:
            # Both are behind this port, so the frame has reached its receiver.
            return
        try:
            if port != Port.FLOOD:
                self.connect(event, port)
            self.send_on(event, port)
        except UnknownSwitch:
            self.log(f"switch {event.dpid} has left")

    def connect(self, event, port):
        """Adds an entry for the frames of this sender to this receiver."""
        match = Match(in_port=event.in_port, dl_src=event.packet.dl_src, dl_dst=event.packet.dl_dst)
        try:
            self.add_flow(
                event.dpid, match, [Output(port)], priority=100, idle_timeout=IDLE_SECONDS, hard_timeout=HARD_SECONDS
            )
        except OpenFlowError as refused:
            # It stands already, since several frames came before it was in, or the table is full. This frame goes on.
            self.log(f"no entry for {match}: {refused}")

    def send_on(self, event, port):
        """Sends the frame of the event out by a port, where the whole of it is there."""
        if len(event.data) < event.message.total_len:
            self.log(f"{len(event.data)} of {event.message.total_len} bytes of a frame are here")
            return
        self.packet_out(event.dpid, [Output(port)], event.data, in_port=event.in_port)

    def get_state(self):
        return to_json(self.port_of)

    def set_state(self, state):
        self.port_of = from_json(state)


if __name__ == "__main__":
    LearningSwitch().run()
