#!/usr/bin/env python3
"""An application that fails as it is told: live/misbehaving.py FILE

It adds an entry to each switch that joins. At a PACKET_IN it adds an entry for the frame's source, floods the frame as a packet, and
then does what the last byte of that address says (HOW below; with any other byte it ends well). Its state is how many turns it has
done; an entry has the number of its turn as cookie, and its removal is to be told if it is for a source. It keeps its process number in
FILE, so that it can be killed. Where its switch is unknown it gives up, but for the frames of one address.
"""

import os
import sys
import time

sys.path.insert(0, os.path.join(os.path.dirname(os.path.abspath(__file__)), "..", "sdk", "python"))
from counting import Counting
from legosdn import Match, Output, Port, UnknownSwitch, frames, messages

HOW = {
    0x02: "end",
    0x03: "say garbage",
    0x04: "say nothing",
    0x05: "go on for ever",
    0x06: "be killed",
    0x07: "raise",
    0x0C: "say bytes now and then",
    0x0D: "say frames now and then",
}
# These end well, behind one more packet: to a port that no switch has; to the controller, from another address.
NOWHERE, BACK, OTHER = 0x08, 0x09, 0x0A
# How often something is said now and then: 4 seconds lie between.
NOW_AND_THEN = 8
# This one ends well also where its switch is unknown.
RESIGNED = 0x0B


class Misbehaving(Counting):
    def on_packet_in(self, event):
        self.turns += 1
        source = event.data[6:12]
        try:
            self.send_on(event, source)
        except UnknownSwitch:
            if source[5] != RESIGNED:
                raise
        self.fail(event.dpid, HOW.get(source[5]))

    def send_on(self, event, source):
        here = ":".join(f"{byte:02x}" for byte in source)
        self.add_flow(event.dpid, Match(dl_dst=here), [Output(event.in_port)], priority=20, cookie=self.turns, send_flow_removed=True)
        self.packet_out(event.dpid, [Output(Port.FLOOD)], event.data, in_port=event.in_port)
        if source[5] == NOWHERE:
            self.packet_out(event.dpid, [Output(9)], event.data)
        if source[5] == BACK:
            self.packet_out(event.dpid, [Output(Port.CONTROLLER)], event.data[:11] + bytes([OTHER]) + event.data[12:], in_port=3)

    def fail(self, dpid, how):
        if how == "end":
            os._exit(1)
        if how == "say garbage":
            os.write(1, b"\x00\x00\x00\x01\xff")
            time.sleep(60)
        if how in ("say nothing", "be killed"):
            time.sleep(60)
        while how == "go on for ever":
            self.barrier(dpid)
        if how in ("say bytes now and then", "say frames now and then"):
            said = frames.encode(frames.Message(dpid, messages.encode(messages.BarrierRequest())))
            for place in range(NOW_AND_THEN):
                time.sleep(4)
                os.write(1, said if "frames" in how else said[place : place + 1])
        if how == "raise":
            raise RuntimeError("on purpose")


if __name__ == "__main__":
    with open(sys.argv[1], "w", encoding="ascii") as file:
        file.write(str(os.getpid()))
    Misbehaving().run()
