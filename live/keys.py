#!/usr/bin/env python3
"""An application that adds entries of the same keys again and again: live/keys.py COUNT

At each join it adds an entry for ARP and COUNT others, in the order of their numbers, 0 to COUNT. A PACKET_IN's frame says what it does
then (`frame_of`): it adds so many entries, from this number on, and is done, or ends in its turn. A refusal ends it too. Each entry has
the event's number as its cookie, and its removal is to be told.
"""

import os
import struct
import sys

sys.path.insert(0, os.path.join(os.path.dirname(os.path.abspath(__file__)), "..", "sdk", "python"))
from legosdn import App, Match, Output, Port

ARP = 0x0806
STAYS, ENDS = 0, 1
SAID = struct.Struct("!III")
HEADER = bytes.fromhex("ffffffffffff02000000000188b5")


def match_of(number):
    """The match of the entry with this number."""
    return Match(dl_dst="02:01:00:{:02x}:{:02x}:{:02x}".format(*number.to_bytes(3, "big"))) if number else Match(dl_type=ARP)


def frame_of(how, many, first):
    """The frame at which so many entries are added, from this number on."""
    return (HEADER + SAID.pack(how, many, first)).ljust(60, b"\0")


class Keys(App):
    def __init__(self, count):
        super().__init__()
        self.count = count

    def on_join(self, event):
        self.add(event, range(self.count + 1))

    def on_packet_in(self, event):
        how, many, first = SAID.unpack_from(event.data, len(HEADER))
        self.add(event, range(first, first + many))
        if how == ENDS:
            os._exit(1)

    def add(self, event, numbers):
        for number in numbers:
            self.add_flow(event.dpid, match_of(number), [Output(Port.FLOOD)], priority=20, cookie=event.number, send_flow_removed=True)


if __name__ == "__main__":
    Keys(int(sys.argv[1])).run()
