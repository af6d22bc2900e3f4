#!/usr/bin/env python3
"""Crashes in the middle of a change, so that you can see the change undone.

When a switch joins, it adds two entries that belong together: one for each direction. Between the two it fails, the
first time that it runs. The host then takes the first entry back, starts the program again, and goes on with the next
event. So no switch ever keeps one direction without the other.

A program that is started again knows nothing of its first life. To crash only once, this one looks for a file.
"""

import os
import tempfile

import uninstalled
from legosdn import App, Match, Output

CRASHED = os.environ.get("CRASHED", os.path.join(tempfile.gettempdir(), "crash_on_purpose"))


class CrashOnPurpose(App):
    def on_join(self, event):
        self.connect(event.dpid, 1, 2)

    def on_port_status(self, event):
        self.connect(event.dpid, 1, 2)

    def connect(self, dpid, one, other):
        self.add_flow(dpid, Match(in_port=one), [Output(other)])
        if not os.path.exists(CRASHED):
            with open(CRASHED, "w", encoding="ascii") as file:
                file.write("crashed\n")
            self.log("one direction is in, and now this fails")
            raise RuntimeError("on purpose")
        self.add_flow(dpid, Match(in_port=other), [Output(one)])
        self.log("both directions are in")


if __name__ == "__main__":
    CrashOnPurpose().run()
