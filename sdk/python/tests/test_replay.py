"""A session in words, replayed by the program where it is built."""

import contextlib
import io
import os
import subprocess
import sys
import unittest

from legosdn import UnknownSwitch, messages, session
from legosdn.rehearsal import join, leave, packet_in, rehearse

from . import PYTHON, TOP

sys.path.insert(0, os.path.join(PYTHON, "examples"))
from learning_switch import LearningSwitch  # noqa: E402

PROGRAM = os.path.join(TOP, "crates", "legosdn", "out", "legosdn")

WORDS = """\
---
session 1
switch 1 ports 1,2 room 4
reply app: add 1 in_port=1 prio=100 idle=30 out=2; add 1 dl_vlan=7 prio=5 set_vlan_vid=5 out=1; done
reply app: add 1 in_port=2 prio=9 out=1; closed  # this entry is taken back
join 1
frame 1 port 1 eth dst=02:00:00:00:00:02 src=02:00:00:00:00:01 type=0x88b5
frame 1 port 2 eth dst=02:00:00:00:00:01 src=02:00:00:00:00:02 type=0x88b5
"""

# The first frame meets the first entry. The second one meets none, and is told to the application, which closes its end.
REPORT = """\
start app ready
event 1 join 1
turn app done
event 2 packet_in 1
turn app failed closed
start app ready
switch 1 flows 2
flow 100 in_port=1 cookie=0 idle=30 hard=0 flags=0 packets=1 bytes=14 age=0 actions=0000000800020000  # out=2
flow 5 dl_vlan=7 cookie=0 idle=0 hard=0 flags=0 packets=0 bytes=0 age=0 actions=00010008000500000000000800010000  # set_vlan_vid=5 out=1
app app alive done 1 failed 1
end 0 events 2
"""


# A question from port 1, its answer from port 2, and the question again, 42 bytes each. The first one is flooded as a packet. The other two
# get an entry each, and are sent on.
ASKED = "eth dst=02:00:00:00:00:02 src=02:00:00:00:00:01 ip src=10.0.0.1 dst=10.0.0.2 udp src=53 dst=54"
ANSWERED = "eth dst=02:00:00:00:00:01 src=02:00:00:00:00:02 ip src=10.0.0.2 dst=10.0.0.1 udp src=54 dst=53"
# (how the reports of both sessions below begin)
BEGUN = """\
start app ready
event 1 join 1
turn app done
event 2 packet_in 1
turn app done
out 1 42
event 3 packet_in 1
turn app done
"""
LEARNT = BEGUN + """\
out 1 42
event 4 packet_in 1
turn app done
out 1 42
switch 1 flows 2
flow 100 in_port=1,dl_src=02:00:00:00:00:01,dl_dst=02:00:00:00:00:02 cookie=0 idle=60 hard=300 flags=0 packets=1 bytes=42 age=0 \
actions=0000000800020000  # out=2
flow 100 in_port=2,dl_src=02:00:00:00:00:02,dl_dst=02:00:00:00:00:01 cookie=0 idle=60 hard=300 flags=0 packets=0 bytes=0 age=0 \
actions=0000000800010000  # out=1
app app alive done 4 failed 0
end 0 events 4
"""


# The switch is lost at its barrier: calls 1 to 4 are its join, 5 to 7 the first packet, 8 is the entry between the two addresses.
LOST = BEGUN + """\
lost 1
event 4 leave 1
turn app done
app app alive done 4 failed 0
end 0 events 4
"""


@unittest.skipUnless(os.access(PROGRAM, os.X_OK), f"there is no program {os.path.relpath(PROGRAM, TOP)} yet")
class Replay(unittest.TestCase):
    def check(self, words, report):
        done = subprocess.run([PROGRAM, "replay"], input=session.write(words).encode(), capture_output=True, check=False, timeout=60)
        self.assertEqual(session.explain(done.stdout.decode()), report)
        self.assertEqual((done.returncode, done.stderr), (0, b""))

    def test_a_session_in_words(self):
        self.check(WORDS, REPORT)

    def test_an_application_that_was_rehearsed(self):
        frames = [(1, ASKED), (2, ANSWERED), (1, ASKED)]
        turns = rehearse(LearningSwitch(), [join(1, [1, 2]), *(packet_in(1, by, frame) for by, frame in frames)])
        front = ["---", "session 1", "switch 1 ports 1,2 room 4", *(turn.line() for turn in turns)]
        # The last frame meets its entry.
        frames.append((1, ASKED))
        self.check("\n".join([*front, "join 1", *(f"frame 1 port {by} {frame}" for by, frame in frames)]), LEARNT)

    def test_a_switch_that_is_lost_within_a_turn(self):
        def answer(dpid, message):
            return UnknownSwitch(dpid) if isinstance(message, messages.FlowMod) else None

        events = [join(1, [1, 2]), packet_in(1, 1, ASKED), packet_in(1, 2, ANSWERED), leave(1, [1, 2])]
        with contextlib.redirect_stderr(io.StringIO()) as said:
            turns = rehearse(LearningSwitch(), events, answer)
        self.assertEqual(said.getvalue(), "event 3: switch 1 has left\n")
        front = ["---", "session 1", "switch 1 ports 1,2 room 4", "fault link 1 9", *(turn.line() for turn in turns)]
        self.check("\n".join([*front, "join 1", f"frame 1 port 1 {ASKED}", f"frame 1 port 2 {ANSWERED}"]), LOST)
