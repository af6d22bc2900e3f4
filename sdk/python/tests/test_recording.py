"""Tests that are made of a recording, of applications that do what was recorded and of such that do not."""

import os
import tempfile
import unittest

from legosdn import App, Match, Output, frames, recording, session

from .vectors import F

ADDED = "010e005000000000003820fe0001" + "00" * 42 + "0000000000000064ffffffffffff00000000000800020000"
PACKET = "010a002000000000ffffffff000e00010000" + F.replace(" ", "")


def framed(kind, body=b""):
    return ((len(body) + 1).to_bytes(4, "big") + bytes([kind]) + body).hex()


MESSAGE = framed(1, (1).to_bytes(8, "big") + bytes.fromhex(ADDED))
DONE = framed(5, b"\x00\x01" + b"one")

# The first turn is done in two pieces, and the second one fails. What stands behind the first one's end is of the second.
RECORDING = f"""# a remark
[[app]]
name = "app"
---
session 1
switch 1 4096 1,2
start app ready
reply app x:{MESSAGE[:20]} x:{MESSAGE[20:]}{DONE}{MESSAGE}
reply app closed
start app ready
reply app x:{DONE}
join 1
at 3
raw 1 {PACKET}
port 1 2 down
"""


class Adds(App):
    """Says what was recorded, unless it is told to fail."""

    fails = False

    def on_join(self, event):
        self.add_flow(event.dpid, Match(in_port=1), [Output(2)], priority=100)

    def on_packet_in(self, event):
        self.add_flow(event.dpid, Match(in_port=1), [Output(2)], priority=100)
        if self.fails:
            raise RuntimeError("on purpose")

    def get_state(self):
        return b"one"


class Fails(Adds):
    fails = True


class Other(Adds):
    def on_join(self, event):
        self.add_flow(event.dpid, Match(in_port=1), [Output(1)], priority=100)


class Recordings(unittest.TestCase):
    def outcome(self, make):
        with tempfile.TemporaryDirectory() as folder:
            path = os.path.join(folder, "recording")
            with open(path, "w", encoding="ascii") as file:
                file.write(RECORDING)
            made = recording.test_case(path, make)
        result = unittest.TestResult()
        unittest.defaultTestLoader.loadTestsFromTestCase(made).run(result)
        return result.testsRun, [test.id().rsplit(".", 1)[1] for test, _ in result.failures + result.errors]

    def test_lives_and_events(self):
        first, second = recording.lives(RECORDING)
        self.assertEqual([turn.said for turn in first.turns], [["add 1 in_port=1 prio=100 out=2"]] * 2)
        self.assertEqual([bool(turn.done) for turn in first.turns], [True, False])
        self.assertEqual((first.state, second.state), (b"", b"one"))
        self.assertEqual([(it.kind, it.dpid, it.moment) for it in recording.events(RECORDING)], [(1, 1, 0), (3, 1, 3), (5, 1, 3)])

    def test_a_mended_application_passes(self):
        self.assertEqual(self.outcome(Adds), (2, []))

    def test_one_that_fails_again(self):
        self.assertEqual(self.outcome(Fails), (2, ["test_life_1"]))

    def test_one_that_says_something_else(self):
        self.assertEqual(self.outcome(Other), (2, ["test_life_1"]))

    def test_steps_of_sessions(self):
        text = f"session 1\nreply app m:1:{ADDED} save keep undo stop:01\nreply b done"
        (life,) = recording.lives(text)
        self.assertEqual([type(it).__name__ for it in life.turns[0].frames], ["Message", "Save", "Keep", "Undo", "Done"])
        self.assertEqual(life.turns[0].done, frames.Done(True, b"\x01"))

    def test_explained(self):
        """The session tool reads a recording: pieces that are whole frames are told in a remark."""
        told = session.explain(f"session 1\nreply app x:{MESSAGE}{DONE}")
        self.assertIn("step 1: for switch 1: add in_port=1 prio=100 out=2, then done with a checkpoint of 3 bytes", told)
