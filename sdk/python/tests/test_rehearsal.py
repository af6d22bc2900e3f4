"""Applications that are tried without a controller: what goes in, what comes out, and the line of a session."""

import os
import sys
import unittest

import legosdn
from legosdn import App, Match, OpenFlowError, Output, UnknownSwitch, messages, rehearsal

from . import PYTHON
from .vectors import ANY, OUT_2, F, G, event, flow_mod, hexed, in_port, joined, packet_in, packet_out, port

sys.path.insert(0, os.path.join(PYTHON, "examples"))
from learning_switch import LearningSwitch  # noqa: E402

ETH = "eth dst=ff:ff:ff:ff:ff:ff src=02:00:00:00:00:01 type=0x88b5"


class Events(unittest.TestCase):
    def test_each_event(self):
        """The frames of the host, but for their numbers, which are given as they are dispatched."""
        removed = "01 0b 0058 00000000" + in_port(1) + "00" * 8 + "0064 01 00 0000000a" + "00" * 24
        for made, due in (
            (rehearsal.join(1, [1, 2]), joined(0, 1, 2)),
            (rehearsal.leave(1, [1, 2], moment=5), event(0, 2, 1, port(1) + port(2), moment=5)),
            (rehearsal.packet_in(1, 2, hexed(G)), packet_in(0, 2, G)),
            (rehearsal.packet_in(1, 2, ETH, reason=0), packet_in(0, 2, F, reason=0)),
            (rehearsal.flow_removed(1, Match(in_port=1), priority=100, reason=1, duration_sec=10), event(0, 4, 1, removed)),
            (rehearsal.port_status(1, 2, up=False), event(0, 5, 1, "01 0c 0040 00000000 02 00000000000000" + port(2, 1))),
            (rehearsal.error(1, 1, 5), event(0, 6, 1, "0001 0005")),
        ):
            self.assertEqual(legosdn.frames.encode(made), hexed(due))


class Rehearsals(unittest.TestCase):
    def test_what_an_application_says(self):
        frame = "eth dst=02:00:00:00:00:01 src=02:00:00:00:00:02 type=0x88b5"
        turns = rehearsal.rehearse(
            LearningSwitch(), [rehearsal.join(1, [1, 2]), rehearsal.packet_in(1, 1, ETH), rehearsal.packet_in(1, 2, frame)]
        )
        self.assertEqual(turns[0].said, [])
        self.assertEqual(turns[1].said, [f"packet_out 1 in=1 out=flood {ETH}"])
        pair = "in_port=2 dl_src=02:00:00:00:00:02 dl_dst=02:00:00:00:00:01"
        self.assertEqual(turns[2].said, [f"add 1 {pair} prio=100 idle=60 hard=300 out=1", f"packet_out 1 in=2 out=1 {frame}"])
        self.assertEqual(turns[1].state, b'{"1":{"02:00:00:00:00:01":1}}')
        flooded = "m:1:" + packet_out("0000 0008 fffb 0000", 1, F).replace(" ", "")
        self.assertEqual(turns[1].line("learn"), f"reply learn {flooded} done:" + turns[1].state.hex())
        self.assertEqual([turn.raised for turn in turns], [None] * 3)

    def test_answers_and_lines(self):
        app, seen = App(), []

        @app.on("join")
        def ask(event):
            app.save()
            app.add_flow(event.dpid, Match(), [Output(2)], priority=7)
            app.keep()
            for call in (app.table_stats, app.barrier, app.delete_flow):
                try:
                    seen.append(call(event.dpid))
                except (OpenFlowError, UnknownSwitch) as refused:
                    seen.append(str(refused))
            app.stop()

        def answer(dpid, message):
            return {
                messages.StatsRequest: messages.StatsReply(3, b""),
                messages.BarrierRequest: UnknownSwitch(dpid),
            }.get(type(message), OpenFlowError(3, 2) if getattr(message, "command", 0) else None)

        (turn,) = rehearsal.rehearse(app, [rehearsal.join(9)], answer)
        self.assertEqual(seen, [[], "no switch 9 is joined", "OFPET_FLOW_MOD_FAILED/OFPFMFC_EPERM (3,2)"])
        self.assertEqual(turn.said, ["save", "add 9 any prio=7 out=2", "keep", "stats table 9", "barrier 9", "delete 9 any"])
        self.assertTrue(turn.stop)
        add, delete = flow_mod(ANY, OUT_2, priority=7).replace(" ", ""), flow_mod(ANY, command=3).replace(" ", "")
        steps = f"save m:9:{add} keep m:9:0110000c0000000000030000 m:9:0112000800000000 m:9:{delete} stop"
        self.assertEqual(turn.line(), f"reply app {steps}")

    def test_an_application_that_raises(self):
        app = App()

        @app.on("join")
        def fail(event):
            if event.number == 2:
                app.barrier(event.dpid)
                raise RuntimeError("on purpose")

        turns = rehearsal.rehearse(app, [rehearsal.join(1), rehearsal.join(2), rehearsal.join(3)])
        self.assertEqual([turn.line() for turn in turns], ["reply app done", "reply app m:2:0112000800000000 closed"])
        self.assertEqual(str(turns[1].raised), "on purpose")

    def test_statistics_are_refused_without_an_answer(self):
        app = App()
        app.on("join")(lambda event: app.desc_stats(event.dpid))
        (turn,) = rehearsal.rehearse(app, [rehearsal.join(1)])
        self.assertEqual(str(turn.raised), "OFPET_BAD_REQUEST/OFPBRC_BAD_TYPE (1,1)")

    def test_a_start_from_a_state(self):
        app, states = App(), []
        app.set_state = states.append
        self.assertEqual(rehearsal.rehearse(app, [], state=b"before"), [])
        self.assertEqual(states, [b"before"])

        def refuse(state):
            raise ValueError("no state of mine")

        app.set_state = refuse
        with self.assertRaisesRegex(ValueError, "no state of mine"):
            rehearsal.rehearse(app, [rehearsal.join(1)], state=b"before")
