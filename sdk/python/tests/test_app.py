"""Applications against a host that knows its bytes by heart: what is given, answered, refused and kept."""

import io
import sys
import unittest
from contextlib import redirect_stderr

import legosdn
from legosdn import (
    App,
    Match,
    MatchError,
    OpenFlowError,
    Output,
    Port,
    PortConfig,
    SetVlanVid,
    UnknownSwitch,
    from_json,
    messages,
    to_json,
)

from .fake_host import child, running
from .vectors import (
    ANSWER_DONE,
    ANY,
    DONE,
    G,
    OUT_2,
    READY,
    RESTORE,
    event,
    flow_mod,
    framed,
    hexed,
    in_port,
    joined,
    message,
    packet_in,
    port,
)


def asking(*calls):
    """An application that makes one of these calls in each turn, and keeps what came of it."""
    app = App()
    app.seen = []
    left = list(calls)

    @app.on("join")
    def call(event):
        try:
            app.seen.append(left.pop(0)(event.dpid))
        except (legosdn.LegoError, ValueError) as fault:
            app.seen.append(fault)

    # Each call is made on the application itself.
    left[:] = [lambda dpid, it=it: it(app, dpid) for it in left]
    return app


class Requests(unittest.TestCase):
    def exchange(self, *rows):
        """Rows of a call, the message that it has to send to switch 1, and the answer; what came of each is given back."""
        app = asking(*(row[0] for row in rows))
        with running(self, app) as host:
            host.start()
            for number, (_, sent, answer) in enumerate(rows, 1):
                host.ask(joined(number), message(1, sent))
                host.ask(answer, DONE)
        return app.seen

    def test_changes(self):
        seen = self.exchange(
            (
                lambda app, dpid: app.add_flow(dpid, Match(in_port=1), [Output(2)], priority=100),
                flow_mod(in_port(1), OUT_2, priority=100),
                ANSWER_DONE,
            ),
            (
                lambda app, dpid: app.add_flow(
                    dpid, Match(), [], idle_timeout=30, hard_timeout=60, cookie=7, check_overlap=True, send_flow_removed=True
                ),
                flow_mod(ANY, idle=30, hard=60, cookie=7, priority=0x8000, flags=3),
                ANSWER_DONE,
            ),
            (
                lambda app, dpid: app.modify_flow(dpid, Match(), (SetVlanVid(5), Output(2)), send_flow_removed=True),
                flow_mod(ANY, "0001 0008 0005 0000" + OUT_2, command=1, priority=0x8000, flags=1),
                ANSWER_DONE,
            ),
            (
                lambda app, dpid: app.modify_flow(
                    dpid, Match(in_port=1), [], strict=True, priority=9, idle_timeout=1, hard_timeout=2
                ),
                flow_mod(in_port(1), command=2, priority=9, idle=1, hard=2),
                ANSWER_DONE,
            ),
            (lambda app, dpid: app.delete_flow(dpid), flow_mod(ANY, command=3), ANSWER_DONE),
            (
                lambda app, dpid: app.delete_flow(dpid, Match(in_port=1), strict=True, priority=9, out_port=2),
                flow_mod(in_port(1), command=4, priority=9).replace("ffffffff ffff", "ffffffff 0002"),
                ANSWER_DONE,
            ),
        )
        self.assertEqual(seen, [None] * 6)

    def test_other_messages(self):
        seen = self.exchange(
            (
                lambda app, dpid: app.packet_out(dpid, [Output(Port.FLOOD)], hexed(G), in_port=1),
                "01 0d 0042 00000000 ffffffff 0001 0008 0000 0008 fffb 0000" + G,
                ANSWER_DONE,
            ),
            (
                lambda app, dpid: app.packet_out(dpid, (SetVlanVid(5), Output(Port.TABLE)), hexed(G)),
                "01 0d 004a 00000000 ffffffff ffff 0010 0001 0008 0005 0000 0000 0008 fff9 0000" + G,
                ANSWER_DONE,
            ),
            (
                lambda app, dpid: app.packet_out(dpid, [Output(2)], buffer_id=5),
                "01 0d 0018 00000000 00000005 ffff 0008" + OUT_2,
                framed(3, "01 0001 0008"),
            ),
            (
                lambda app, dpid: app.port_mod(
                    dpid, 2, "02:00:00:01:00:02", config=PortConfig.NO_FLOOD, mask=PortConfig.NO_FLOOD
                ),
                "01 0f 0020 00000000 0002 020000010002 00000010 00000010 00000000 00000000",
                ANSWER_DONE,
            ),
            (lambda app, dpid: app.set_config(dpid, miss_send_len=65535), "01 09 000c 00000000 0000 ffff", ANSWER_DONE),
            (lambda app, dpid: app.barrier(dpid), "01 12 0008 00000000", ANSWER_DONE),
            (lambda app, dpid: app.send(dpid, messages.FeaturesRequest()), "01 05 0008 00000000", ANSWER_DONE),
        )
        self.assertEqual(str(seen.pop(2)), "OFPET_BAD_REQUEST/OFPBRC_BUFFER_UNKNOWN (1,8)")
        self.assertEqual(seen, [None] * 6)

    def test_statistics(self):
        counts = "0000000000000007 0000000000000003 000000000000012c"
        row = "0060 00 00" + in_port(1) + "0000000a 00000000 0064 001e 0000 000000000000" + counts + OUT_2
        table = "00 000000" + b"table0".hex().ljust(64, "0") + "003fffff 00000004 00000001 0000000000000007 0000000000000005"
        sizes = (("lego", 256), ("sim", 256), ("1", 256), ("0", 32), ("sim", 256))
        texts = "".join(text.encode().hex().ljust(size * 2, "0") for text, size in sizes)
        seen = self.exchange(
            (
                lambda app, dpid: app.flow_stats(dpid, Match(in_port=1), out_port=2),
                "01 10 0038 00000000 0001 0000" + in_port(1) + "ff 00 0002",
                framed(3, "02 0001" + row),
            ),
            (
                lambda app, dpid: app.aggregate_stats(dpid, table_id=0),
                "01 10 0038 00000000 0002 0000" + ANY + "00 00 ffff",
                framed(3, "02 0002 0000000000000003 000000000000012c 00000002 00000000"),
            ),
            (lambda app, dpid: app.table_stats(dpid), "01 10 000c 00000000 0003 0000", framed(3, "02 0003" + table)),
            (
                lambda app, dpid: app.port_stats(dpid),
                "01 10 0014 00000000 0004 0000 ffff 000000000000",
                framed(3, "02 0004 0002 000000000000" + "00" * 95 + "09"),
            ),
            (lambda app, dpid: app.desc_stats(dpid), "01 10 000c 00000000 0000 0000", framed(3, "02 0000" + texts)),
        )
        flow = legosdn.FlowStats(Match(in_port=1), (Output(2),), 0, 10, 0, 100, 30, 0, 7, 3, 300)
        self.assertEqual(seen[0], [flow])
        self.assertEqual(seen[1], legosdn.AggregateStats(3, 300, 2))
        self.assertEqual(seen[2], [legosdn.TableStats(0, "table0", 0x3FFFFF, 4, 1, 7, 5)])
        self.assertEqual(seen[3], [legosdn.PortStats(2, collisions=9)])
        self.assertEqual(seen[4], legosdn.DescStats("lego", "sim", "1", "0", "sim"))

    def test_refusals(self):
        seen = self.exchange(
            (lambda app, dpid: app.add_flow(dpid, Match(), []), flow_mod(ANY, priority=0x8000), framed(3, "01 0003 0001")),
            (lambda app, dpid: app.barrier(dpid), "01 12 0008 00000000", framed(3, "03")),
        )
        self.assertIsInstance(seen[0], OpenFlowError)
        self.assertEqual((seen[0].kind, seen[0].code), (3, 1))
        self.assertEqual(str(seen[0]), "OFPET_FLOW_MOD_FAILED/OFPFMFC_OVERLAP (3,1)")
        self.assertEqual((seen[0].kind_name, seen[0].code_name), ("OFPET_FLOW_MOD_FAILED", "OFPFMFC_OVERLAP"))
        self.assertIsInstance(seen[1], UnknownSwitch)
        self.assertEqual(seen[1].dpid, 1)

    def test_a_switch_that_is_lost_within_a_turn(self):
        """One change is taken, and the next one finds its switch lost. The turn goes on, and the leave is the next event."""
        app, seen = App(), []

        @app.on("join")
        def connect(event):
            app.add_flow(1, Match(in_port=1), [Output(2)])
            with self.assertRaises(UnknownSwitch) as lost:
                app.add_flow(1, Match(in_port=2), [Output(2)])
            seen.append(lost.exception.dpid)
            app.barrier(2)

        @app.on("leave")
        def forget(event):
            seen.append([it.port_no for it in event.ports])

        with running(self, app) as host:
            host.start()
            host.ask(joined(1, 1, 2), message(1, flow_mod(in_port(1), OUT_2, priority=0x8000)))
            host.ask(ANSWER_DONE, message(1, flow_mod(in_port(2), OUT_2, priority=0x8000)))
            host.ask(framed(3, "03"), message(2, "01 12 0008 00000000"))
            host.ask(ANSWER_DONE, DONE)
            host.ask(event(2, 2, 1, port(1) + port(2)), DONE)
        self.assertEqual(seen, [1, [1, 2]])

    def test_what_cannot_be_is_not_sent(self):
        """Each of these raises before a frame is given, so the turn has Done alone."""
        calls = [
            (lambda app, dpid: app.add_flow(dpid, Match(nw_src="10.0.0.1"), []), MatchError),
            (lambda app, dpid: app.modify_flow(dpid, Match(tp_src=1), []), MatchError),
            (lambda app, dpid: app.delete_flow(dpid, Match(nw_proto=6)), MatchError),
            (lambda app, dpid: app.flow_stats(dpid, Match(nw_tos=4)), MatchError),
            (lambda app, dpid: app.aggregate_stats(dpid, Match(nw_dst="10.0.0.0/8")), MatchError),
            (lambda app, dpid: app.add_flow(dpid, Match(), [], priority=65536), ValueError),
            (lambda app, dpid: app.add_flow(1 << 64, Match(), []), ValueError),
            (lambda app, dpid: app.packet_out(dpid, [], bytes(65520)), ValueError),
            (lambda app, dpid: app.packet_out(dpid, [Output(2)]), ValueError),
            (lambda app, dpid: app.packet_out(dpid, [Output(2)], b"frame", buffer_id=5), ValueError),
        ]
        app = asking(*(call for call, _ in calls))
        with running(self, app) as host:
            host.start()
            for number in range(1, len(calls) + 1):
                host.ask(joined(number), DONE)
        for got, (_, due) in zip(app.seen, calls):
            self.assertIsInstance(got, due)

    def test_marks(self):
        app = App()

        @app.on("join")
        def marks(event):
            app.save()
            app.save()
            app.undo()
            app.keep()

        with running(self, app) as host:
            host.start()
            host.ask(joined(1), "00000001 02")
            for due in ("00000001 02", "00000001 04", "00000001 03", DONE):
                host.ask(ANSWER_DONE, due)

    def test_only_within_a_turn(self):
        app = App()
        for call in (lambda: app.barrier(1), app.save, app.stop):
            with self.assertRaises(RuntimeError):
                call()


class Everything(App):
    """Keeps each event that it is told."""

    def __init__(self):
        super().__init__()
        self.seen = []

    def on_join(self, event):
        self.seen.append(event)

    on_leave = on_packet_in = on_flow_removed = on_port_status = on_error = on_join


class Events(unittest.TestCase):
    def test_each_kind(self):
        counts = "0000000000000003 000000000000012c"
        removed = "01 0b 0058 00000000" + in_port(1) + "0000000000000007 0064 01 00 0000000a 00000000 001e 0000" + counts
        app = Everything()
        with running(self, app) as host:
            host.start()
            host.ask(joined(1, 1, 2), DONE)
            host.ask(event(2, 2, 1, port(1) + port(2, 1), moment=5), DONE)
            host.ask(packet_in(3, 2, G), DONE)
            host.ask(event(4, 4, 1, removed), DONE)
            host.ask(event(5, 5, 1, "01 0c 0040 00000000 02 00000000000000" + port(2, 1)), DONE)
            host.ask(event(6, 6, 1, "0001 0005"), DONE)
        join, leave, came, gone, changed, error = app.seen
        self.assertEqual([it.number for it in app.seen], [1, 2, 3, 4, 5, 6])
        self.assertEqual([it.moment for it in app.seen], [0, 5, 0, 0, 0, 0])
        self.assertEqual({it.dpid for it in app.seen}, {1})
        described = [(it.port_no, it.hw_addr, it.name) for it in join.ports]
        self.assertEqual(described, [(1, "02:00:00:01:00:01", "p1"), (2, "02:00:00:01:00:02", "p2")])
        self.assertEqual((join.features.capabilities, join.features.actions), (0x87, 0x7FF))
        self.assertEqual([it.state for it in leave.ports], [0, 1])
        self.assertEqual((came.in_port, came.reason, came.data, came.packet.nw_dst), (2, 1, hexed(G), "10.0.0.2"))
        self.assertEqual((gone.removed.match, gone.removed.priority, gone.removed.reason), (Match(in_port=1), 100, 1))
        self.assertEqual((gone.removed.duration_sec, gone.removed.packet_count, gone.removed.byte_count), (10, 3, 300))
        self.assertEqual((changed.reason, changed.port.port_no, changed.port.state), (2, 2, 1))
        self.assertEqual(error.names, ("OFPET_BAD_REQUEST", "OFPBRC_EPERM"))

    def test_later_kinds_are_passed_over(self):
        app = Everything()
        with running(self, app) as host:
            host.start()
            host.ask(event(1, 7, 1, "cafe"), DONE)
            host.ask(event(2, 255, 1, ""), DONE)
        self.assertEqual(app.seen, [])

    def test_functions_come_before_methods(self):
        app, seen = Everything(), []
        app.on("join")(seen.append)
        with running(self, app) as host:
            host.start()
            host.ask(joined(1), DONE)
            host.ask(event(2, 6, 1, "0001 0005"), DONE)
        self.assertEqual([it.number for it in seen], [1])
        self.assertEqual([it.number for it in app.seen], [2])

    def test_no_handler_of_that_name(self):
        app = App()
        with self.assertRaisesRegex(ValueError, "join, leave, packet_in, flow_removed, port_status, error"):
            app.on("timer")
        app.on("join")(print)
        with self.assertRaisesRegex(ValueError, "already"):
            app.on("join")

    def test_stop_is_for_one_event(self):
        app = App()

        @app.on("join")
        def stop_first(event):
            if event.number == 1:
                app.stop()

        with running(self, app) as host:
            host.start()
            host.ask(joined(1), "00000003 05 01 00")
            host.ask(joined(2), DONE)

    def test_bodies_that_are_no_event(self):
        hello, barrier = "01 00 0008 00000000", "01 12 0008 00000000"
        for kind, body in ((1, barrier), (1, "00"), (2, "00" * 47), (3, hello), (6, "0001"), (6, "000100050000")):
            with self.subTest(body), self.assertRaisesRegex(legosdn.HostError, "wrong body"):
                with running(self, Everything()) as host:
                    host.start()
                    host.give(event(1, kind, 1, body))


class Checkpoints(unittest.TestCase):
    class Counter(App):
        """Counts the joins of its whole life, crashes included."""

        def __init__(self):
            super().__init__()
            self.count, self.restored = 0, []

        def on_join(self, event):
            self.count += 1

        def get_state(self):
            return to_json({"count": self.count})

        def set_state(self, state):
            self.restored.append(state)
            self.count = from_json(state)["count"]

    def test_given_at_each_end(self):
        app = self.Counter()
        with running(self, app) as host:
            host.start()
            host.ask(joined(1), framed(5, "00 01" + b'{"count":1}'.hex()))
            host.ask(joined(2), framed(5, "00 01" + b'{"count":2}'.hex()))
        self.assertEqual(app.restored, [])

    def test_taken_back(self):
        app = self.Counter()
        with running(self, app) as host:
            host.start(framed(1, b'{"count":41}'.hex()))
            host.ask(joined(1), framed(5, "00 01" + b'{"count":42}'.hex()))
        self.assertEqual(app.restored, [b'{"count":41}'])

    def test_too_long(self):
        app = App()
        app.get_state = lambda: bytes(1_048_577)
        with self.assertRaisesRegex(ValueError, "1048577"), running(self, app) as host:
            host.start()
            host.give(joined(1))

    def test_json(self):
        self.assertEqual(to_json({"b": [1, None], "a": "x"}), b'{"a":"x","b":[1,null]}')
        self.assertEqual(from_json(b'{"a":"x","b":[1,null]}'), {"b": [1, None], "a": "x"})
        with self.assertRaises(ValueError):
            to_json(float("nan"))
        with self.assertRaises(TypeError):
            to_json(b"bytes")


class Failures(unittest.TestCase):
    SCRIPT = """
from legosdn import App, Match, Output
app = App()
@app.on("join")
def half(event):
    print("this must not reach the host")
    app.log("half of it is in")
    app.add_flow(event.dpid, Match(in_port=1), [Output(2)])
    raise RuntimeError("on purpose")
app.run()
"""

    def test_a_handler_that_raises(self):
        with child(self, "-c", self.SCRIPT) as program:
            host = program.host
            host.start()
            host.ask(joined(1), message(1, flow_mod(in_port(1), OUT_2, priority=0x8000)))
            host.give(ANSWER_DONE)
            self.assertEqual(program.end(), b"")
        self.assertEqual(program.status, 1)
        self.assertIn("this must not reach the host\nevent 1: half of it is in\nTraceback", program.errors)
        self.assertTrue(program.errors.endswith("RuntimeError: on purpose\n"))

    def test_a_refusal_that_nobody_catches(self):
        app = App()
        app.on("join")(lambda event: app.barrier(event.dpid))
        with self.assertRaises(UnknownSwitch), running(self, app) as host:
            host.start()
            host.ask(joined(1), message(1, "01 12 0008 00000000"))
            host.give(framed(3, "03"))

    def test_a_host_that_closes(self):
        for given in ("", RESTORE):
            with running(self, App()) as host:
                if given:
                    host.start()
        app = App()
        app.on("join")(lambda event: app.save())
        with self.assertRaises(legosdn.HostClosed), running(self, app) as host:
            host.start()
            host.ask(joined(1), "00000001 02")
        with self.assertRaises(legosdn.HostClosed), running(self, App()) as host:
            host.start()
            host.give(hexed(joined(1)).hex()[:40])

    def test_a_host_that_says_what_it_must_not(self):
        for given in (joined(1), ANSWER_DONE, "00000001 09", "00000000"):
            with self.subTest(given), self.assertRaises(legosdn.HostError), running(self, App()) as host:
                host.give(given)
        for given in (ANSWER_DONE, RESTORE):
            with self.subTest(given), self.assertRaises(legosdn.HostError), running(self, App()) as host:
                host.start()
                host.give(given)
        for answer in (RESTORE, framed(3, "00"), framed(3, "02 0001")):
            app = App()
            app.on("join")(lambda event, app=app: app.table_stats(event.dpid))
            with self.subTest(answer), self.assertRaises(legosdn.HostError), running(self, app) as host:
                host.start()
                host.ask(joined(1), message(1, "01 10 000c 00000000 0003 0000"))
                host.give(answer)

    def test_what_is_logged(self):
        app, log = App(), io.StringIO()
        app.on("join")(lambda event: app.log("switch", event.dpid))
        with redirect_stderr(log):
            app.log("begins")
            with running(self, app) as host:
                host.start()
                host.ask(joined(8), DONE)
        self.assertEqual(log.getvalue(), "start: begins\nevent 8: switch 1\n")
        self.assertIs(sys.stdout, sys.__stdout__)

    def test_frames_come_in_any_pieces(self):
        app = Everything()
        with running(self, app) as host:
            for byte in hexed(RESTORE):
                host.give(f"{byte:02x}")
            host.expect(READY)
            second = hexed(joined(2)).hex()
            host.give(joined(1, 1), second[:10])
            host.expect(DONE)
            host.give(second[10:])
            host.expect(DONE)
        self.assertEqual([it.number for it in app.seen], [1, 2])
