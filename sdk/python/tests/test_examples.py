"""The examples as programs of their own, against a host that knows their messages by heart."""

import os
import tempfile
import unittest

from . import PYTHON
from .fake_host import child
from .vectors import ANSWER_DONE, ANY, DONE, G, OUT_2, event, flow_mod, framed, in_port, joined, message, packet_in, packet_out, port

OUT_1 = "0000 0008 0001 0000"
OUT_3 = "0000 0008 0003 0000"
TELL = "0000 0008 fffd ffff"
FLOOD = "0000 0008 fffb 0000"
# From 10.0.0.1 to 10.0.0.2, UDP from port 53 to port 54.
UDP = "ffffffffffff 020000000001 0800 4500 001c 0000 0000 40 11 66cf 0a000001 0a000002 0035 0036 0008 eb70"


def done(state):
    """Done with this state."""
    return framed(5, "00 01" + state.encode().hex())


class Examples(unittest.TestCase):
    def example(self, name, **environment):
        return child(self, os.path.join(PYTHON, "examples", f"{name}.py"), **environment)

    def all_done(self, host, given, messages, done=DONE):
        """Gives an event, expects these messages to switch 1, answers each as done, and expects Done."""
        for sent in messages:
            host.ask(given, message(1, sent))
            given = ANSWER_DONE
        host.ask(given, done)

    def ends_well(self, program, errors):
        self.assertEqual(program.end(), b"")
        self.assertEqual((program.errors, program.status), (errors, 0))

    def test_learning_switch(self):
        first, both = '{"1":{"02:00:00:00:00:01":1}}', '{"1":{"02:00:00:00:00:01":1,"02:00:00:00:00:02":2}}'
        # in_port, dl_src and dl_dst are the bits 0, 2 and 3 of the wildcards.
        pair = flow_mod("003820f2 0002 020000000002 020000000001" + "00" * 22, OUT_1, priority=100, idle=60, hard=300)
        answer = "020000000001 020000000002 88b5"
        flooded, sent = packet_out(FLOOD, 1, G), packet_out(OUT_1, 2, answer)
        with self.example("learning_switch") as program:
            host = program.host
            host.start()
            self.all_done(host, joined(1, 1, 2), [], done('{"1":{}}'))
            self.all_done(host, packet_in(2, 1, G, reason=0), [flooded], done(first))
            self.all_done(host, packet_in(3, 2, answer, reason=0), [pair, sent], done(both))
            # No frame, one from a group of stations, and one whose receiver is behind the same port.
            self.all_done(host, packet_in(4, 2, "0000", reason=0), [], done(both))
            self.all_done(host, packet_in(5, 2, "020000000001 030000000002 88b5", reason=0), [], done(both))
            self.all_done(host, packet_in(6, 1, "020000000001 020000000001 88b5", reason=0), [], done(both))
            # Where the table is full the frame goes on all the same. Of a frame whose front alone came nothing is sent.
            host.ask(packet_in(7, 2, answer, reason=0), message(1, pair))
            host.ask(framed(3, "01 0003 0000"), message(1, sent))
            host.ask(ANSWER_DONE, done(both))
            front = event(8, 3, 1, f"01 0a 0020 00000000 00000007 0040 0002 00 00 {answer}")
            self.all_done(host, front, [pair], done(both))
            # Where the switch is lost at its entry, nothing is sent behind it; its leave comes then.
            host.ask(packet_in(9, 2, answer, reason=0), message(1, pair))
            host.ask(framed(3, "03"), done(both))
            self.all_done(host, event(10, 2, 1, port(1) + port(2)), [], done("{}"))
            host.ask(packet_in(11, 1, G, reason=0), message(1, flooded))
            host.ask(framed(3, "03"), done(first))
            match = "in_port=2,dl_src=02:00:00:00:00:02,dl_dst=02:00:00:00:00:01"
            said = f"event 7: no entry for {match}: OFPET_FLOW_MOD_FAILED/OFPFMFC_ALL_TABLES_FULL (3,0)\n"
            said += "event 8: 14 of 64 bytes of a frame are here\n"
            self.ends_well(program, said + "event 9: switch 1 has left\nevent 11: switch 1 has left\n")
        with self.example("learning_switch") as program:
            program.host.start(framed(1, first.encode().hex()))
            self.all_done(program.host, packet_in(7, 2, answer, reason=0), [pair, sent], done(both))
            self.ends_well(program, "")

    def test_learning_by_additions(self):
        # dl_dst is bit 3 of the wildcards, dl_type bit 4. An entry of an address goes after 300 seconds.
        first = [
            flow_mod(ANY, FLOOD + TELL),
            flow_mod("003820ef" + "00" * 18 + "0806" + "00" * 16, FLOOD + TELL, priority=20),
        ]
        to_1, to_2 = (
            flow_mod("003820f7" + "00" * 8 + f"02000000000{it}" + "00" * 22, out, priority=10, hard=300)
            for it, out in ((1, OUT_1), (2, OUT_2))
        )
        answer = "020000000001 020000000002 88b5"
        refused = framed(3, "01 0001 0001")

        def later(number, moment):
            return packet_in(number, 1, G).replace(f"{number:016x} {0:016x}", f"{number:016x} {moment:016x}")

        def standing(**until):
            return done('{"1":{' + ",".join(f'"02:00:00:00:00:0{it[1:]}":{moment}' for it, moment in until.items()) + "}}")

        with self.example("learning_by_additions") as program:
            host = program.host
            host.start()
            # It hands its state over when a second has passed.
            self.all_done(host, joined(1, 1, 2), first, standing())
            self.all_done(host, packet_in(2, 1, G), [to_1])
            self.all_done(host, packet_in(3, 2, answer), [to_2])
            # What stands is not added again, neither from another port nor up to its last second.
            self.all_done(host, packet_in(4, 1, answer), [])
            self.all_done(host, later(5, 300), [], standing(_1=300, _2=300))
            self.all_done(host, later(6, 301), [to_1], standing(_1=601, _2=300))
            # No frame, and one from a group of stations.
            self.all_done(host, packet_in(7, 2, "0000"), [])
            self.all_done(host, packet_in(8, 2, "020000000001 030000000002 88b5"), [])
            # What a switch has is forgotten when it leaves, and when it joins.
            self.all_done(host, event(9, 2, 1, port(1) + port(2)), [])
            self.all_done(host, packet_in(10, 1, G), [to_1])
            self.all_done(host, joined(11, 1, 2), first)
            self.all_done(host, packet_in(12, 1, G), [to_1])
            self.all_done(host, later(13, 302), [to_1], standing(_1=602))
            self.ends_well(program, "")
        # Started again with its state, it knows what stands.
        with self.example("learning_by_additions") as program:
            program.host.start(framed(1, '{"1":{"02:00:00:00:00:01":300}}'.encode().hex()))
            self.all_done(program.host, packet_in(1, 1, G), [], standing(_1=300))
            self.all_done(program.host, packet_in(2, 2, answer), [to_2])
            self.ends_well(program, "")
        # Without one, what stands is refused, and passed over once.
        with self.example("learning_by_additions") as program:
            host = program.host
            host.start()
            host.ask(packet_in(1, 1, G, reason=0), message(1, first[0]))
            for sent in (first[1], to_1):
                host.ask(refused, message(1, sent))
            host.ask(refused, standing(_1=300))
            self.all_done(host, packet_in(2, 1, G), [])
            why = "OFPET_BAD_REQUEST/OFPBRC_BAD_TYPE (1,1)"
            keys = ("any", "dl_type=0x0806", "dl_dst=02:00:00:00:00:01")
            self.ends_well(program, "".join(f"event 1: no entry for {it}: {why}\n" for it in keys))

    def test_static_router(self):
        # dl_type is bit 4 of the wildcards; the count of ignored bits of nw_dst begins at bit 14: 8 and 24 of them.
        def route(wildcards, network, number, out):
            match = f"{wildcards}" + "00" * 18 + "0800" + "00" * 8 + network + "00" * 4
            return match, f"0004 0010 02000000{number}fe 000000000000 0005 0010 02000000{number}01 000000000000" + out

        with self.example("static_router") as program:
            host = program.host
            host.start()
            routes = [
                (route("003220ef", "0a000100", "01", OUT_1), 124),
                (route("003220ef", "0a000200", "02", OUT_2), 124),
                (route("003620ef", "0a000000", "03", OUT_3), 108),
            ]
            arp = flow_mod("003820ef" + "00" * 18 + "0806" + "00" * 16, FLOOD, priority=1)
            self.all_done(host, joined(1, 1, 2, 3), [arp, *(flow_mod(*it, priority=priority) for it, priority in routes)])
            self.all_done(host, joined(2, 1, dpid=7), [])
            self.all_done(host, event(3, 5, 1, "01 0c 0040 00000000 02 00000000000000" + port(2, 1)), [])
            said = "event 1: 3 routes are in\nevent 2: switch 7 is not the router\n"
            self.ends_well(program, said + "event 3: the link to 10.0.2.0/24 is down\n")

    def test_firewall(self):
        # Of the wildcards in_port is bit 0, dl_type bit 4, nw_proto bit 5; dl_vlan, dl_src, dl_dst are 1 to 3.
        def arp(number):
            return f"003820ee {number:04x}" + "00" * 16 + "0806" + "00" * 16

        def ends(number, rest):
            return f"0030000e {number:04x}" + "00" * 16 + "0800 00 11 0000" + rest

        protocols = [f"003820ce 0001{'00' * 16} 0800 00 {it} 0000 {'00' * 12}" for it in ("06", "11")]
        first = [
            flow_mod(in_port(2), priority=1),
            flow_mod(in_port(1), OUT_2, priority=1),
            flow_mod(arp(1), OUT_2, priority=2),
            flow_mod(arp(2), OUT_1, priority=2),
            *(flow_mod(it, OUT_2 + TELL, priority=2) for it in protocols),
        ]
        back = flow_mod(ends(2, "0a000002 0a000001 0036 0035"), OUT_1, priority=10, hard=120)
        there = flow_mod(ends(1, "0a000001 0a000002 0035 0036"), OUT_2, priority=10, hard=120)
        with self.example("firewall") as program:
            host = program.host
            host.start()
            self.all_done(host, joined(1, 1, 2), first)
            self.all_done(host, packet_in(2, 1, UDP), [back, there])
            self.all_done(host, packet_in(3, 2, UDP), [])
            self.all_done(host, packet_in(4, 1, G), [])
            self.all_done(host, packet_in(5, 1, G, reason=0), first)
            self.all_done(host, packet_in(6, 3, G, reason=0), [])
            self.ends_well(program, "")
        with self.example("firewall") as program:
            host = program.host
            host.start()
            host.ask(packet_in(1, 1, UDP), message(1, back))
            host.ask(ANSWER_DONE, message(1, there))
            host.give(framed(3, "01 0003 0000"))
            self.assertEqual(program.end(), b"")
            self.assertEqual(program.status, 1)
            self.assertTrue(program.errors.endswith("OFPET_FLOW_MOD_FAILED/OFPFMFC_ALL_TABLES_FULL (3,0)\n"), program.errors)

    def test_crash_on_purpose(self):
        one, other = flow_mod(in_port(1), OUT_2, priority=0x8000), flow_mod(in_port(2), OUT_1, priority=0x8000)
        with tempfile.TemporaryDirectory() as room:
            crashed = os.path.join(room, "crashed")
            with self.example("crash_on_purpose", CRASHED=crashed) as program:
                program.host.start()
                program.host.ask(joined(1, 1, 2), message(1, one))
                program.host.give(ANSWER_DONE)
                self.assertEqual(program.end(), b"")
                self.assertEqual(program.status, 1)
                self.assertRegex(program.errors, "^event 1: one direction is in, and now this fails\nTraceback")
            with self.example("crash_on_purpose", CRASHED=crashed) as program:
                program.host.start()
                changed = event(2, 5, 1, "01 0c 0040 00000000 02 00000000000000" + port(2, 1))
                self.all_done(program.host, changed, [one, other])
                self.ends_well(program, "event 2: both directions are in\n")
