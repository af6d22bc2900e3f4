"""Sessions in words against lines that are written out by hand, after docs/SESSION.md."""

import glob
import os
import re
import subprocess
import sys
import unittest

from legosdn import session

from . import PYTHON, TOP
from .vectors import ANY, OUT_2, F, G, flow_mod, in_port


def line(*parts):
    """A line whose last parts are digits, without the spaces in them."""
    return parts[0] + "".join(part.replace(" ", "") for part in parts[1:])


ETH = "eth dst=ff:ff:ff:ff:ff:ff src=02:00:00:00:00:01"
NW_SRC = "003808ef" + "00" * 18 + "0800" + "00" * 4 + "0a000000" + "00" * 8

# Words, and the line that they stand for. `explain` makes the same words of it.
BOTH_WAYS = [
    ("switch 1 ports 1,2,3 room 8", "switch 1 8 1,2,3"),
    ("switch 7 ports none room 4096", "switch 7 4096 -"),
    ("switch 7 ports none room 4096 buffers 2", "switch 7 4096 - 2"),
    (
        "reply app: add 1 in_port=1 prio=100 out=2; done",
        line("reply app m:1:", "010e005000000000003820fe0001", "00" * 42, "0000000000000064ffffffffffff0000", OUT_2) + " done",
    ),
    ("reply app: delete 1 any; closed", line("reply app m:1:", flow_mod(ANY, command=3)) + " closed"),
    ("reply app: add 1 any drop", line("reply app m:1:", flow_mod(ANY))),
    (
        "reply a: modify 2 dl_type=0x0800 nw_src=10.0.0.0/24 prio=5 cookie=7 idle=30 hard=60 flags=send_flow_rem+check_overlap out=2",
        line("reply a m:2:", flow_mod(NW_SRC, OUT_2, command=1, priority=5, cookie=7, idle=30, hard=60, flags=3)),
    ),
    (
        "reply app: modify_strict 1 any prio=9 set_vlan_vid=5 set_vlan_pcp=3 strip_vlan set_dl_src=02:00:00:00:00:01 "
        "set_dl_dst=02:00:00:00:00:02 set_nw_src=10.0.0.1 set_nw_dst=10.0.0.2 set_nw_tos=184 set_tp_src=80 set_tp_dst=443 "
        "enqueue=1:7 vendor_action=00002320 out=controller:128 out=flood",
        line(
            "reply app m:1:",
            flow_mod(
                ANY,
                "0001 0008 0005 0000 0002 0008 03 000000 0003 0008 00000000 0004 0010 020000000001 000000000000"
                "0005 0010 020000000002 000000000000 0006 0008 0a000001 0007 0008 0a000002 0008 0008 b8 000000"
                "0009 0008 0050 0000 000a 0008 01bb 0000 000b 0010 0001 000000000000 00000007 ffff 0008 00002320"
                "0000 0008 fffd 0080 0000 0008 fffb 0000",
                command=2,
                priority=9,
            ),
        ),
    ),
    (
        "reply app: delete_strict 1 any prio=9 out_port=2",
        line("reply app m:1:", flow_mod(ANY, command=4, priority=9)).replace("ffffffffffff", "ffffffff0002"),
    ),
    ("reply app: flow_mod 1 any command=9 drop", line("reply app m:1:", flow_mod(ANY, command=9))),
    (
        f"reply app: packet_out 1 in=1 out=2 {ETH} type=0x88b5; done",
        line("reply app m:1:", "010d002600000000ffffffff000100080000000800020000", F) + " done",
    ),
    ("reply app: packet_out 1 out=table data=00", "reply app m:1:010d001900000000ffffffffffff000800000008fff9000000"),
    ("reply app: stats flow 1 any; done", line("reply app m:1:", "011000380000000000010000", ANY, "ff00ffff") + " done"),
    ("reply app: stats aggregate 1 any out_port=2", line("reply app m:1:", "011000380000000000020000", ANY, "ff000002")),
    ("reply app: stats flow 1 in_port=1 table=0", line("reply app m:1:", "011000380000000000010000", in_port(1), "0000ffff")),
    ("reply app: stats table 1; stats desc 1", "reply app m:1:0110000c0000000000030000 m:1:0110000c0000000000000000"),
    ("reply app: stats port 1", "reply app m:1:011000140000000000040000ffff000000000000"),
    ("reply app: stats port 1 port=2", "reply app m:1:0110001400000000000400000002000000000000"),
    ("reply app: stats other 1 kind=5 data=00", "reply app m:1:0110000d000000000005000000"),
    (
        "reply app: port_mod 1 port=2 addr=02:00:00:01:00:02 config=no_flood mask=no_flood",
        "reply app m:1:010f002000000000000202000001000200000010000000100000000000000000",
    ),
    ("reply app: set_config 1; features_request 1", "reply app m:1:0109000c0000000000000080 m:1:0105000800000000"),
    ("reply app: get_config_request 1", "reply app m:1:0107000800000000"),
    ("reply app: barrier 0 xid=1; echo_request 9 data=ff", "reply app m:0:0112000800000001 m:9:0102000900000000ff"),
    ("reply app: save; keep; undo; stop", "reply app save keep undo stop"),
    ('reply app: done {"count":1}', "reply app done:7b22636f756e74223a317d"),
    ("reply app/2: stop a b", "reply app/2 stop:612062"),
    ("again app: done", "again app done"),
    ("start app garbled", "start app garbled"),
    ("fault link 1 9", "fault link 1 9"),
    ("join 1", "join 1"),
    ("at 5", "at 5"),
    ("port 1 2 down", "port 1 2 down"),
    ("count 1 prio=7 packets=3 bytes=300", "count 1 7 3 300"),
    (f"frame 1 port 2 {ETH} type=0x88b5", line("frame 1 2 ", F)),
    (f"frame 1 port 2 {ETH} arp op=1 sha=02:00:00:00:00:01 spa=10.0.0.1 tpa=10.0.0.2", line("frame 1 2 ", G)),
    ("frame 1 port 2 00ff", "frame 1 2 00ff"),
    ("raw 1 hello xid=2", "raw 1 0100000800000002"),
    ("raw 1 vendor vendor=8992 data=0001", "raw 1 0104000e00000000000023200001"),
    (f"raw 7 packet_in in=2 reason=action {ETH} type=0x88b5", line("raw 7 ", "010a002000000000ffffffff000e00020100", F)),
    ("raw 7 packet_in in=2 buffer=5 total_len=60 data=00", "raw 7 010a00130000000000000005003c0002000000"),
]

# Lines that have no words of their own, with what `explain` remarks of them; `write` makes them of that again.
REMARKED = [
    ("reply app x:0000000109", "reply app: x:0000000109  # step 1: 5 bytes, no frame (bad kind: 9 is not from 1 to 6)"),
    ("reply app x:0000000a01 closed", "reply app: x:0000000a01; closed  # step 1: 5 bytes of a frame that does not end"),
    (
        line("reply app x:", "00000001 06 00000011 01 0000000000000001 0112000800000000 00000004 05 01 01 c0"),
        line("reply app: x:", "00000001 06 00000011 01 0000000000000001 0112000800000000 00000004 05 01 01 c0")
        + "  # step 1: ready, then for switch 1: barrier, then stop with a checkpoint of 1 byte",
    ),
    ("reply app done done:c0c1", "reply app: done; done:c0c1  # step 2: a checkpoint of 2 bytes"),
    ("reply app m:1:0400000800000000", "reply app: m:1:0400000800000000  # step 1: no message: version 4 is not OpenFlow 1.0"),
    ("reply app m:1:010e0", "reply app: m:1:010e0  # step 1: no number of a switch and digits of a message"),
    ("reply app m:1:0113000800000000 x:0", "reply app: barrier_reply 1; x:0  # step 2: no even number of digits"),
    # A pad that is not 0 would be lost.
    ("reply app m:1:0114000c0000000000010001", "reply app: m:1:0114000c0000000000010001  # step 1: queue_get_config_request port=1"),
    ("reply app m:1:01080008ffffffff", "reply app: m:1:01080008ffffffff  # step 1: no message: the body has 0 bytes and not 4"),
    ("raw 1 0101000c0000000000010001", "raw 1 error kind=1 code=1  # OFPET_BAD_REQUEST/OFPBRC_BAD_TYPE"),
    ("raw 1 01", "raw 1 01  # no message: a message has 8 bytes at least, and not 1"),
    (
        "frame 1 2 ffffffffffff0200000000010800450000140000000040fdffff0a0000010a000002",
        f"frame 1 port 2 {ETH} type=0x0800 payload=450000140000000040fdffff0a0000010a000002"
        "  # dl_src=02:00:00:00:00:01,dl_dst=ff:ff:ff:ff:ff:ff,dl_vlan=65535,dl_type=0x0800,nw_tos=0,nw_proto=253,"
        "nw_src=10.0.0.1,nw_dst=10.0.0.2",
    ),
]

# Lines of a report, and what is remarked of them.
REPORT = [
    ("flow 100 in_port=1 cookie=0 idle=0 hard=0 flags=0 packets=0 bytes=0 age=0 actions=0000000800020000", "out=2"),
    ("flow 7 any cookie=5 idle=30 hard=0 flags=1 packets=0 bytes=0 age=0 actions=-", "drop"),
    ("flow 1 any cookie=0 idle=0 hard=0 flags=0 packets=0 bytes=0 age=0 actions=00010008000500000000000800020000", "set_vlan_vid=5 out=2"),
    ("start app ready", ""),
    ("event 1 join 1", ""),
    ("turn app failed garbled kind", ""),
    ("switch 1 flows 1", ""),
    ("app app alive done 1 failed 0", ""),
    ("end 0 events 1", ""),
    ("bad session 5 hex", ""),
]

# Lines that `write` and `explain` leave alone.
LEFT = ["---", "session 1", "session  1", "reply app  done", "switch 1 8", "join", "# add 1 any", "", "leave 1", "x", "fault link 1 5", "lost 1"]


class Lines(unittest.TestCase):
    def test_both_ways(self):
        for words, text in BOTH_WAYS:
            with self.subTest(words):
                self.assertEqual(session.write_line(words), text)
                self.assertEqual(session.explain_line(text), words)

    def test_remarks(self):
        for text, words in REMARKED:
            with self.subTest(text):
                self.assertEqual(session.explain_line(text), words)
                self.assertEqual(session.write_line(words), text)

    def test_reports(self):
        for text, remark in REPORT:
            with self.subTest(text):
                self.assertEqual(session.explain_line(text), f"{text}  # {remark}" if remark else text)

    def test_lines_that_stay(self):
        for text in LEFT:
            with self.subTest(text):
                self.assertEqual(session.write(text), text)
                self.assertEqual(session.explain(text), text)

    def test_other_ways_to_say_it(self):
        for words, text in (
            ("switch 1 room 8 ports 1-3,7", "switch 1 8 1,2,3,7"),
            ("switch 1 ports - room 8", "switch 1 8 -"),
            ("count 1 bytes=300 packets=3 prio=7", "count 1 7 3 300"),
            ("reply app:done;stop", "reply app:done;stop"),
            ("reply app: done;closed", "reply app done closed"),
            ("reply app: barrier 1; m:1:0112000800000000; x:00", "reply app m:1:0112000800000000 m:1:0112000800000000 x:00"),
            ("reply app: barrier 1 xid=0x10", "reply app m:1:0112000800000010"),
            ("join 1   # the first", "join 1"),
            (f"frame 1 port 2 {F.replace(' ', '')}", f"frame 1 2 {F.replace(' ', '')}"),
        ):
            with self.subTest(words):
                self.assertEqual(session.write_line(words), text)

    def test_words_that_cannot_be(self):
        for words, why in (
            ("switch 1 ports 1", "room, ports, each once"),
            ("switch 1 ports 1 room 4 room 5", "each once"),
            ("switch 1 ports a room 4", "must be like 1,2,5-8"),
            ("switch 1 ports 1-99999 room 4", "must be like 1,2,5-8"),
            ("count 1 prio=7 packets=3", "prio, packets, bytes, each once"),
            ("reply app: add in_port=1", "needs the number of a switch behind add"),
            ("reply app: add 1 color=red", "'color=red' is no word of add"),
            ("reply app: add 1 prio=1 prio=2", "the second of its name"),
            ("reply app: add 1 prio=65536", "prio: the number is 65536"),
            ("reply app: add 1 prio=x", "prio: 'x' is no number"),
            ("reply app: add 1 nw_src=10.0.0.1/24", "write 10.0.0.0/24"),
            ("reply app: add 1 out=nowhere", "out: 'nowhere' is no number"),
            ("reply app: add 1 enqueue=1", "has 2 parts"),
            ("reply app: port_mod 1 port=2", "port_mod needs addr="),
            ("reply app: stats 1", "is no step"),
            ("reply app: done; ", "is no step"),
            ("reply app: echo_request 1 data=0", "data: "),
            ("reply app: packet_out 1 out=2 eth dst=ff:ff:ff:ff:ff:ff", "eth needs src="),
            ("frame 1 port 2 eth", "eth needs dst="),
            ("frame 1 port 2 nothing", "a frame begins with eth"),
            ("raw 1 packet_in", "packet_in needs in="),
        ):
            with self.subTest(words), self.assertRaisesRegex(ValueError, re.escape(why)):
                session.write_line(words)


class Texts(unittest.TestCase):
    def test_line_by_line(self):
        words = "[[app]]\nname = \"app\"  # kept\n---  # not kept\r\nsession 1\n\n# a remark\nswitch 1 ports 1,2 room 4\r\njoin 1"
        text = "[[app]]\nname = \"app\"  # kept\n---\r\nsession 1\n\n# a remark\nswitch 1 4 1,2\r\njoin 1"
        self.assertEqual(session.write(words), text)
        self.assertEqual(session.explain(text), words.replace("  # not kept", ""))

    def test_the_line_at_fault(self):
        with self.assertRaisesRegex(ValueError, "^line 3: 'add' needs the number"):
            session.write("---\nsession 1\nreply app: add\n")

    def test_the_inputs_of_this_repository(self):
        """Each is told in words of which `write` makes it again, and no digits are left without a remark."""
        found = sorted(glob.glob(os.path.join(TOP, "examples", "*", "input")))
        self.assertTrue(found)
        for path in found:
            with self.subTest(os.path.relpath(path, TOP)), open(path, encoding="latin-1", newline="") as file:
                text = file.read()
                words = session.explain(text)
                self.assertEqual(session.write(words), text)
                for told in words.split("\n"):
                    plain = told.split("  # ")
                    if not told.startswith("#") and re.search(r":[0-9a-f]{8}|\b[0-9a-f]{16}", plain[0]):
                        self.assertEqual(len(plain), 2, told[:200])

    def test_a_recording(self):
        """The policy and the comments stay; of the bytes of each step stands behind them what they say."""
        policy = '# recording: of a run\n# FLOW_REMOVED of switches, which no line says: 2\n[[app]]\nname = "app"\n---\n# PORT_STATUS of switches, which no line says: 1\n'
        text = policy + "session 1\nswitch 1 4096 1,2\nstart app ready\nreply app x:0000001101000000000000000101120008000000000000000405000131 closed\n"
        words = policy + (
            "session 1\nswitch 1 ports 1,2 room 4096\nstart app ready\nreply app: x:0000001101000000000000000101120008000000000000000405000131; closed"
            "  # step 1: for switch 1: barrier, then done with a checkpoint of 1 byte\n"
        )
        self.assertEqual(session.explain(text), words)
        self.assertEqual(session.write(words), text)

    def test_the_program(self):
        def run(data, *words):
            script = os.path.join(PYTHON, "session.py")
            done = subprocess.run([sys.executable, "-W", "error", script, *words], input=data, capture_output=True, check=False)
            return done.returncode, done.stdout, done.stderr

        self.assertEqual(run(b"join 1  # now\n\xff\n", "write"), (0, b"join 1\n\xff\n", b""))
        self.assertEqual(run(b"raw 1 0100000800000000", "explain"), (0, b"raw 1 hello", b""))
        self.assertEqual(run(b"join 1\nreply app: add\n", "write")[:2], (1, b""))
        self.assertRegex(run(b"join 1\nreply app: add\n", "write")[2], b"^session.py: line 2: ")
        for words in ((), ("read",), ("write", "x")):
            self.assertEqual(run(b"", *words), (2, b"", b"usage: session.py write, session.py explain\n"))
