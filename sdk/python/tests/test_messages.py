"""Every message and every action against bytes written out after OpenFlow 1.0.0, chapter 5."""

import unittest

from legosdn import DecodeError, Match, Output, Port, PortDesc, actions, messages, packet, stats

from .vectors import ANY, OUT_2, F, flow_mod, hexed, in_port

P2 = PortDesc(2, "02:00:00:01:00:02", "p2", 0x10, 1, 0x40, 0x80, 0xFFF, 0)
P2_BYTES = "0002 020000010002 7032" + "00" * 14 + "00000010 00000001 00000040 00000080 00000fff 00000000"
FRAME = hexed(F)

MESSAGES = [
    (1, messages.Hello(), "01 00 0008 00000001"),
    (0, messages.Hello(b"\xca\xfe"), "01 00 000a 00000000 cafe"),
    (2, messages.Error(3, 1, b"\xbe\xef"), "01 01 000e 00000002 0003 0001 beef"),
    (3, messages.EchoRequest(b"abc"), "01 02 000b 00000003 616263"),
    (4, messages.EchoReply(), "01 03 0008 00000004"),
    (5, messages.Vendor(0x2320, b"\0\1"), "01 04 000e 00000005 00002320 0001"),
    (6, messages.FeaturesRequest(), "01 05 0008 00000006"),
    (
        7,
        messages.FeaturesReply(0x0102030405060708, 256, 2, 0x87, 0xFFF, (P2,)),
        "01 06 0050 00000007 0102030405060708 00000100 02 000000 00000087 00000fff" + P2_BYTES,
    ),
    (8, messages.GetConfigRequest(), "01 07 0008 00000008"),
    (9, messages.GetConfigReply(1, 128), "01 08 000c 00000009 0001 0080"),
    (10, messages.SetConfig(0, 65535), "01 09 000c 0000000a 0000 ffff"),
    (0, messages.PacketIn(0xFFFFFFFF, 60, 3, 1, FRAME), "01 0a 0020 00000000 ffffffff 003c 0003 01 00" + F),
    (
        0,
        messages.FlowRemoved(Match(in_port=1), 7, 100, 1, 10, 500_000_000, 30, 3, 300),
        "01 0b 0058 00000000" + in_port(1) + "0000000000000007 0064 01 00 0000000a 1dcd6500 001e 0000"
        "0000000000000003 000000000000012c",
    ),
    (0, messages.PortStatus(2, P2), "01 0c 0040 00000000 02 00000000000000" + P2_BYTES),
    (0, messages.PacketOut((Output(2),), FRAME, 1), "01 0d 0026 00000000 ffffffff 0001 0008" + OUT_2 + F),
    (0, messages.PacketOut((), b"", Port.NONE, 5), "01 0d 0010 00000000 00000005 ffff 0000"),
    (0, messages.FlowMod(Match(in_port=1), (Output(2),), priority=100), flow_mod(in_port(1), OUT_2, priority=100)),
    (
        0xFFFFFFFF,
        messages.FlowMod(Match(), (), 4, 0x8000, 0x1122334455667788, 30, 60, 9, 2, 3),
        "01 0e 0048 ffffffff" + ANY + "1122334455667788 0004 001e 003c 8000 00000009 0002 0003",
    ),
    (
        0,
        messages.PortMod(2, "02:00:00:01:00:02", 0x10, 0x10),
        "01 0f 0020 00000000 0002 020000010002 00000010 00000010 00000000 00000000",
    ),
    (0, messages.StatsRequest(1, hexed(ANY, "ff 00 ffff")), "01 10 0038 00000000 0001 0000" + ANY + "ff 00 ffff"),
    (0, messages.StatsReply(2, bytes(24), 1), "01 11 0024 00000000 0002 0001" + "00" * 24),
    (11, messages.BarrierRequest(), "01 12 0008 0000000b"),
    (12, messages.BarrierReply(), "01 13 0008 0000000c"),
    (0, messages.QueueGetConfigRequest(1), "01 14 000c 00000000 0001 0000"),
    (0, messages.QueueGetConfigReply(1, b"\7" * 8), "01 15 0018 00000000 0001 000000000000 0707070707070707"),
]

ACTIONS = [
    (Output(2), OUT_2),
    (Output(Port.CONTROLLER), "0000 0008 fffd ffff"),
    (Output(Port.CONTROLLER, 128), "0000 0008 fffd 0080"),
    (actions.SetVlanVid(5), "0001 0008 0005 0000"),
    (actions.SetVlanPcp(3), "0002 0008 03 000000"),
    (actions.StripVlan(), "0003 0008 00000000"),
    (actions.SetDlSrc("02:00:00:00:00:01"), "0004 0010 020000000001 000000000000"),
    (actions.SetDlDst("FF:00:00:00:00:02"), "0005 0010 ff0000000002 000000000000"),
    (actions.SetNwSrc("10.0.0.1"), "0006 0008 0a000001"),
    (actions.SetNwDst("10.0.0.2"), "0007 0008 0a000002"),
    (actions.SetNwTos(0xB8), "0008 0008 b8 000000"),
    (actions.SetTpSrc(80), "0009 0008 0050 0000"),
    (actions.SetTpDst(443), "000a 0008 01bb 0000"),
    (actions.Enqueue(1, 7), "000b 0010 0001 000000000000 00000007"),
    (actions.VendorAction(hexed("00002320 0102030405060708")), "ffff 0010 00002320 0102030405060708"),
]


class Messages(unittest.TestCase):
    def test_each_message(self):
        for xid, message, digits in MESSAGES:
            with self.subTest(digits):
                self.assertEqual(messages.encode(message, xid), hexed(digits))
                self.assertEqual(messages.decode(hexed(digits)), (xid, message))
        self.assertEqual({type(message).TYPE for _, message, _ in MESSAGES}, set(range(22)))

    def test_bytes_that_are_no_message(self):
        for digits, why in (
            ("01", "8 bytes at least"),
            ("04 00 0008 00000000", "version 4"),
            ("01 16 0008 00000000", "type 22"),
            ("01 00 0009 00000000", "says 9 bytes"),
            ("01 0e 0008 00000000", "at least 64"),
            ("01 12 0009 00000000 00", "1 bytes and not 0"),
            ("01 01 000a 00000000 0001", "at least 4"),
            ("01 06 0021 00000000" + "00" * 25, "48 each"),
            ("01 0d 0010 00000000 ffffffff 0001 0008", "pass its end"),
            ("01 0d 0018 00000000 ffffffff 0001 0008 000c 0008 00000000", "unknown type 12"),
        ):
            with self.subTest(digits), self.assertRaisesRegex(DecodeError, why):
                messages.decode(hexed(digits))

    def test_fields_out_of_range(self):
        for make in (
            lambda: messages.FlowMod(priority=65536),
            lambda: messages.FlowMod(idle_timeout=-1),
            lambda: messages.PacketOut(in_port=65536),
            lambda: messages.encode(messages.PacketIn(0, 65536, 1, 0)),
            lambda: messages.encode(messages.Hello(bytes(65528))),
            lambda: messages.encode(messages.PortStatus(0, PortDesc(1, "02:00:00:00:00:01", "a name of 17 byte"))),
        ):
            with self.assertRaises(ValueError):
                make()

    def test_a_packet_has_bytes(self):
        with self.assertRaisesRegex(TypeError, "^data is a Packet, and must be bytes$"):
            messages.PacketOut((), packet.Packet(b""))

    def test_the_longest_message(self):
        data = messages.encode(messages.Hello(bytes(65527)))
        self.assertEqual(data[:8], hexed("01 00 ffff 00000000"))
        self.assertEqual(len(data), 65535)

    def test_errors_by_name(self):
        for kind, code, names in (
            (0, 0, ("OFPET_HELLO_FAILED", "OFPHFC_INCOMPATIBLE")),
            (1, 1, ("OFPET_BAD_REQUEST", "OFPBRC_BAD_TYPE")),
            (1, 8, ("OFPET_BAD_REQUEST", "OFPBRC_BUFFER_UNKNOWN")),
            (2, 4, ("OFPET_BAD_ACTION", "OFPBAC_BAD_OUT_PORT")),
            (3, 0, ("OFPET_FLOW_MOD_FAILED", "OFPFMFC_ALL_TABLES_FULL")),
            (3, 4, ("OFPET_FLOW_MOD_FAILED", "OFPFMFC_BAD_COMMAND")),
            (4, 1, ("OFPET_PORT_MOD_FAILED", "OFPPMFC_BAD_HW_ADDR")),
            (5, 2, ("OFPET_QUEUE_OP_FAILED", "OFPQOFC_EPERM")),
            (3, 6, ("OFPET_FLOW_MOD_FAILED", "6")),
            (6, 0, ("6", "0")),
        ):
            self.assertEqual(messages.Error(kind, code).names(), names)


class Actions(unittest.TestCase):
    def test_each_action(self):
        for action, digits in ACTIONS:
            with self.subTest(digits):
                self.assertEqual(actions.encode_actions([action]), hexed(digits))
                self.assertEqual(actions.decode_actions(hexed(digits)), (action,))

    def test_a_list_keeps_its_order(self):
        every, digits = zip(*ACTIONS)
        self.assertEqual(actions.encode_actions(every), hexed(*digits))
        self.assertEqual(actions.decode_actions(hexed(*digits)), every)

    def test_bytes_that_are_no_actions(self):
        for digits, why in (
            ("000c 0008 00000000", "byte 0 has the unknown type 12"),
            ("0000 0010 0002 0000", "byte 0 has a wrong length"),
            (OUT_2 + "0000 0000", "byte 8 has a wrong length"),
            (OUT_2 + "0000 00", "byte 8 has a wrong length"),
            ("0000 000c 0002 0000 00000000", "byte 0 has a wrong length"),
            ("0000 0010 0002 0000 0000000000000000", "16 bytes and not 8"),
        ):
            with self.subTest(digits), self.assertRaisesRegex(DecodeError, why):
                actions.decode_actions(hexed(digits))

    def test_values_out_of_range(self):
        for make in (
            lambda: Output(65536),
            lambda: Output(1, 65536),
            lambda: actions.SetVlanPcp(256),
            lambda: actions.SetNwSrc("10.0.0.0/8"),
            lambda: actions.SetDlSrc("02"),
            lambda: actions.VendorAction(b"12345678"),
        ):
            with self.assertRaises(ValueError):
                make()


class Statistics(unittest.TestCase):
    COUNTS = "0000000000000007 0000000000000003 000000000000012c"
    ROW = "0060 00 00" + in_port(1) + "0000000a 00000005 0064 001e 003c 000000000000" + COUNTS + OUT_2
    FLOW = stats.FlowStats(Match(in_port=1), (Output(2),), 0, 10, 5, 100, 30, 60, 7, 3, 300)

    def test_rows_of_flows(self):
        bare = stats.FlowStats(Match(), priority=1)
        digits = self.ROW + "0058 00 00" + ANY + "00000000 00000000 0001" + "00" * 34
        self.assertEqual(self.FLOW.encode() + bare.encode(), hexed(digits))
        self.assertEqual(stats.FlowStats.decode_all(hexed(digits)), [self.FLOW, bare])
        self.assertEqual(stats.FlowStats.decode_all(b""), [])

    def test_rows_of_flows_that_are_none(self):
        for data in (hexed("0057 00 00", ANY, "00" * 44), hexed(self.ROW)[:-1], hexed("0058") + bytes(10), b"\0"):
            with self.assertRaises(DecodeError):
                stats.FlowStats.decode_all(data)

    def test_a_sum(self):
        digits = "0000000000000003 000000000000012c 00000002 00000000"
        self.assertEqual(stats.AggregateStats.decode(hexed(digits)), stats.AggregateStats(3, 300, 2))
        self.assertEqual(stats.AggregateStats(3, 300, 2).encode(), hexed(digits))

    def test_rows_of_tables(self):
        row = stats.TableStats(0, "table0", 0x3FFFFF, 4, 1, 7, 5)
        digits = "00 000000" + b"table0".hex().ljust(64, "0") + "003fffff 00000004 00000001 0000000000000007 0000000000000005"
        self.assertEqual(row.encode(), hexed(digits))
        self.assertEqual(stats.TableStats.decode_all(hexed(digits, digits)), [row, row])

    def test_rows_of_ports(self):
        row = stats.PortStats(2, *range(1, 13))
        digits = "0002 000000000000" + "".join(f"{it:016x}" for it in range(1, 13))
        self.assertEqual(row.encode(), hexed(digits))
        self.assertEqual(stats.PortStats.decode_all(hexed(digits)), [row])
        self.assertEqual((row.rx_packets, row.tx_packets, row.rx_dropped, row.collisions), (1, 2, 5, 12))

    def test_a_description(self):
        row = stats.DescStats("lego", "sim", "1", "0", "sim")
        sizes = ((b"lego", 256), (b"sim", 256), (b"1", 256), (b"0", 32), (b"sim", 256))
        data = b"".join(text.ljust(size, b"\0") for text, size in sizes)
        self.assertEqual(row.encode(), data)
        self.assertEqual(stats.DescStats.decode(data), row)

    def test_questions(self):
        digits = in_port(1) + "00 00 0002"
        self.assertEqual(stats.FlowQuestion(Match(in_port=1), 0, 2).encode(), hexed(digits))
        self.assertEqual(stats.FlowQuestion.decode(hexed(digits)), stats.FlowQuestion(Match(in_port=1), 0, 2))
