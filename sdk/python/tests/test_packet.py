"""Views of frames, and frames in words, against frames written out by hand (IEEE 802.3 and 802.1Q, RFC 791, 826, 1042)."""

import unittest

from legosdn import NO_VLAN, Match, Packet, frame_words

from .vectors import F, G, hexed

ENDS = "ffffffffffff 020000000001"
# IPv4 from 10.0.0.1 to 10.0.0.2: a header of 20 bytes, and what follows it.
IP = "45 b9 0020 0000 {frag} 40 {proto} 0000 0a000001 0a000002 {rest}"


def ipv4(proto, rest, frag="0000"):
    return hexed(ENDS, "0800", IP.format(proto=proto, rest=rest, frag=frag))


class Views(unittest.TestCase):
    def test_ethernet(self):
        packet = Packet(hexed(F))
        self.assertEqual((packet.dl_dst, packet.dl_src, packet.dl_type), ("ff:ff:ff:ff:ff:ff", "02:00:00:00:00:01", 0x88B5))
        self.assertTrue(packet.is_multicast)
        self.assertIsNone(packet.dl_vlan)
        self.assertIsNone(packet.nw_src)

    def test_arp(self):
        packet = Packet(hexed(G))
        self.assertEqual((packet.nw_proto, packet.nw_src, packet.nw_dst), (1, "10.0.0.1", "10.0.0.2"))
        same = {"dl_src": "02:00:00:00:00:01", "dl_dst": "ff:ff:ff:ff:ff:ff", "dl_vlan": NO_VLAN, "dl_type": 0x0806}
        self.assertEqual(packet.match(1), Match(in_port=1, nw_proto=1, nw_src="10.0.0.1", nw_dst="10.0.0.2", **same))
        self.assertIsNone(Packet(hexed(G)[:-1]).nw_proto)

    def test_tags(self):
        packet = Packet(hexed(ENDS, "8100 6005 0806") + hexed(G)[14:])
        self.assertEqual((packet.dl_vlan, packet.dl_vlan_pcp, packet.dl_type, packet.nw_dst), (5, 3, 0x0806, "10.0.0.2"))
        short = Packet(hexed(ENDS, "8100 6005 08"))
        self.assertEqual((short.dl_vlan, short.dl_type), (None, 0x8100))

    def test_lengths_and_snap(self):
        self.assertEqual(Packet(hexed(ENDS, "0026 424203")).dl_type, 0x05FF)
        self.assertEqual(Packet(hexed(ENDS, "0026 424203")).payload, b"")
        self.assertEqual(Packet(hexed(ENDS, "0024 aaaa03 000000 0806") + hexed(G)[14:]).nw_src, "10.0.0.1")
        self.assertEqual(Packet(hexed(ENDS, "0024 aaaa03 00000c 0806")).dl_type, 0x05FF)

    def test_transport(self):
        packet = Packet(ipv4("06", "0050 01bb 00000000"))
        self.assertEqual((packet.nw_proto, packet.nw_tos, packet.tp_src, packet.tp_dst), (6, 0xB8, 80, 443))
        self.assertEqual(Packet(ipv4("11", "0035 14e9")).tp_dst, 0x14E9)
        self.assertEqual((Packet(ipv4("01", "0800")).tp_src, Packet(ipv4("01", "0803")).tp_dst), (8, 3))
        self.assertIsNone(Packet(ipv4("11", "0035 14")).tp_src)
        self.assertIsNone(Packet(ipv4("2f", "0035 14e9")).tp_src)
        for frag in ("2000", "0001"):
            self.assertIsNone(Packet(ipv4("06", "0050 01bb", frag)).tp_src)
        self.assertEqual(Packet(ipv4("06", "0050 01bb", "4000")).tp_src, 80)

    def test_headers_that_cannot_be(self):
        whole = ipv4("06", "0050 01bb")
        for at, byte in ((14, 0x65), (14, 0x44), (14, 0x4F)):
            data = bytearray(whole)
            data[at] = byte
            self.assertEqual((Packet(bytes(data)).nw_src, Packet(bytes(data)).dl_type), (None, 0x0800))

    def test_short_frames(self):
        tagged, snap = hexed(ENDS, "8100 6005 0806") + hexed(G)[14:], hexed(ENDS, "0024 aaaa03 000000 0806")
        for whole in (hexed(G), ipv4("06", "0050 01bb"), tagged, snap):
            for size in range(len(whole) + 1):
                packet = Packet(whole[:size])
                packet.match().check()
                self.assertEqual(packet.dl_type is None, size < 14)
                self.assertIn(f"{size} bytes", repr(packet))


class Words(unittest.TestCase):
    ETH = "eth dst=ff:ff:ff:ff:ff:ff src=02:00:00:00:00:01"
    ROWS = [
        (F, f"{ETH} type=0x88b5"),
        (G, f"{ETH} arp op=1 sha=02:00:00:00:00:01 spa=10.0.0.1 tpa=10.0.0.2"),
        (ENDS + "8100 6005 88b5 01", f"{ETH} vlan=5 pcp=3 type=0x88b5 payload=01"),
        # The words of this header: 4500 + 0014 + 40fd + 0a00 + 0001 + 0a00 + 0002 = 9a14, so its checksum is 65eb.
        (ENDS + "0800 4500 0014 0000 0000 40 fd 65eb 0a000001 0a000002", f"{ETH} ip src=10.0.0.1 dst=10.0.0.2 proto=253"),
        # The words of this one: 4500 + 001c + 4011 + 0a00 + 0001 + 0a00 + 0002 = 9930, so 66cf. UDP over the pseudo header:
        # 0a00 + 0001 + 0a00 + 0002 + 0011 + 0008 + 0035 + 0036 + 0008 = 148f, so eb70.
        (
            ENDS + "0800 4500 001c 0000 0000 40 11 66cf 0a000001 0a000002 0035 0036 0008 eb70",
            f"{ETH} ip src=10.0.0.1 dst=10.0.0.2 udp src=53 dst=54",
        ),
        # An echo request: 0800 + 0001 + 0002 = 0803, so f7fc; the header 4500 + 001c + 4001 + 1403 = 9920, so 66df.
        (
            ENDS + "0800 4500 001c 0000 0000 40 01 66df 0a000001 0a000002 08 00 f7fc 0001 0002 0000",
            f"{ETH} ip src=10.0.0.1 dst=10.0.0.2 icmp type=8 rest=65538 pad=2",
        ),
        # TCP: 1403 + 0006 + 0014 + 0050 + 01bb + 5002 + 2000 = 862a, so 79d5; the header
        # 4500 + 0028 + 4006 + 1403 = 9931, so 66ce.
        (
            ENDS + "0800 4500 0028 0000 0000 40 06 66ce 0a000001 0a000002 0050 01bb 00000000 00000000 5002 2000 79d5 0000",
            f"{ETH} ip src=10.0.0.1 dst=10.0.0.2 tcp src=80 dst=443 flags=0x02 window=8192",
        ),
    ]

    def test_both_ways(self):
        for digits, text in self.ROWS:
            with self.subTest(text):
                self.assertEqual(frame_words.write(text.split(" ")), hexed(digits))
                self.assertEqual(frame_words.tell(hexed(digits)), text)

    def test_wrong_checksums_are_told_as_bytes(self):
        digits = ENDS + "0800 4500 0014 0000 0000 40 fd ffff 0a000001 0a000002"
        self.assertEqual(frame_words.tell(hexed(digits)), f"{self.ETH} type=0x0800 payload=450000140000000040fdffff0a0000010a000002")

    def test_every_length_comes_back(self):
        for digits, _ in self.ROWS:
            whole = hexed(digits)
            for size in range(14, len(whole) + 1):
                told = frame_words.tell(whole[:size])
                self.assertEqual(frame_words.write(told.split(" ")), whole[:size])
        self.assertIsNone(frame_words.tell(bytes(13)))

    def test_words_that_cannot_be(self):
        for text in (
            "ip src=10.0.0.1 dst=10.0.0.2",
            f"{self.ETH}",
            "eth dst=ff:ff:ff:ff:ff:ff type=0x88b5",
            f"{self.ETH} type=0x10000",
            f"{self.ETH} type=0x88b5 color=red",
            f"{self.ETH} udp src=1 dst=2",
            f"{self.ETH} ip src=10.0.0.1 dst=10.0.0.2",
            f"{self.ETH} ip src=10.0.0.1 dst=10.0.0.2 udp src=1 dst=65536",
            f"{self.ETH} src=02:00:00:00:00:02 type=0x88b5",
            f"{self.ETH} type=0x88b5 payload=0",
        ):
            with self.subTest(text), self.assertRaises(ValueError):
                frame_words.write(text.split(" "))
