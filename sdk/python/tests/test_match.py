"""Matches against the 40 bytes of OpenFlow 1.0.0, 5.2.3."""

import unittest

from legosdn import Match, MatchError

from .vectors import ANY, hexed, in_port

WHOLE = {
    "in_port": 1,
    "dl_src": "02:00:00:00:00:01",
    "dl_dst": "ff:ab:09:10:f0:00",
    "dl_vlan": 5,
    "dl_vlan_pcp": 7,
    "dl_type": 0x0800,
    "nw_tos": 0xB8,
    "nw_proto": 6,
    "nw_src": "10.0.0.1",
    "nw_dst": "10.0.2.1",
    "tp_src": 80,
    "tp_dst": 65535,
}
ROWS = [
    (Match(), ANY, "any"),
    (Match(in_port=1), in_port(1), "in_port=1"),
    # The count of ignored bits of nw_src stands in the bits 8 to 13, that of nw_dst in 14 to 19.
    (
        Match(dl_type=0x0800, nw_src="10.0.0.0/24"),
        "003808ef" + "00" * 18 + "0800" + "00" * 4 + "0a000000" + "00" * 8,
        "dl_type=0x0800,nw_src=10.0.0.0/24",
    ),
    (
        Match(dl_type=0x0806, nw_dst="10.0.1.0/24"),
        "003220ef" + "00" * 18 + "0806" + "00" * 8 + "0a000100" + "00" * 4,
        "dl_type=0x0806,nw_dst=10.0.1.0/24",
    ),
    (Match(dl_vlan=65535), "003820fd" + "00" * 14 + "ffff" + "00" * 20, "dl_vlan=65535"),
    (
        Match(**WHOLE),
        "00000000 0001 020000000001 ffab0910f000 0005 07 00 0800 b8 06 0000 0a000001 0a000201 0050 ffff",
        "in_port=1,dl_src=02:00:00:00:00:01,dl_dst=ff:ab:09:10:f0:00,dl_vlan=5,dl_vlan_pcp=7,dl_type=0x0800,nw_tos=184,"
        "nw_proto=6,nw_src=10.0.0.1,nw_dst=10.0.2.1,tp_src=80,tp_dst=65535",
    ),
]


class MatchBytes(unittest.TestCase):
    def test_bytes_and_text(self):
        for match, digits, text in ROWS:
            with self.subTest(text):
                self.assertEqual(match.encode(), hexed(digits))
                self.assertEqual(Match.decode(hexed(digits)), match)
                self.assertEqual(str(match), text)
                self.assertEqual(Match.parse(text), match)

    def test_what_is_ignored_is_any(self):
        self.assertEqual(Match.decode(hexed("003fffff", "ff" * 36)), Match())
        # A count of 32 or more ignores the address; bits outside a prefix are cleared; bits above 21 mean nothing.
        self.assertEqual(Match.decode(hexed("ffffe0ff", "ff" * 36)), Match())
        self.assertEqual(Match.decode(hexed("003808ef", "00" * 18, "0800", "00" * 4, "0a000055", "00" * 8)).nw_src, "10.0.0.0/24")

    def test_zero_is_a_value(self):
        match = Match(in_port=0, dl_vlan=0, tp_dst=0)
        self.assertEqual(Match.decode(match.encode()), match)
        self.assertEqual(match.encode()[:4], hexed("0038207c"))

    def test_addresses_are_written_one_way(self):
        self.assertEqual(Match(dl_src="FF:AB:09:10:F0:00").dl_src, "ff:ab:09:10:f0:00")
        self.assertEqual(Match(nw_src="10.0.0.1/32").nw_src, "10.0.0.1")

    def test_values_that_cannot_be(self):
        for given in (
            {"in_port": 65536},
            {"in_port": -1},
            {"dl_vlan_pcp": 8},
            {"nw_proto": 256},
            {"dl_src": "02:00:00:00:01"},
            {"nw_src": "10.0.0"},
            {"nw_src": "10.0.0.256"},
            {"nw_src": "10.0.0.0/0"},
            {"nw_src": "10.0.0.0/33"},
            {"nw_src": "10.0.0.0/"},
            {"nw_dst": "10.0.0.1/24"},
        ):
            with self.subTest(given), self.assertRaises(ValueError):
                Match(**given)
        with self.assertRaises(TypeError):
            Match(in_port="1")
        for text in ("in_port", "in_port=1,in_port=1", "port=1", "in_port=x", ""):
            with self.subTest(text), self.assertRaises(ValueError):
                Match.parse(text)

    def test_fields_without_what_they_need(self):
        for match, why in (
            (Match(nw_src="10.0.0.0/24"), "nw_src needs dl_type=0x0800 .IPv4. or dl_type=0x0806"),
            (Match(nw_dst="10.0.0.1", dl_type=0x86DD), "nw_dst needs dl_type"),
            (Match(nw_proto=6), "nw_proto needs dl_type"),
            (Match(nw_tos=4, dl_type=0x0806), "nw_tos needs dl_type=0x0800"),
            (Match(nw_tos=5, dl_type=0x0800), "write 4"),
            (Match(tp_src=80), "tp_src needs dl_type=0x0800 .IPv4. and nw_proto"),
            (Match(tp_dst=80, dl_type=0x0800), "tp_dst needs"),
            (Match(tp_dst=80, dl_type=0x0800, nw_proto=47), "tp_dst needs"),
            (Match(tp_src=256, dl_type=0x0800, nw_proto=1), "from 0 to 255"),
            (Match(dl_vlan=65535, dl_vlan_pcp=1), "dl_vlan_pcp needs a tag"),
        ):
            with self.subTest(str(match)), self.assertRaisesRegex(MatchError, why):
                match.check()

    def test_fields_with_what_they_need(self):
        for match in (
            Match(),
            Match(**WHOLE),
            Match(dl_type=0x0806, nw_proto=1, nw_src="10.0.0.0/8", nw_dst="10.0.0.1"),
            Match(dl_type=0x0800, nw_proto=1, tp_src=8, tp_dst=0),
            Match(dl_type=0x0800, nw_proto=17, tp_dst=53),
            Match(dl_vlan_pcp=3),
        ):
            with self.subTest(str(match)):
                match.check()
