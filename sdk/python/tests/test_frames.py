"""Frames between host and application against bytes written out after docs/FRAMES.md."""

import unittest

from legosdn import FrameError, frames

from .vectors import framed, hexed

APP = [
    (frames.Message(1, hexed("01 12 0008 00000000")), "00000011 01 0000000000000001 01 12 0008 00000000"),
    (frames.Save(), "00000001 02"),
    (frames.Keep(), "00000001 03"),
    (frames.Undo(), "00000001 04"),
    (frames.Done(), "00000003 05 00 00"),
    (frames.Done(True), "00000003 05 01 00"),
    (frames.Done(False, b""), "00000003 05 00 01"),
    (frames.Done(True, b"\xc0"), "00000004 05 01 01 c0"),
    (frames.Ready(), "00000001 06"),
]
HOST = [
    (frames.Restore(), "00000001 01"),
    (frames.Restore(b"ab"), "00000003 01 6162"),
    (frames.Event(1, 9, 6, 7, b"\0\1\0\2"), "0000001e 02 0000000000000001 0000000000000009 06 0000000000000007 00010002"),
    (frames.Event(2, 0, 200, 7), "0000001a 02 0000000000000002 0000000000000000 c8 0000000000000007"),
    (frames.Answer(0), "00000002 03 00"),
    (frames.Answer(1, 3, 1), "00000006 03 01 0003 0001"),
    (frames.Answer(2, 3, 0, b"xyz"), "00000007 03 02 0003 78797a"),
    (frames.Answer(3), "00000002 03 03"),
]


class Frames(unittest.TestCase):
    def test_each_frame(self):
        for rows, decode in ((APP, frames.decode_app), (HOST, frames.decode_host)):
            for frame, digits in rows:
                with self.subTest(digits):
                    data = hexed(digits)
                    self.assertEqual(frames.encode(frame), data)
                    self.assertEqual(decode(data), (frame, len(data)))
                    self.assertEqual(decode(data + b"\xff"), (frame, len(data)))
                    for size in range(len(data)):
                        self.assertIsNone(decode(data[:size]))

    def test_faults(self):
        for digits, fault in (
            ("00100004", "too long"),
            ("00000000", "bad kind"),
            ("00000001 00", "bad kind"),
            ("ffff0001 07", "too long"),
            ("000f0001 07", "bad kind"),
            ("00000002 02 00", "bad body"),
            ("00000010 01" + "00" * 15, "bad body"),
            ("00000002 05 00", "bad body"),
            ("00000003 05 02 00", "bad body"),
            ("00000003 05 00 02", "bad body"),
            ("00000004 05 00 00 c0", "bad body"),
        ):
            with self.subTest(digits), self.assertRaises(FrameError) as found:
                frames.decode_app(hexed(digits))
            self.assertEqual(found.exception.fault, fault)

    def test_faults_of_the_host(self):
        for digits, fault in (
            ("00000000", "bad kind"),
            ("ffffffff 04", "bad kind"),
            ("00000001 02", "bad body"),
            ("00000001 03", "bad body"),
            ("00000002 03 04", "bad body"),
            ("00000003 03 00 00", "bad body"),
            ("00000004 03 01 0003", "bad body"),
            ("00000003 03 02 00", "bad body"),
        ):
            with self.subTest(digits), self.assertRaises(FrameError) as found:
                frames.decode_host(hexed(digits))
            self.assertEqual(found.exception.fault, fault)

    def test_limits(self):
        most = frames.encode(frames.Done(False, bytes(1_048_576)))
        self.assertEqual(most[:7], hexed("00100003 05 00 01"))
        self.assertEqual(frames.decode_app(most), (frames.Done(False, bytes(1_048_576)), 1_048_583))
        longest = framed(1, "00" * 8 + "01" * 65535)
        self.assertEqual(frames.decode_app(hexed(longest))[1], 65548)
        with self.assertRaises(FrameError):
            frames.decode_app(hexed(framed(1, "00" * 8 + "01" * 65536)))
        for frame in (frames.Done(False, bytes(1_048_577)), frames.Message(1, bytes(7)), frames.Message(1 << 64, bytes(8))):
            with self.assertRaises(ValueError):
                frames.encode(frame)
