"""Recordings: the bytes that docs/RECORDING.md explains one by one."""
import unittest

from support import TOP
import xt

LETTER = (TOP / "examples/letter.rec").read_bytes()
TWO = (TOP / "examples/two.rec").read_bytes()


class Recordings(unittest.TestCase):
    def test_letter(self) -> None:
        found = xt.Recording(LETTER)
        self.assertEqual(found.version, 2)
        self.assertEqual(found.image, (TOP / "examples/letter.bin").read_bytes())
        self.assertEqual(found.options, {
            "turns0": 10, "turns1": 0, "entry1": 0x40080404, "vecbase": 0x40080000,
            "low0": 0x3FFF0000, "high0": 0x3FFF8000, "low1": 0x3FFF8000, "high1": 0x40000000})
        self.assertEqual(found.stacks, ((0x3FFF0000, 0x3FFF8000), (0x3FFF8000, 0x40000000)))
        self.assertEqual(found.entries, [xt.Entry(0, xt.Access("store", 1, 0x3FF40000, value=0x41))])
        self.assertEqual(found.checkpoints, [])

    def test_two(self) -> None:
        self.assertEqual([f"core {it.core} {it}" for it in xt.Recording(TWO).entries], [
            "core 0 st2 3FFB0002 0000012C", "core 1 st1 3FFB0004 00000000",
            "core 0 ld4 3FFB0000 -> 012C0007", "core 1 ld1 3FFB0005 -> 00000000",
            "core 1 ld4 3FFB0000 -> 012C0007",
            "core 0 cas 3FFB0000 012C0007 0000012C -> 012C0007"])

    def test_version_1(self) -> None:
        """The page: with offset 04 changed to 01 and without the last four bytes it is the same run."""
        found = xt.Recording(LETTER[:4] + b"\1" + LETTER[5:-4])
        self.assertEqual((found.version, len(found.entries)), (1, 1))

    def test_checkpoint(self) -> None:
        point = bytes.fromhex("0000020005000000") + bytes(353_152 - 8)
        found = xt.Recording(LETTER[:-4] + b"\1\0\0\0" + point)
        self.assertEqual([(it.position, it.entries) for it in found.checkpoints], [(131_072, 5)])

    def test_lengths(self) -> None:
        for data in (b"", LETTER[:11], b"ABCD" + LETTER[4:], LETTER[:4] + b"\3" + LETTER[5:],
                     LETTER[:-1], LETTER + b"\0", LETTER[:60], LETTER[:-4]):
            with self.subTest(len(data)), self.assertRaises(ValueError):
                xt.Recording(data)


if __name__ == "__main__":
    unittest.main()
