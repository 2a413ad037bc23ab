"""Names of ELF files and of lists."""
import struct
import tempfile
import unittest

from support import TOP
import xt
from xt.names import symbols_of


def elf_with(symbols: list[tuple[str, int, int, int, int]]) -> bytes:
    """An ELF file that has nothing but a table of symbols: name, value, size, type, section."""
    texts, rows = b"\0", b""
    for name, value, size, kind, section in symbols:
        rows += struct.pack("<IIIBBH", len(texts), value, size, kind, 0, section)
        texts += name.encode() + b"\0"
    head = 52
    sections = [(0, 2, 0, 0, head, len(rows), 1, 0, 4, 16), (0, 3, 0, 0, head + len(rows), len(texts), 0, 0, 1, 0)]
    table = b"".join(struct.pack("<10I", *it) for it in sections)
    start = head + len(rows) + len(texts)
    ident = b"\x7fELF\1\1\1" + bytes(9)
    header = ident + struct.pack("<HHIIIIIHHHHHH", 2, 94, 1, 0, 0, start, 0, 52, 32, 0, 40, 2, 0)
    return header + rows + texts + table


class Names(unittest.TestCase):
    def names(self, text: bytes) -> xt.Names:
        file = tempfile.NamedTemporaryFile()
        self.addCleanup(file.close)
        file.write(text)
        file.flush()
        return xt.Names(file.name) if text[:4] == b"\x7fELF" else xt.Names(None, file.name)

    def test_ranges(self) -> None:
        """Lists of bytes: a variable has its size, unless the list says another or none is known."""
        names = self.names(elf_with([("key", 0x3FFB0000, 16, 1, 1), ("end", 0x3FFB0010, 0, 0, 1)]))
        self.assertEqual(names.ranges("key,key:0x4,0x3FFB0008:2,end:1"), [
            (0x3FFB0000, 16), (0x3FFB0000, 4), (0x3FFB0008, 2), (0x3FFB0010, 1)])
        for text in ("", "kex", "end", "key:x", "0x3FFB0000", "key:4:4"):
            with self.subTest(text), self.assertRaises(ValueError):
                names.ranges(text)

    def test_symbols(self) -> None:
        """Objects, functions and names without a type count, in sections, without names of places."""
        data = elf_with([
            ("main", 0x400D0000, 16, 2, 1), ("table", 0x3FFB0000, 8, 1, 1), ("start", 0x40080400, 0, 0, 1),
            (".L4", 0x400D0004, 0, 0, 1), ("x.c", 0, 0, 4, 0xFFF1), ("printf", 0, 0, 2, 0), ("text", 1, 0, 3, 1)])
        self.assertEqual(sorted(symbols_of(data)), [
            (0x3FFB0000, 8, "table"), (0x40080400, 0, "start"), (0x400D0000, 16, "main")])
        self.assertEqual(self.names(data).find("table"), 0x3FFB0000)

    def test_of(self) -> None:
        names = self.names(b"400D0000 T main\n0x400d0010 f\nno name\n400D0010 g\n")
        self.assertEqual(names.of(0x400D000F), ("main", 15))
        self.assertEqual(names.of(0x400D0012), ("f", 2))
        self.assertEqual(names.of(0x400CFFFF), (None, 0))
        self.assertEqual(names.of(0x400D1010), (None, 0))
        self.assertEqual(names.named(0x400D0012), "f+2 (400D0012)")
        self.assertEqual(names.named(0x400D0000), "main (400D0000)")
        self.assertEqual(names.named(0x3FFB0000), "3FFB0000")

    def test_sizes(self) -> None:
        names = self.names(elf_with([("main", 0x400D0000, 16, 2, 1)]))
        self.assertEqual(names.of(0x400D000F), ("main", 15))
        self.assertEqual(names.of(0x400D0010), (None, 0))

    def test_no_lines(self) -> None:
        names = self.names(b"400D0000 main\n")
        self.assertEqual(names.lines([0x400D0000, 0]), [[xt.Place("main", "")], [xt.Place("00000000", "")]])
        self.assertEqual(names.addresses("main"), [0x400D0000])
        self.assertEqual(names.addresses("0x400D0004"), [0x400D0004])
        self.assertEqual(names.addresses("nobody"), [])

    def test_source(self) -> None:
        names, path = xt.Names(), str(TOP / "examples/letter.s")
        self.assertEqual(names.source(f"{path}:1"), "# Sends the letter A and stops.")
        self.assertEqual((names.source(f"{path}:100000"), names.source(path), names.source("no:1")), ("", "", ""))
        place = xt.Place("start", f"{path}:12")
        self.assertEqual((place.file, place.line, place.short), (path, 12, "letter.s:12"))


if __name__ == "__main__":
    unittest.main()
