"""Lines of all kinds, and the objects that docs/FORMATS.md promises of them, worked out by hand."""
import io
import json
import unittest

from support import cases, files
from xt import lines

WHOLE = {"passes": True}
# Lines, the kind of their object and its fields.
HAND = (
    ("core 0 stop break turns 4 pc 4008040D", "stop",
     {"core": 0, "stop": "break", "turns": 4, "pc": 0x4008040D}),
    ("core 1 stop turns pc 400D0010", "stop", {"core": 1, "stop": "turns", "pc": 0x400D0010}),
    ("core 1 stop break", "stop", {"core": 1, "stop": "break"}),
    ("history 26", "history", {"accesses": 26}),
    ("handlers of4 yes uf4 no 12 of8 yes uf8 yes of12 yes uf12 yes", "handlers",
     {"handlers": {"of4": WHOLE, "uf4": {"passes": False, "byte": 12}, "of8": WHOLE, "uf8": WHOLE,
                   "of12": WHOLE, "uf12": WHOLE}}),
    ("frames whole", "frames", {"answer": "whole"}),
    ("frames none", "frames", {"answer": "none"}),
    ("frames broken", "frames", {"answer": "broken"}),
    ("frames breach SaveStore core 0 step 38", "frames",
     {"kind": "SaveStore", "core": 0, "step": 38}),
    ("uses none", "uses", {"answer": "none"}),
    ("uses whole carried 4 0", "uses", {"answer": "whole", "carried0": 4, "carried1": 0}),
    ("uses breach Unset core 0 step 97", "uses", {"kind": "Unset", "core": 0, "step": 97}),
    ("secrets whole carried 4 0", "secrets", {"answer": "whole", "carried0": 4, "carried1": 0}),
    ("secrets leak core 0 step 135", "secrets", {"core": 0, "step": 135}),
    ("words 3FFB0000 012C0007 --------", "words",
     {"address": 0x3FFB0000, "words": [0x012C0007, None]}),
    ("image segments 1 entry 40080404 digest yes", "image",
     {"segments": 1, "entry": 0x40080404, "digest": True}),
    ("segment 0 40080400 16 IRAM", "segment",
     {"index": 0, "address": 0x40080400, "bytes": 16, "region": "IRAM"}),
    ("core 0 exc 2 times 1 first 4 pc 40007D54", "events",
     {"core": 0, "event": "exc", "number": 2, "times": 1, "first": 4, "pc": 0x40007D54}),
    ("core 0 insn times 4 first 0 pc 400D0004", "events",
     {"core": 0, "event": "insn", "times": 4, "first": 0, "pc": 0x400D0004}),
    ("race none", "race", {"answer": "none"}),
    ("race 3 7", "race", {"first": 3, "second": 7}),
    ("race 0*3,1*1", "race", {"order": "0*3,1*1"}),
    ("race unknown", "race", {"answer": "unknown"}),
    ("profile none", "profile", {"answer": "none"}),
    ("core 0 400D0000;..;400D000C;400D000C 37", "calls",
     {"core": 0, "after": False, "calls": [0x400D0000, 0x400D000C, 0x400D000C], "turns": 37,
      "cut": True}),
    ("~core 0 400D0000;400D0000 1", "calls",
     {"core": 0, "after": True, "calls": [0x400D0000, 0x400D0000], "turns": 1, "cut": False}),
    ("core 0 handlers 55 after 0", "others",
     {"core": 0, "after": False, "handler_turns": 55, "after_turns": 0}),
    ("~core 1 handlers 0", "others", {"core": 1, "after": True, "handler_turns": 0}),
    ("core 0 400D000F 9 0 1", "counts",
     {"core": 0, "pc": 0x400D000F, "executed": 9, "raised": 0, "taken": 1}),
    ("core 0 400D0012 8 3 -", "counts",
     {"core": 0, "pc": 0x400D0012, "executed": 8, "raised": 3, "taken": None}),
    ("400D0025 CC72 bnez.n a2, 0x400D0030", "instruction",
     {"pc": 0x400D0025, "code": "CC72", "instruction": "bnez.n a2, 0x400D0030"}),
    ("a2 00000000 known 0000FF00", "register", {"register": 2, "value": 0, "known": 0xFF00}),
    ("a3 mark 1", "register", {"register": 3, "mark": 1}),
    ("word 3FFB0000 00000010", "word", {"address": 0x3FFB0000, "value": 16}),
    ("order 0*3,1*3,0*2,1*2", "order", {"order": "0*3,1*3,0*2,1*2"}),
    ("outcomes 12", "outcomes", {"outcomes": 12}),
    ("stuck none", "stuck", {"answer": "none"}),
    ("stuck 0*0", "stuck", {"order": "0*0"}),
    ("breach SaveStore core 1 pc 400D0010 order 1*6", "breach",
     {"kind": "SaveStore", "core": 1, "pc": 0x400D0010, "order": "1*6"}),
    ("all", "end", {"answer": "all"}),
    ("some frames", "end", {"answer": "frames"}),
    ("some states", "end", {"answer": "states"}),
    ("order 0*20,0!0,1*1", "order", {"order": "0*20,0!0,1*1"}),
    ("stuck 0*20,0!0", "stuck", {"order": "0*20,0!0"}),
    ("some time core 0 pc 400D0010", "end", {"answer": "time", "core": 0, "pc": 0x400D0010}),
    (".entry 0x40080404", "entry", {"entry": 0x40080404}),
    (".seg 0x40080400 # segment 0 40080400 20 IRAM", "segment",
     {"loaded": True, "index": 0, "address": 0x40080400, "bytes": 20, "region": "IRAM"}),
    ("# segment 1 00000000 8 none", "segment",
     {"loaded": False, "index": 1, "address": 0, "bytes": 8, "region": "none"}),
    (".byte 0x01, 0x02 # 40080400", "instruction",
     {"pc": 0x40080400, "instruction": ".byte 0x01, 0x02"}),
    ("40080404 start", "label", {"address": 0x40080404, "name": "start"}),
    ("40080400 DEADBEEF", "label", {"address": 0x40080400, "name": "DEADBEEF"}),
    # The lines of scripts.
    ("core 0 step 44 pc 400D001C ps 00070F20 wb 3 ws 0008", "state",
     {"core": 0, "step": 44, "pc": 0x400D001C, "ps": 0x00070F20, "window": {"base": 3, "start": 8}}),
    ("a8 80000000 00000000 00000001 FFFFFFFF", "visible",
     {"register": 8, "values": [0x80000000, 0, 1, 0xFFFFFFFF]}),
    ("core 1", "core", {"core": 1}),
    ("0: 00000000 3FFFFFC0 3FFB0000 00000000 base start", "ring",
     {"number": 0, "values": [0, 0x3FFFFFC0, 0x3FFB0000, 0], "base": True, "start": True}),
    ("15: 00000001 00000002 00000003 00000004 start", "ring",
     {"number": 15, "values": [1, 2, 3, 4], "base": False, "start": True}),
    ("windowstart 00000001", "special", {"name": "windowstart", "value": 1}),
    ("ccompare2 0000000A", "special", {"name": "ccompare2", "value": 10}),
    ("mem 3FFB0000 07 00 -- 01", "mem", {"address": 0x3FFB0000, "bytes": [7, 0, None, 1]}),
    ("frames 0 depth 4", "depth", {"core": 0, "depth": 4}),
    ("frames 1 none", "depth", {"core": 1, "depth": None}),
    ("calls 0", "callers", {"core": 0}),
    ("calls 0 none", "callers", {"core": 0, "answer": "none"}),
    ("0 pc 400D0009 sp 3FFF7FC0 size 64 call 12", "frame",
     {"callers": 0, "pc": 0x400D0009, "sp": 0x3FFF7FC0, "size": 64, "call": 12}),
    ("4 pc -------- sp 3FFF7F00 size 48", "frame",
     {"callers": 4, "pc": None, "sp": 0x3FFF7F00, "size": 48}),
    ("none", "none", {}),
    ("past end", "past end", {}),
    (".", "answered", {}),
    ("Usage 9", "usage", {"number": 9}),
    # The lines of a trace.
    ("0 35 4008009B insn | rfwo | wb 14 ws 5554", "turn",
     {"core": 0, "step": 35, "pc": 0x4008009B, "event": "insn", "instruction": "rfwo",
      "window": {"base": 14, "start": 0x5554}}),
    ("0 94 400D001F insn a2=00000000 ld4 3FFF7F40 -> 0000000A | l32i.n a2, a1, 0", "turn",
     {"core": 0, "step": 94, "pc": 0x400D001F, "event": "insn",
      "write": {"register": 2, "value": 0},
      "access": {"kind": "load", "size": 4, "address": 0x3FFF7F40, "reply": 10},
      "instruction": "l32i.n a2, a1, 0"}),
    ("0 38 400D001C insn st1 3FFF7F44 00000002", "turn",
     {"core": 0, "step": 38, "pc": 0x400D001C, "event": "insn",
      "access": {"kind": "store", "size": 1, "address": 0x3FFF7F44, "value": 2}}),
    ("1 5 400D0020 insn a3=012C0007 cas 3FFB0000 012C0007 0000012C -> 012C0007 | s32c1i a3, a2, 0",
     "turn",
     {"core": 1, "step": 5, "pc": 0x400D0020, "event": "insn",
      "write": {"register": 3, "value": 0x012C0007},
      "access": {"kind": "compare_and_swap", "size": 4, "address": 0x3FFB0000,
                 "expect": 0x012C0007, "new": 0x12C, "reply": 0x012C0007},
      "instruction": "s32c1i a3, a2, 0"}),
    ("0 20 400D0012 window 4 | addi a14, a2, -1 | wb 0 ws 9249", "turn",
     {"core": 0, "step": 20, "pc": 0x400D0012, "event": "window", "number": 4,
      "instruction": "addi a14, a2, -1", "window": {"base": 0, "start": 0x9249}}),
    ("0 4 40007D54 exc 2", "turn",
     {"core": 0, "step": 4, "pc": 0x40007D54, "event": "exc", "number": 2}),
    ("1 0 400D0000 wait", "turn", {"core": 1, "step": 0, "pc": 0x400D0000, "event": "wait"}),
    ("1 9 400D0003 stop | break 1, 15", "turn",
     {"core": 1, "step": 9, "pc": 0x400D0003, "event": "stop", "instruction": "break 1, 15"}),
    ("0 3 400D0010 int 1 | depth 2 areas 3FFF7F00+16 3FFF7F40+32 unset 3 15 marks 4:0 5:1", "turn",
     {"core": 0, "step": 3, "pc": 0x400D0010, "event": "int", "number": 1,
      "frames": {"depth": 2, "unset": [3, 15], "marks": {"a4": 0, "a5": 1},
                 "areas": [{"address": 0x3FFF7F00, "bytes": 16},
                           {"address": 0x3FFF7F40, "bytes": 32}]}}),
    ("0 0 400D0000 insn | nop | depth 0", "turn",
     {"core": 0, "step": 0, "pc": 0x400D0000, "event": "insn", "instruction": "nop",
      "frames": {"depth": 0, "unset": [], "marks": {}}}),
    ("1 9 400D0010 insn a1=00000010 | entry a1, 32 | wb 2 ws 0005 | no frames", "turn",
     {"core": 1, "step": 9, "pc": 0x400D0010, "event": "insn", "instruction": "entry a1, 32",
      "write": {"register": 1, "value": 16}, "window": {"base": 2, "start": 5}, "frames": None}),
)
# What no command prints.
BROKEN = (
    "", " ", "frames", "frames hole", "core 2 stop break turns 4 pc 4008040D", "core 0 stop",
    "core 0 stop break turns 4 pc 4008040", "history", "history -1", "history 01", "race 3",
    "0 3 40080000", "0 3 40080000 insn | ", "0 3 40080000 insn |", "2 3 40080000 insn",
    "0 03 40080000 insn", "0 3 4008000 insn", "0 3 40080000 jump", "0 3 40080000 insn 5",
    "0 3 40080000 exc", "0 3 40080000 insn ld4 40080000 00000000",
    "0 3 40080000 insn st3 40080000 00000000", "0 3 40080000 insn a=00000000",
    "0 3 40080000 insn | nop | wb 3 ws 000", "0 3 40080000 insn  | nop",
    "0 3 40080000 insn | nop | depth", "words 3FFB0000 0000000", "mem 3FFB0000 7",
    "uses whole carried 4", "secrets none", "secrets leak core 2 step 1", "handlers of4 yes", "segment 0 40080400 16", "a2 00000000 known",
    "0: 00000000 00000000 00000000", "calls 2", "stuck", "order", "some", "xt: Usage 1",
    "core 0 step 3 pc 400D000D ps 00060020 wb 0 ws 1", "0 pc 400D0009 sp 3FFF7FC0",
)


class Lines(unittest.TestCase):
    def test_objects(self) -> None:
        for line, kind, fields in HAND:
            with self.subTest(line):
                self.assertEqual(lines.read(line), {"line": kind, **fields})

    def test_json(self) -> None:
        for line, kind, fields in HAND:
            with self.subTest(line):
                self.assertEqual(json.loads(lines.json_of(line) or ""), {"line": kind, **fields})

    def test_broken(self) -> None:
        for line in BROKEN:
            with self.subTest(line):
                self.assertIsNone(lines.read(line))
                self.assertIsNone(lines.json_of(line))
                parts = list(lines.json_parts(io.BytesIO(line.encode() + b"\n")))
                self.assertEqual(parts, [([line], [None])])

    def test_lines_of_all_cases(self) -> None:
        """Each line that a case says is known, and its object and its JSON are the same."""
        count = 0
        for file in files():
            for case in cases(file):
                for part in ("output", "trace", "lines", "verdict"):
                    text = case.get(part, "").encode()
                    made = [it for _, part in lines.json_parts(io.BytesIO(text)) for it in part]
                    for (line, it), again in zip(lines.objects(io.BytesIO(text)), made):
                        count += bool(line)
                        if line:
                            with self.subTest(f"{file}: {case['case']}: {line}"):
                                self.assertIsNotNone(it)
                                self.assertEqual(json.loads(again or ""), it)
        self.assertGreater(count, 5000)


class Texts(unittest.TestCase):
    """Whole texts, with bytes that a program sent between their lines."""

    def objects(self, text: bytes) -> list[object]:
        found = list(lines.objects(io.BytesIO(text)))
        parts = [it for part in lines.json_parts(io.BytesIO(text)) for it in zip(*part)]
        self.assertEqual([(line, it and json.loads(it)) for line, it in parts], found)
        return [it for _, it in found]

    def test_sent(self) -> None:
        self.assertEqual(
            self.objects(b"uart 5\nuart \nhistory 1\n"),
            [{"line": "uart", "bytes": 5, "hex": "7561727420", "text": "uart "},
             {"line": "history", "accesses": 1}],
        )

    def test_sent_is_no_text(self) -> None:
        self.assertEqual(self.objects(b"uart 1\n\xff\n"), [{"line": "uart", "bytes": 1, "hex": "ff"}])

    def test_lines_in_what_was_sent(self) -> None:
        text = b"outcome uart 17\nhistory 3\nrace 1 \nrace none\n"
        self.assertEqual([it and it["line"] for it in self.objects(text)], ["outcome", "race"])

    def test_too_few(self) -> None:
        self.assertEqual(self.objects(b"uart 5\nA\n"), [None])
        self.assertEqual(self.objects(b"uart 1\nAB\nhistory 1\n")[0], None)

    def test_no_end(self) -> None:
        self.assertEqual(self.objects(b"race none\nrace no"), [{"line": "race", "answer": "none"}, None])

    def test_gen(self) -> None:
        text = b"gen 5\nimage 66340\ncore 0 stop break\nuart 12345678\nuart 1\nA\n"
        self.assertEqual(
            self.objects(text),
            [{"line": "gen", "number": 5}, {"line": "length", "bytes": 66340},
             {"line": "stop", "core": 0, "stop": "break"}, {"line": "sum", "sum": 0x12345678},
             {"line": "uart", "bytes": 1, "hex": "41", "text": "A"}],
        )

    def test_pieces(self) -> None:
        """What comes in pieces is the same."""

        class Slow(io.BytesIO):
            def read1(self, size: int = -1) -> bytes:
                return super().read(3)

        text = b"uart 5\nA\nB\nC\nrace none\n0 4 40007D54 exc 2\n"
        self.assertEqual(list(lines.objects(Slow(text))), list(lines.objects(io.BytesIO(text))))


if __name__ == "__main__":
    unittest.main()
