"""Reports, outcomes and the texts over recordings: the pages' examples, written down as objects."""
import io
import unittest

from support import cases
import xt
from xt import lines
from xt.outcomes import Moment, OrderBreach, moments_of
from xt.report import race_of, secrets_of, uses_of

LETTER = b"""uart 1
A
core 0 stop break turns 4 pc 4008040D
core 1 stop turns turns 0 pc 40080404
history 1
handlers of4 no 0 uf4 yes of8 no 0 uf8 no 0 of12 no 0 uf12 no 7
frames none
words 3FFB0000 00000000 --------
core 0 insn times 3 first 0 pc 40080404
core 0 stop times 1 first 3 pc 4008040D
race none
profile none
core 0 handlers 0 after 4
core 1 handlers 0 after 0
uses none
"""
UNSET = """uses breach Unset core 0 step 97
0 97 400D0025 insn
400D0025 CC72 bnez.n a2, 0x400D0030
a2 00000000 known 00000000
"""
LEAK = """secrets leak core 0 step 135
0 135 400D0055 insn a8=00000043
400D0055 820800 l8ui a8, a8, 0
a8 00000000 known FFFFFF00
"""
LOST = b"""outcome uart 0

core 0 stop break pc 400D0010
core 1 stop break pc 400D0010
word 3FFB0000 00000001
order 0*3,1*3,0*2,1*2
outcome uart 1
2
core 0 stop break pc 400D0010
core 1 stop turns pc 400D000D
word 3FFB0000 00000002
order 0*5,1*5
outcomes 2
stuck none
race 0*3,1*1
0 3 400D000D insn st4 3FFB0000 00000001 | s32i a3, a2, 0
1 1 400D0007 insn a3=00000000 ld4 3FFB0000 -> 00000000 | l32i a3, a2, 0
frames broken
breach SaveStore core 1 pc 400D0010 order 1*6
some time core 1 pc 400D0010
"""


def objects(text: bytes) -> list[lines.Object]:
    return list(lines.whole(lines.objects(io.BytesIO(text))))


class Reports(unittest.TestCase):
    def test_report(self) -> None:
        report = xt.Report.of(objects(LETTER))
        self.assertEqual(report.sent, b"A")
        self.assertEqual(report.stops, [xt.Stop(0, "break", 4, 0x4008040D), xt.Stop(1, "turns", 0, 0x40080404)])
        self.assertEqual(report.accesses, 1)
        self.assertEqual(report.handlers["uf4"], xt.Handler(True))
        self.assertEqual(report.handlers["uf12"], xt.Handler(False, 7))
        self.assertEqual(report.frames, xt.Verdict("none"))
        self.assertEqual(report.memory, {0x3FFB0000: [0, None]})
        self.assertEqual(report.events[1], xt.Event(0, "stop", 1, 3, 0x4008040D))
        self.assertIsNone(report.race)
        assert report.profile is not None and report.uses is not None
        self.assertFalse(report.profile.judged)
        self.assertEqual(report.profile.others[0], xt.Others(0, 0, 4))
        self.assertEqual(report.uses.verdict, xt.Verdict("none"))

    def test_report_and_trace(self) -> None:
        text = LETTER.partition(b"words")[0] + UNSET.encode() + b"0 0 40080404 insn\n1 0 40080404 stop\n"
        report = xt.Report.of(objects(text))
        assert report.uses is not None
        self.assertEqual(report.uses.verdict.breach, xt.Breach("Unset", 0, 97))
        self.assertEqual(report.uses.registers, [xt.Register(2, 0, 0)])
        self.assertEqual([it.core for it in report.turns], [0, 1])

    def test_report_and_secrets(self) -> None:
        text = LETTER + LEAK.encode() + b"0 0 40080404 insn\n1 0 40080404 stop\n"
        secrets = xt.Report.of(objects(text)).secrets
        assert secrets is not None and secrets.turn is not None
        self.assertEqual((secrets.leak, secrets.is_whole), (xt.Leak(0, 135), False))
        self.assertEqual((secrets.turn.pc, secrets.instruction), (0x400D0055, "l8ui a8, a8, 0"))
        self.assertEqual(secrets.registers, [xt.Register(8, 0, 0xFFFFFF00)])
        self.assertEqual(len(xt.Report.of(objects(text)).turns), 2)
        whole = xt.Report.of(objects(LETTER + b"secrets whole carried 4 1\n")).secrets
        self.assertEqual(whole, xt.Secrets(carried=(4, 1)))
        self.assertIsNone(xt.Report.of(objects(LETTER)).secrets)

    def test_no_report(self) -> None:
        with self.assertRaises(xt.LineError):
            xt.Report.of(objects(b"race none\n"))
        with self.assertRaises(xt.LineError):
            objects(b"race nine\n")

    def test_uses_of_cases(self) -> None:
        """What the cases of uses.txt say of each run, by the words of the first line."""
        count = 0
        for case in cases("uses.txt"):
            text = case.get("output", "")
            if not text.startswith("uses "):
                continue
            words = text.split("\n")[0].split()
            uses, left = uses_of(objects(text.encode()))
            assert uses is not None
            with self.subTest(case["case"]):
                self.assertEqual(left, [])
                self.assertEqual(uses.verdict.answer, words[1])
                if words[1] == "breach":
                    breach = xt.Breach(words[2], int(words[4]), int(words[6]))
                    self.assertEqual(uses.verdict.breach, breach)
                    assert uses.turn is not None
                    self.assertEqual((uses.turn.core, uses.turn.step), (breach.core, breach.step))
                    self.assertEqual(len(uses.registers), sum(it[0] == "a" for it in text.split("\n") if it))
                count += 1
        self.assertGreater(count, 300)

    def test_secrets_of_cases(self) -> None:
        """What the cases of secrets.txt say of each run, by the words of the first line."""
        count = 0
        for case in cases("secrets.txt"):
            text = case["output"]
            words = text.split("\n")[0].split()
            secrets, left = secrets_of(objects(text.encode()))
            assert secrets is not None
            with self.subTest(case["case"]):
                self.assertEqual((left, secrets.is_whole), ([], words[1] == "whole"))
                if secrets.leak is None:
                    self.assertEqual(secrets.carried, (int(words[3]), int(words[4])))
                else:
                    assert secrets.turn is not None
                    self.assertEqual(secrets.leak, xt.Leak(int(words[3]), int(words[5])))
                    self.assertEqual((secrets.turn.core, secrets.turn.step), (int(words[3]), int(words[5])))
                    self.assertEqual(len(secrets.registers), sum(it[0] == "a" for it in text.split("\n") if it))
                count += 1
        self.assertEqual(count, 100)

    def test_races_of_cases(self) -> None:
        """The two turns of a race make accesses that share a byte, and are of both cores."""
        count = 0
        for case in cases("races.txt"):
            race, left = race_of(objects(case.get("output", "").encode()))
            if race is None:
                self.assertEqual(case["output"].strip(), "race none")
                continue
            with self.subTest(case["case"]):
                first, second = race.turns
                self.assertEqual({first.core, second.core}, {0, 1})
                assert first.access is not None and second.access is not None
                self.assertTrue(set(first.access.bytes) & set(second.access.bytes))
                self.assertLess(race.first, race.second)
                self.assertEqual(left, [])
            count += 1
        self.assertGreater(count, 50)

    def test_outcomes(self) -> None:
        found = xt.Outcomes.of(objects(LOST))
        first, second = found.outcomes
        self.assertEqual((first.sent, second.sent), (b"", b"2"))
        self.assertEqual(first.stops, [xt.Stop(0, "break", None, 0x400D0010), xt.Stop(1, "break", None, 0x400D0010)])
        self.assertEqual(second.stops[1], xt.Stop(1, "turns", None, 0x400D000D))
        self.assertEqual((first.words, second.words), ({0x3FFB0000: 1}, {0x3FFB0000: 2}))
        self.assertEqual(second.order, "0*5,1*5")
        self.assertEqual((found.stuck, found.race, found.frames), ("none", "0*3,1*1", "broken"))
        self.assertEqual([it.mnemonic for it in found.race_turns], ["s32i", "l32i"])
        self.assertEqual(found.breaches, [OrderBreach("SaveStore", 1, 0x400D0010, "1*6")])
        self.assertEqual((found.end, found.is_all, found.uses_time), ("time", False, (1, 0x400D0010)))
        self.assertEqual(found.shown, [])

    def test_moments(self) -> None:
        text = LOST.replace(b"order 0*5,1*5", b"order 0*2,1!1,0*3,1*5,0!0") + b"0 0 400D0004 stop | break 1, 15\n"
        found = xt.Outcomes.of(objects(text))
        self.assertEqual(moments_of(found.outcomes[1].order), [Moment(1, 1, 0, 2), Moment(0, 0, 5, 10)])
        self.assertEqual(moments_of(found.outcomes[0].order), [])
        self.assertEqual([xt.Turn.of(it).pc for it in found.shown], [0x400D0004])
        self.assertEqual(len(found.race_turns), 2)


class Turns(unittest.TestCase):
    def test_turn(self) -> None:
        turn = xt.Turn.parse("0 94 400D001F insn a2=00000005 ld1 3FFF7F41 -> 00000005 | l8ui a2, a1, 1")
        self.assertEqual(turn.write, xt.Write(2, 5))
        self.assertEqual(turn.access, xt.Access("load", 1, 0x3FFF7F41, reply=5))
        self.assertEqual((turn.mnemonic, turn.has_frames), ("l8ui", False))
        assert turn.access is not None
        self.assertEqual((turn.access.stores, turn.access.word), (False, 0x3FFF7F40))

    def test_frames(self) -> None:
        turn = xt.Turn.parse("0 1 400D001F insn | nop | depth 1 areas 3FFF7F00+16 3FFF7F40+0 unset 3")
        self.assertEqual(turn.frames, xt.Known(1, [xt.Area(0x3FFF7F00, 16), xt.Area(0x3FFF7F40, 0)], [3], {}))
        turn = xt.Turn.parse("0 1 400D001F insn | nop | no frames")
        self.assertEqual((turn.frames, turn.has_frames), (None, True))

    def test_swap(self) -> None:
        """A compare-and-swap stores if it finds what it expects."""
        line = "1 5 400D0020 insn a3=0000000%d cas 3FFB0000 00000001 00000002 -> 0000000%d"
        for reply, stores in ((1, True), (2, False)):
            access = xt.Turn.parse(line % (reply, reply)).access
            assert access is not None
            self.assertEqual(access.stores, stores)

    def test_no_turn(self) -> None:
        with self.assertRaises(xt.LineError):
            xt.Turn.parse("race none")


if __name__ == "__main__":
    unittest.main()
