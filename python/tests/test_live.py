"""The built program, asked through the package. What comes out is worked out from the pages and stands in
the texts of examples/ and the cases of scripts.txt."""
import unittest

from support import TOP, cases, image, program
import xt
from xt.conditions import condition_of


class Sessions(unittest.TestCase):
    def test_scripts(self) -> None:
        """The scripts of the cases print what the cases say, all of one recording in one session."""
        asked: dict[str, list[tuple[str, str]]] = {}
        for case in cases("scripts.txt"):
            if len(case["bytes"]) < 4000:
                asked.setdefault(case["bytes"], []).append((case["script"].strip("|"), case["output"]))
        for data, scripts in asked.items():
            with xt.Session(bytes.fromhex(data), program()) as session:
                for script, output in scripts:
                    with self.subTest(script):
                        self.assertEqual("".join(f"{it}\n" for it in session.ask(script)), output)

    def test_moves(self) -> None:
        """The steps of examples/two.rec by core and number, as docs/RECORDING.md lists them."""
        steps = [(0, 0), (0, 1), (0, 2), (1, 0), (1, 1), (0, 3), (1, 2), (1, 3), (0, 4), (0, 5), (0, 6),
                 (0, 7), (1, 4), (1, 5)]
        with xt.Session(TOP / "examples/two.rec", program()) as session:
            self.assertEqual([(it.core, it.step) for it in session.trace(len(steps))], steps)
            self.assertEqual(session.trace(len(steps) + 1), [])
            for position, (core, step) in enumerate(steps):
                self.assertTrue(session.go(core, step))
                self.assertEqual(session.position, position)
            self.assertTrue(session.end_of_run())
            self.assertEqual(session.position, len(steps))
            self.assertFalse(session.next())
            self.assertTrue(session.back(14))
            self.assertFalse(session.back())
            self.assertEqual(session.position, 0)
            self.assertTrue(session.watch(0x3FFB0004))
            self.assertEqual(session.position, 5)
            self.assertFalse(session.watch(0x3FFB0004))
            self.assertFalse(session.go(0, 9))
            self.assertEqual(session.position, 5)

    def test_state(self) -> None:
        """docs/RECORDING.md: core 0 stores 12C at 3FFB0002, where a word with 7 is; a3 holds it."""
        with xt.Session(TOP / "examples/two.rec", program()) as session:
            session.go(0, 3)
            registers = session.registers(0)
            self.assertEqual((registers.core, registers.step, len(registers.a)), (0, 3, 16))
            self.assertEqual((registers.a[2], registers.a[3]), (0x3FFB0000, 0x12C))
            self.assertEqual(session.words(0x3FFB0000, 1), [0x012C0007])
            memory = session.memory(0x3FFB0000, 100)
            self.assertEqual(memory.bytes[:4], [7, 0, 0x2C, 1])
            self.assertEqual((len(memory.bytes), memory.word(0x3FFB0000)), (100, 0x012C0007))
            self.assertEqual(session.words(0, 1), [None])
            self.assertEqual(session.memory(0, 4).word(0), None)
            with self.assertRaises(IndexError):
                memory[0x3FFAFFFF]
            ring = session.ring(0)
            self.assertEqual([len(ring), ring[0].base, ring[0].start], [16, True, True])
            self.assertEqual(ring[0].values, registers.a[:4])
            special = session.special(0)
            self.assertEqual((special["windowstart"], special["prid"], special["ccount"]), (1, 0xCDCD, 3))
            self.assertEqual((session.depth(0), session.calls(0)), (None, None))

    def test_calls(self) -> None:
        """examples/calls.s: `f` calls itself; the worked calls of docs/DEBUGGING.md have this form."""
        run = xt.Run(image("calls.s"), program(), turns1=0)
        with run.session() as session:
            session.go(0, 30)
            calls = session.calls(0)
            assert calls is not None
            self.assertEqual([it.callers for it in calls], list(range(len(calls) - 1, -1, -1)))
            self.assertEqual(session.depth(0), len(calls) - 1)
            self.assertEqual(calls[-1].size, 64)
            for inner, outer in zip(calls, calls[1:]):
                self.assertEqual(outer.sp, inner.sp + inner.size)
            self.assertIsNone(calls[0].call)
            self.assertEqual(calls[1].call, 8)

    def test_conditions(self) -> None:
        """docs/RECORDING.md: where core 0 is to make step 3, a3 is 12C and the word at 3FFB0000 is 012C0007."""
        names = xt.Names()
        with xt.Session(TOP / "examples/two.rec", program()) as session:
            session.go(0, 3)
            for text, is_so in (
                    ("a3 == 300", True), ("a3 != 0x12C", False), ("a3 < 300", False), ("a3 <= 300", True),
                    ("3FFB0000 == 0x012C0007", True), ("a2 > 0x3FFAFFFF", True), ("a2 >= -1", True),
                    ("a2<-1", False), ("00000000 == 0", False), ("00000000 != 0", False)):
                with self.subTest(text):
                    self.assertEqual(condition_of(text, names).holds(session, 0), is_so)
        for text in ("", "a3 ==", "a16 == 1", "a3 = 1", "a3 == x", "a3 == 1 2", "nobody == 1"):
            with self.subTest(text), self.assertRaises(ValueError):
                condition_of(text, names)

    def test_no_script(self) -> None:
        with xt.Session(TOP / "examples/two.rec", program()) as session:
            with self.assertRaises(xt.UsageError):
                session.ask("jump")
            self.assertEqual(session.ask(""), [])

    def test_no_recording(self) -> None:
        with xt.Session(b"abc", program()) as session, self.assertRaises(xt.RecordingError):
            session.ask("")


class Runs(unittest.TestCase):
    def test_letter(self) -> None:
        """docs/EXAMPLES.md: the program sends A and ends after four turns."""
        run = xt.Run(TOP / "examples/letter.bin", program(), turns1=0)
        report = run.report("events", "race", "profile", "uses", memory=[(0x3FFB0000, 2)])
        self.assertEqual((report.sent, report.accesses), (b"A", 1))
        self.assertEqual(report.stop(0), xt.Stop(0, "break", 4, 0x4008040D))
        self.assertEqual(report.memory, {0x3FFB0000: [0, 0]})
        self.assertEqual([it.times for it in report.events], [3, 1])
        self.assertEqual([it.event for it in run.trace()], ["insn", "insn", "insn", "stop"])
        self.assertEqual(list(run.trace(accesses=True))[0].access, xt.Access("store", 1, 0x3FF40000, value=0x41))
        self.assertEqual(list(run.listing("flow"))[:2], [
            (0x40080400, ".word 0x3FF40000"), (0x40080404, "l32r a2, 0x40080400")])

    def test_recording(self) -> None:
        run = xt.Run(TOP / "examples/letter.rec", program())
        self.assertEqual(len(list(run.trace())), 4)
        self.assertEqual(run.events()[0], xt.Event(0, "insn", 3, 0, 0x40080404))
        self.assertIsNone(run.race())
        self.assertEqual(run.counts()[-1], xt.Count(0, 0x4008040D, 1, 0))
        self.assertEqual(run.uses().verdict.answer, "none")
        with self.assertRaises(ValueError):
            run.report()
        with self.assertRaises(ValueError):
            xt.Run(TOP / "examples/letter.rec", program(), seed=1)

    def test_secrets(self) -> None:
        """docs/EXAMPLES.md: a secret chooses an entry of a table; of public bytes nothing is secret."""
        run = xt.Run(image("secret.s"), program(), turns1=0)
        key = [(0x3FFB0000, 2)]
        found = run.secrets(key)
        self.assertEqual((found.leak, found.registers), (xt.Leak(0, 7), [xt.Register(5, 0, 3)]))
        self.assertEqual(run.report(secret=key).secrets, found)
        self.assertEqual(run.secrets(key, key), xt.Secrets())
        with self.assertRaises(xt.RequiredError):
            run.report(secret=key, require=["secret"])
        with self.assertRaises(xt.UsageError):
            run.secrets([(0x3F400000, 1)])

    def test_elf(self) -> None:
        run = xt.Run(TOP / "examples/hello.elf", program(), turns1=0)
        self.assertTrue(run.report().sent)
        self.assertEqual(run.image, program().elf(TOP / "examples/hello.elf"))

    def test_calls(self) -> None:
        """docs/PROFILE.md: the profile of calls.s with three functions, and counts of f."""
        run = xt.Run(image("calls.s"), program(), turns1=0)
        profile = run.profile(depth=3)
        main, f = 0x400D0000, 0x400D000C
        self.assertEqual(profile.calls, [
            xt.Calls(0, (main,), 1), xt.Calls(0, (main, f, f), 37, cut=True),
            xt.Calls(0, (main, main), 4), xt.Calls(0, (main, main, f), 5)])
        self.assertEqual(profile.others, [xt.Others(0, 55, 0), xt.Others(1, 0, 0)])
        counts = {it.pc: (it.executed, it.raised, it.taken) for it in run.counts()}
        self.assertEqual(counts[0x400D000F], (9, 0, 1))
        self.assertEqual(counts[0x400D0012], (8, 3, None))
        depths = [it.frames.depth for it in run.trace(frames=True) if it.frames]
        self.assertEqual(max(depths), 10)

    def test_moments(self) -> None:
        """docs/OUTCOMES.md: the outcomes of examples/moment.s, and the turns of the second one's order."""
        run = xt.Run(image("moment.s"), program(), entry1=0x400D0034)
        found = run.outcomes(0x3FFB0000, any_time=True, show="2")
        self.assertEqual([list(it.words.values()) for it in found.outcomes], [[3], [4]])
        self.assertEqual((found.stuck, found.end), ("none", "all"))
        self.assertEqual([it["event"] for it in found.shown if it["core"] == 0].count("int"), 1)

    def test_outcomes(self) -> None:
        """docs/OUTCOMES.md: of two additions one may be lost; the orders lead there again."""
        run = xt.Run(image("lost.s"), program())
        found = run.outcomes(0x3FFB0000)
        self.assertEqual([it.words for it in found.outcomes], [{0x3FFB0000: 1}, {0x3FFB0000: 2}])
        self.assertEqual((found.stuck, found.frames, found.is_all), ("none", "none", True))
        self.assertEqual([it.access.kind for it in found.race_turns if it.access], ["store", "load"])
        for outcome in found.outcomes:
            again = xt.Run(image("lost.s"), program(), order=outcome.order).report(memory=[(0x3FFB0000, 1)])
            self.assertEqual(again.memory, {0x3FFB0000: [outcome.words[0x3FFB0000]]})

    def test_early_end(self) -> None:
        """A trace that nobody reads to its end is ended."""
        turns = xt.Run(image("calls.s"), program(), turns1=0).trace()
        self.assertEqual(next(turns).step, 0)
        turns.close()


if __name__ == "__main__":
    unittest.main()
