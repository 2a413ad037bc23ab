"""bin/why: the fields of its findings, and its lines. The values are those of README.md,
docs/OUTCOMES.md and of the texts of examples/."""
from __future__ import annotations

import json
import os
import subprocess
import sys
import tempfile
import unittest
from pathlib import Path

from support import TOP, image, program
import xt
from xt.lines import Object


def why(*words: str) -> tuple[int, str]:
    """The exit code of bin/why, and what it prints."""
    environment = {**os.environ, "XT": os.path.abspath(program().path)}
    done = subprocess.run(
        [sys.executable, str(TOP / "bin/why"), *words], env=environment, capture_output=True,
        text=True, check=False)
    said = [it for it in done.stderr.splitlines() if not it.startswith("bin/why: looking at ")]
    assert not said, said
    return done.returncode, done.stdout


def findings(*words: str) -> tuple[int, list[Object]]:
    code, text = why("--json", *words)
    return code, [json.loads(it) for it in text.splitlines()]


class Findings(unittest.TestCase):
    def test_smash(self) -> None:
        """README.md: step 199 of core 0 stores 2C at 3FFF7F60, which is for a4 to a7 of `initial`,
        in whose frame from 3FFF7F50 to 3FFF7F7F it lies."""
        code, found = findings(str(TOP / "examples/smash.bin"), "--turns1", "0")
        kinds = [it["kind"] for it in found]
        self.assertEqual((code, kinds), (1, "end end stack uses race".split()))
        core0, core1, stack, uses, race = found
        self.assertEqual((core0["core"], core0["end"], core0["turns"]), (0, "break", 337))
        self.assertEqual((core1["core"], core1["end"], core1["finding"]), (1, "idle", False))
        self.assertEqual(
            [stack[it] for it in ("answer", "breach", "core", "step", "finding", "longjmp")],
            ["breach", "SaveStore", 0, 199, True, False])
        self.assertEqual(
            stack["access"], {"kind": "store", "size": 1, "address": 0x3FFF7F60, "value": 0x2C})
        self.assertEqual(stack["bytes"][0]["registers"], [4, 7])
        spans = [(it["what"], it["first"], it["last"]) for it in stack["bytes"]]
        self.assertEqual(spans, [
            ("saved", 0x3FFF7F60, 0x3FFF7F6F), ("frame", 0x3FFF7F50, 0x3FFF7F7F)])
        self.assertEqual([it["pc"] for it in stack["calls"]][0], 0x400D0080)
        self.assertEqual(uses, {"kind": "uses", "answer": "same", "finding": False})
        self.assertEqual(race, {"kind": "race", "answer": "none", "finding": False})

    def test_race(self) -> None:
        """examples/lost.s: each core loads the word at 3FFB0000 and stores it again, so 1 or 2 is left
        there. docs/OUTCOMES.md has both orders."""
        with tempfile.TemporaryDirectory() as folder:
            path = Path(folder) / "lost.img"
            path.write_bytes(image("lost.s"))
            code, found = findings(str(path))
            lines = why(str(path))[1]
        race, orders = found[-2:]
        self.assertEqual((code, race["answer"], race["address"]), (1, "race", 0x3FFB0000))
        first, second = race["sides"]
        self.assertEqual({first["core"], second["core"]}, {0, 1})
        self.assertIn("store", (first["access"]["kind"], second["access"]["kind"]))
        self.assertEqual([orders[it] for it in ("kind", "answer", "stuck", "race")], ["orders", "all", None, None])
        self.assertEqual(orders["sent"], [
            {"hex": "", "value": 1, "options": ["--order", "0*3,1*3,0*2,1*2"]},
            {"hex": "", "value": 2, "options": ["--order", "0*5,1*5"]}])
        self.assertIn("nothing orders them: 3FFB0000\n", lines)
        self.assertIn("all were looked at: in each it sends nothing, and 3FFB0000 ends with one of 2 values\n", lines)

    def test_stuck(self) -> None:
        """examples/crossed.s: with seed 1 both cores end, but in another order each waits for the lock that
        the other has. docs/OUTCOMES.md says that it has one outcome, and is stuck after this order."""
        with tempfile.TemporaryDirectory() as folder:
            path = Path(folder) / "crossed.img"
            path.write_bytes(image("crossed.s"))
            code, found = findings(str(path), "--entry1", "0x400D0028")
        ends, orders = found[:2], found[-1]
        self.assertEqual((code, [it["finding"] for it in ends]), (1, [False, False]))
        self.assertEqual([orders[it] for it in ("answer", "finding", "stuck")], ["all", True, ["--order", "0*9,1*8"]])
        self.assertEqual((len(orders["sent"]), orders["race"], orders["breaches"]), (1, None, []))

    def test_moments(self) -> None:
        """examples/moment.s: docs/OUTCOMES.md has the three outcomes. In the second the timer fires between the load
        and the store of the first addition, after which the handler's is lost."""
        with tempfile.TemporaryDirectory() as folder:
            path = Path(folder) / "moment.img"
            path.write_bytes(image("moment.s"))
            words = ["--any-time", "--entry1", "0x400D0034", "--word", "0x3FFB0000", "--word", "0x3FFB0004"]
            code, found = findings(str(path), *words)
            lines = why(str(path), *words)[1]
        it = found[-1]
        self.assertEqual((code, it["kind"], it["answer"], it["lack"]), (1, "moments", "all", None))
        self.assertEqual([end["values"] for end in it["ends"]], [[3, 0], [3, 1], [4, 1]])
        self.assertEqual([len(end["moments"]) for end in it["ends"]], [0, 1, 1])
        moment, lost = it["ends"][1]["moments"][0], it["ends"][1]["lost"]
        fields = [moment[name] for name in ("core", "timer", "step", "is_after", "instruction")]
        self.assertEqual(fields, [0, 0, 9, False, "addi a4, a4, 1"])
        places = [(one["address"], one["load"]["pc"], one["store"]["pc"]) for one in lost]
        self.assertEqual(places, [(0x3FFB0000, 0x400D001C, 0x400D0022)])
        self.assertEqual((it["ends"][2]["lost"], it["stuck"], it["is_settled"]), ([], None, True))
        self.assertIn("3FFB0000 = 00000003, 3FFB0004 = 00000001 if timer 0 of core 0 fires before step 9\n", lines)
        self.assertIn("what it stores there is lost\n", lines)

    def test_stuck_moment(self) -> None:
        """examples/wakeup.s: after its first load main waits for ever, if the timer fires then."""
        with tempfile.TemporaryDirectory() as folder:
            path = Path(folder) / "wakeup.img"
            path.write_bytes(image("wakeup.s"))
            code, found = findings(str(path), "--any-time", "--entry1", "0x400D002C")
        it = next(it for it in found if it["kind"] == "moments")
        self.assertEqual((code, it["finding"], it["answer"], len(it["ends"])), (1, True, "all", 1))
        self.assertEqual(it["stuck"]["order"], "0*1,1*1,0*7,0!0,0*12")
        moment = it["stuck"]["moments"][0]
        self.assertEqual((moment["step"], moment["is_after"], moment["instruction"]), (8, False, "bnez a4, 0x400D0025"))

    def test_other_race(self) -> None:
        """Core 1 stores into the word only if core 0 has raised the flag before, so with seed 3 there is no race."""
        text = b"""
            .seg 0x3FFB0000
            flag:   .word 0
            word:   .word 0
            .seg 0x400D0000
            .entry main
            .literal_position
            main:   l32r a2, =flag
                    movi a3, 1
                    movi a4, 20
            more:   addi a4, a4, -1
                    bnez a4, more
                    s32ri a3, a2, 0
                    s32i a3, a2, 4
                    break 1, 15
            .align 4
            .literal_position
            one:    l32r a2, =flag
                    l32ai a3, a2, 0
                    beqz a3, out
                    s32i a3, a2, 4
            out:    break 1, 15
            """
        with tempfile.TemporaryDirectory() as folder:
            path = Path(folder) / "flag.img"
            path.write_bytes(program().asm(text))
            places = {it.split()[1]: int(it.split()[0], 16) for it in program().call(["map"], text).decode().splitlines()}
            code, found = findings(str(path), "--entry1", "0x%08X" % places["one"], "--seed", "3")
        self.assertEqual((code, found[-2]["kind"], found[-2]["answer"]), (1, "race", "none"))
        orders = found[-1]
        self.assertEqual((orders["answer"], orders["finding"], orders["word"]), ("all", True, None))
        race = orders["race"]
        self.assertEqual(race["address"], places["word"])
        self.assertEqual([(it["core"], it["access"]["kind"]) for it in race["sides"]], [(0, "store"), (1, "store")])

    def test_some(self) -> None:
        """examples/race.s has too many states, so some orders are run. With seed 1 it sends what `run` says."""
        with tempfile.TemporaryDirectory() as folder:
            path = Path(folder) / "race.img"
            path.write_bytes(image("race.s"))
            orders = findings(str(path))[1][-1]
            sent = {it["hex"] for it in orders["sent"]}
            reports = [program().call(["run", "--seed", str(seed)], path) for seed in (1, 2, 3, 4)]
        self.assertEqual([orders[it] for it in ("kind", "answer", "lack")], ["orders", "some", "states"])
        self.assertGreaterEqual(orders["tried"], 4)
        self.assertEqual({xt.Report.parse(it).sent.hex() for it in reports} - sent, set())

    def test_one_core(self) -> None:
        """Nothing is said of orders where only one core has turns, or where the order is given."""
        with tempfile.TemporaryDirectory() as folder:
            path = Path(folder) / "lost.img"
            path.write_bytes(image("lost.s"))
            for words in (["--turns1", "0"], ["--order", "0*5,1*5"]):
                self.assertNotIn("orders", [it["kind"] for it in findings(str(path), *words)[1]])

    def test_goes_on(self) -> None:
        """A core that jumps to itself has the same state again."""
        text = b".seg 0x400D0000\n.entry main\nmain: j main\n"
        with tempfile.TemporaryDirectory() as folder:
            path = Path(folder) / "round.img"
            path.write_bytes(program().asm(text))
            code, found = findings(str(path), "--turns1", "0", "--turns0", "100")
        end = found[0]
        self.assertEqual((code, end["end"], end["turns"], end["waits"]), (1, "turns", 100, []))
        self.assertEqual((end["step"], end["same_as"]), (99, 99))

    def test_letter(self) -> None:
        """Nothing is to tell of a program that is good."""
        code, found = findings(str(TOP / "examples/letter.bin"), "--turns1", "0")
        self.assertEqual((code, [it["finding"] for it in found]), (0, [False] * 4))
        self.assertEqual(found[0]["instruction"], "break 1, 15")


if __name__ == "__main__":
    unittest.main()
