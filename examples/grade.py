#!/usr/bin/env python3
"""Grades the answers of a class: python3 examples/grade.py TASK FILE..

TASK is a file that says what an answer has to do, and for how many points: docs/WORKSHEET.md. A FILE is a text in the
assembly language, to which the window handlers of examples/handlers.s are appended if its image has none; an ELF
executable; or a folder, which stands for its files NAME.s and NAME.elf. For each it prints its points, each check that
it does not pass with the reason, what `asm` says of the text, and what bin/why says of the first run that went wrong.

Ends with 0 if each answer has all points, with 1 if one has not, with 64 if the words or TASK are none of these, and
with 66 if a file cannot be read.
"""
import codecs
import os
import re
import subprocess
import sys
import tempfile
from pathlib import Path

TOP = Path(__file__).resolve().parents[1]
sys.path.insert(0, str(TOP / "python"))
import xt  # noqa: E402
from xt.report import kind  # noqa: E402
from xt.scripts import refuse, run_main  # noqa: E402

STATES = "300000"  # of a search, so that it ends in seconds
HANDLERS = range(0x40080000, 0x40080180)
NUMBER = re.compile(r"0x[0-9A-Fa-f]{1,8}|\d+")
SETTINGS = {"cores": "1", "entry1": None, "turns": "100000", "seeds": "8"}
EVERY = ("one", "not-stuck", "race-free", "whole")
# The words of --require for the checks of a run.
RUN = {"ends": "break", "exit0": "exit0", "whole": "whole", "used": "used", "race-free": "race-free"}


def number(word):
    return int(word, 16 if word.startswith("0x") else 10)


class Task:
    """What a file asks for: settings, the words of an outcome, and checks with their points."""

    def __init__(self, path):
        self.settings, self.words, self.checks = dict(SETTINGS), [], []
        for at, line in enumerate(readable(path).read_text(encoding="utf-8").splitlines(), 1):
            line = re.sub(r"(^|\s)#.*", "", line).strip()
            if line and not self.takes(*line.partition(" ")[::2]):
                refuse(64, f"{path}, line {at}: `{line}` is no setting and no check with its points")
        if not self.checks:
            refuse(64, f"{path} has no check")

    def takes(self, first, rest):
        """Whether a line is a setting or a check, which this then has."""
        if first in SETTINGS:
            self.settings[first] = rest.strip()
            return bool(rest.strip()) and (first == "entry1" or rest.strip().isdecimal())
        if first == "word":
            self.words.append(rest.strip())
            return bool(rest.strip())
        name, _, value = rest.strip().partition(" ")
        self.checks.append((int(first) if first.isdecimal() else 0, name, value.strip()))
        values = value.split()
        is_good = {
            "assembles": not values, "sends": True, "every": value.strip() in EVERY,
            "leaves": len(values) > 1 and all(map(NUMBER.fullmatch, values[1:])),
            "outcomes": bool(values) and all(NUMBER.fullmatch(it) for value in values for it in value.split(",")),
            **{it: not values for it in RUN},
        }
        return first.isdecimal() and is_good.get(name, False)

    @property
    def points(self):
        return sum(points for points, _, _ in self.checks)


class Failed(Exception):
    """A check that is not passed: the reason, and the options of a run that shows it, or None."""

    def __init__(self, reason, options=None):
        super().__init__(reason)
        self.reason, self.options = reason, options


class Answer:
    """One answer: its image and its names, or what `asm` says of its faults."""

    def __init__(self, task, path, room, program):
        self.task, self.program, self.found = task, program, None
        self.image, self.table = os.path.join(room, "answer.img"), os.path.join(room, "answer.map")
        self.elf = path if path.suffix == ".elf" else None
        self.said = self.make(path)
        self.names = None
        if self.is_made:
            self.names = xt.Names(str(self.elf)) if self.elf else xt.Names(None, self.table)

    @property
    def is_made(self):
        return os.path.exists(self.image)

    def make(self, path):
        """Makes the image; the lines that `asm` says of the text."""
        for it in (self.image, self.table):
            Path(it).unlink(missing_ok=True)
        if self.elf:
            Path(self.image).write_bytes(self.program.elf(str(path)))
            return []
        files = [str(path)]
        done = called("--words", "asm", *files)
        if done.returncode == 0 and not self.has_handlers(done.stdout):
            files.append(str(TOP / "examples/handlers.s"))
            done = called("--words", "asm", *files)
        if done.returncode == 0:
            Path(self.image).write_bytes(done.stdout)
            Path(self.table).write_bytes(called("map", *files).stdout)
        return done.stderr.decode(errors="replace").splitlines()

    def has_handlers(self, image):
        """Whether a segment of the image lies where the window handlers do."""
        rows = kind(self.program.objects(["check"], image), "segment")
        return any(it["address"] < HANDLERS.stop and HANDLERS.start < it["address"] + it["bytes"] for it in rows)

    def address(self, name):
        """The address of a name, or a number."""
        if NUMBER.fullmatch(name):
            return number(name)
        found = self.names.find(name)
        if found is None:
            raise Failed(f"there is no label {name}")
        return found

    # ---- Runs.

    def entry(self):
        name = self.task.settings["entry1"]
        return [] if name is None else ["--entry1", f"0x{self.address(name):08X}"]

    def runs(self):
        """The options of each run that is tried."""
        turns = self.task.settings["turns"]
        if self.task.settings["cores"] == "1":
            return [["--seed", "1", "--turns0", turns, "--turns1", "0"]]
        both = self.entry() + ["--turns0", turns, "--turns1", turns]
        return [["--seed", str(seed)] + both for seed in range(1, int(self.task.settings["seeds"]) + 1)]

    def report(self, options, *more):
        return xt.Report.parse(self.program.call(["run", *options, *more], self.image))

    def require(self, word):
        for options in self.runs():
            try:
                self.report(options, "--require", word)
            except xt.RequiredError as fault:
                raise Failed(fault.status.partition(" ")[2] + in_order(options), options) from fault

    def sends(self, text):
        wanted = codecs.decode(text.strip("'\""), "unicode_escape").encode("latin-1")
        for options in self.runs():
            sent = self.report(options).sent
            if sent != wanted:
                raise Failed(f"it sends {shown(sent)}{in_order(options)}", options)

    def leaves(self, value):
        name, *wanted = value.split()
        address = self.address(name)
        for options in self.runs():
            words = self.report(options, "--memory", f"0x{address:08X}:{len(wanted)}").memory[address]
            if words != [number(it) for it in wanted]:
                said = " ".join("-" if it is None else str(it) for it in words)
                raise Failed(f"it leaves {said}{in_order(options)}", options)

    # ---- Every order.

    def search(self):
        """What `outcomes` finds."""
        if self.found is None:
            words = [it for word in self.task.words for it in ("--word", f"0x{self.address(word):08X}")]
            asked = ["outcomes", *self.entry(), *words, "--states", STATES]
            self.found = xt.Outcomes.of(self.program.objects(asked, self.image))
        return self.found

    def ordered(self, order):
        """The options of the run in an order that `outcomes` printed."""
        turns = self.task.settings["turns"]
        return ["--order", order, *self.entry(), "--turns0", turns, "--turns1", turns]

    def every(self, word):
        found = self.search()
        if word == "one":
            self.looked_at_all(found)
            if len(found.outcomes) != 1:
                raise Failed(f"{len(found.outcomes)} outcomes")
        elif word == "whole":
            if found.frames != "whole":
                breach = next(iter(found.breaches), None)
                raise Failed(f"frames {found.frames}", breach and self.ordered(breach.order))
        else:
            what = "stuck" if word == "not-stuck" else "race"
            said = getattr(found, what)
            if said != "none":
                raise Failed(f"{what} {said}", None if said == "unknown" else self.ordered(said))

    def looked_at_all(self, found):
        if not found.is_all:
            raise Failed("the search ended with `some " + found.end + "`, so there may be more outcomes")

    def outcomes(self, value):
        found, wanted = self.search(), [tuple(map(number, it.split(","))) for it in value.split()]
        ends = {tuple(it.words.values()): it.order for it in found.outcomes}
        for words, order in ends.items():
            if words not in wanted:
                raise Failed(f"it can end with {listed(words)}, in the order {order}", self.ordered(order))
        self.looked_at_all(found)
        for words in wanted:
            if words not in ends:
                raise Failed(f"it never ends with {listed(words)}")

    # ---- The points.

    def passes(self, name, value):
        """Tries one check; ends with `Failed` if it is not passed."""
        if not self.is_made:
            raise Failed("it has a fault")
        if name in RUN:
            self.require(RUN[name])
        elif name != "assembles":
            getattr(self, name)(value)

    def grade(self):
        """The points, the lines on what is not passed, and the first run that shows it, or None."""
        got, lines, run = 0, [], None
        for points, name, value in self.task.checks:
            try:
                self.passes(name, value)
                got += points
            except Failed as it:
                lines.append(f"0 of {points}  {name} {value}".rstrip() + (f": {it.reason}" if self.is_made else ""))
                run = run or it.options
        return got, lines, run

    def why(self, options):
        """What bin/why says of a run."""
        names = [] if self.elf else ["--map", self.table]
        words = [TOP / "bin/why", self.elf or self.image, *names, *options]
        done = subprocess.run(words, capture_output=True, check=False)
        return done.stdout.decode(errors="replace").splitlines()


def listed(words):
    return ",".join(map(str, words)) or "this"


def in_order(options):
    """What a report says of its seed."""
    return f", with --seed {options[1]}" if "--turns1" in options and options[-1] != "0" else ""


def shown(data):
    """Bytes as a text, cut if they are many."""
    text = repr(data.decode("latin-1"))
    return text if len(text) <= 60 else f"{text[:56]}..{text[-1]}"


def called(*words):
    return subprocess.run([TOP / "bin/xt", *words], stdin=subprocess.DEVNULL, capture_output=True, check=False)


def readable(path):
    return Path(path) if os.path.isfile(path) else refuse(66, f"there is no file {path} that can be read")


def answers(paths):
    """The files of the words; of a folder its texts and ELF executables."""
    for path in map(Path, paths):
        if path.is_dir():
            yield from sorted(it for it in path.iterdir() if it.suffix in (".s", ".elf"))
        else:
            yield readable(path)


def main():
    if len(sys.argv) < 3 or sys.argv[1].startswith("-"):
        refuse(64, "usage: python3 examples/grade.py TASK FILE..")
    task, program, count, full = Task(sys.argv[1]), xt.Program(), 0, 0
    with tempfile.TemporaryDirectory() as room:
        for path in answers(sys.argv[2:]):
            answer = Answer(task, path, room, program)
            got, lines, run = answer.grade()
            count, full = count + 1, full + (got == task.points)
            print(f"{path}: {got} of {task.points}")
            lines += [it for it in answer.said if not it.startswith("xt: unproved")]
            lines += answer.why(run) if run else []
            print("".join(f"    {it}\n" for it in lines), end="")
    print(f"{count} answers, {full} of them with all points")
    return int(full < count)


if __name__ == "__main__":
    sys.exit(run_main(main))
