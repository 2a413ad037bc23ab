"""What bin/why says of other orders of the two cores' turns than that of its run: of all, if `outcomes` comes to the
end of its search, and else of some, which are run one by one.
"""
import sys
from concurrent.futures import ThreadPoolExecutor

import package  # noqa: F401
import xt
from xt.errors import UsageError, XtError
from xt.report import kind

STATES, QUIET = 200000, 20000  # how many states `outcomes` keeps at most: after a race, and without one
SEEDS, CLOSE = 12, 4  # seeds, and accesses of a core, that are tried
# The same of the program that is not proved, which takes some hundred times as long.
FEW_STATES, FEW_SEEDS = 2000, 4
MOST, CLOSER = 1000000, 50000  # turns of a run of which orders are looked at; of which close ones are tried
# The options of a run that `outcomes` takes as well.
SHARED = ("--entry1", "--vecbase", "--stack0", "--stack1")


def are_open(run, ends):
    """Whether other orders of a run are to be looked at: both cores have code of their own, nobody gave a list of turns,
    and the run is not too long. `ends` says in a word how each core ended."""
    turns = sum(it for _, it, _ in run.ends)
    return "--seed" in run.options and not {"idle", "absent"} & set(ends) and turns <= MOST


class Orders:
    """The orders of a run, of which `word` is the address of a data race, or None."""

    def __init__(self, run, word):
        self.run, self.word = run, None if word is None else word & ~3
        self.is_slow = run.program.is_unproved

    def found(self):
        """The finding."""
        states = FEW_STATES if self.is_slow else STATES if self.word is not None else QUIET
        if self.is_slow:
            print("bin/why: looking at orders of the two cores, with at most %d states, by the program that is not proved"
                  % states, file=sys.stderr)
        every, lack = self.every(states)
        it = {"kind": "orders", "answer": "some" if lack else "all", "lack": lack, "states": states, "tried": None,
              "word": self.word, "frames": every.frames if every else None, "sent": self.sent(every), "stuck": None,
              "race": None, "breaches": self.breaches(every), "unended": None}
        if every and every.race_turns and self.word is None:
            it["race"] = {"options": ["--order", every.race], "turns": every.race_turns}
        if not lack:
            it["stuck"] = None if every.stuck == "none" else ["--order", every.stuck]
        elif self.word is not None:
            self.add_tried(it)
        return it

    def every(self, states):
        """What `outcomes` says, if it says something; and why it did not look at all orders, or None."""
        given = zip(self.run.options[::2], self.run.options[1::2])
        words = [word for pair in given if pair[0] in SHARED for word in pair]
        words += ["--word", "0x%08X" % self.word] if self.word is not None else []
        try:
            found = xt.Outcomes.of(self.run.program.objects(["outcomes", *words, "--states", str(states)], self.run.image))
        except UsageError:
            raise
        except XtError:
            return None, "memory"
        return found, None if found.is_all else found.end

    def sent(self, every):
        """The texts that are sent, each with the word's value at the end and one order."""
        return [{"hex": it.sent.hex(), "value": it.words.get(self.word), "options": ["--order", it.order]}
                for it in (every.outcomes if every else ())]

    def breaches(self, every):
        """Where the rules of the stack are broken in other orders."""
        return [{"breach": it.kind, "core": it.core, "pc": it.pc, "options": ["--order", it.order]}
                for it in (every.breaches if every else ())]

    # ---- Some orders.

    def tried(self):
        """The words that say the order, of each that is tried."""
        words = [["--seed", str(number)] for number in range(1, (FEW_SEEDS if self.is_slow else SEEDS) + 1)]
        if sum(turns for _, turns, _ in self.run.ends) < CLOSER and not self.is_slow:
            words += [["--order", order] for order in self.close()]
        return words

    def close(self):
        """Orders in which a core has just made one of its first accesses to the word, and the other then makes some of its
        own; the first makes the rest of its accesses, the other all that is left, and then the first."""
        steps = []
        for core in (0, 1):
            words = ["trace", "--core", str(core), "--accesses"]
            turns = kind(self.run.program.objects(words, self.run.recording), "turn")
            steps.append([it["step"] + 1 for it in turns if it["access"]["address"] == self.word])
        for core in (0, 1):
            mine, others, other = steps[core], steps[1 - core], 1 - core
            for first in mine[:CLOSE]:
                for second in others[:CLOSE] + others[-1:]:
                    parts = (core, first, other, second, core, mine[-1] - first, other)
                    yield "%d*%d,%d*%d,%d*%d,%d*4000000" % parts

    def report_of(self, order):
        """The report of the run whose order these two words say."""
        options, at = self.run.options, self.run.options.index("--seed")
        words = [*options[:at], *order, *options[at + 2:], "--memory", "0x%08X:1" % self.word]
        return xt.Report.parse(self.run.call(["run", *words], self.run.image))

    def add_tried(self, it):
        """Adds to a finding what runs in some orders show."""
        tried = self.tried()
        with ThreadPoolExecutor(4) as pool:
            reports = list(pool.map(self.report_of, tried))
        have = {(found["hex"], found["value"]) for found in it["sent"]}
        own = self.run.report.frames.breach
        known = {(found["breach"], found["core"]) for found in it["breaches"]}
        known.update({(own.kind, own.core)} if own else ())
        it["tried"] = 0
        for options, report in zip(tried, reports):
            if any(stop.stop == "turns" and stop.turns for stop in report.stops):
                # A close order lets a core wait for one that gets no turn meanwhile, which says nothing.
                it["unended"] = it["unended"] or (options if "--seed" in options else None)
                continue
            it["tried"] += 1
            value = report.memory[self.word][0]
            if (report.sent.hex(), value) not in have:
                have.add((report.sent.hex(), value))
                it["sent"].append({"hex": report.sent.hex(), "value": value, "options": options})
            found = report.frames.breach
            if found and (found.kind, found.core) not in known:
                known.add((found.kind, found.core))
                it["breaches"].append({"breach": found.kind, "core": found.core, "pc": None, "options": options})
        it["sent"].sort(key=lambda sent: (sent["hex"], sent["value"] or 0))
