"""What bin/why says of orders with moments, in which each armed timer may fire before any turn of its core: what
`outcomes --any-time` finds, and for each outcome the moments that lead there, with the lines before which they come.
"""
import sys
from collections import Counter, defaultdict
from concurrent.futures import ThreadPoolExecutor

import package  # noqa: F401
import xt
from xt import stack
from xt.errors import UsageError, XtError
from xt.outcomes import moments_of
from xt.report import kind

STATES = 1000000  # how many states `outcomes` keeps at most
FEW_STATES = 20000  # the same of the program that is not proved
MOST_WORDS = 4  # of an outcome
MOST_SHOWN = 8  # outcomes whose moments are looked up
SHARED = ("--entry1", "--vecbase", "--stack0", "--stack1")  # options of a run that `outcomes` takes as well


def is_end(turn):
    """Whether a turn is the last one of an interrupt."""
    return turn["event"] == "insn" and turn.get("instruction", "").startswith(("rfe", "rfi "))


def lost_bytes(turns, own):
    """Of each store of code that is no interrupt's, by its address and the program counters of the load before it and of
    it, the numbers of the interrupts between both that stored into a byte which both have. Without the core's own stack."""
    inside, number, lost = False, 0, defaultdict(set)
    stored, loaded, pending = set(), {}, {}  # bytes: of this interrupt; where they were loaded; and before which interrupt
    for turn in turns:
        access = turn.get("access")
        if turn["event"] == "int":
            inside, stored, number = True, set(), number + 1
        elif inside and is_end(turn):
            inside = False
            pending.update({byte: (loaded[byte], number) for byte in stored if byte in loaded})
        elif access and not own[0] <= access["address"] < own[1]:
            address, pc = access["address"], turn["pc"]
            touched = range(address, address + access["size"])
            if inside:
                stored.update(touched if access["kind"] != "load" else ())
                continue
            for byte in touched:
                if access["kind"] == "store" and byte in pending:
                    lost[address, pending[byte][0], pc].add(pending[byte][1])
                pending.pop(byte, None)
                loaded.pop(byte, None)
                if access["kind"] == "load":
                    loaded[byte] = pc
    return lost


def stored_words(turns, own):
    """How often each word outside a core's own stack is stored into: by its other code, and by its interrupts."""
    inside, counts = False, (Counter(), Counter())
    for turn in turns:
        access = turn.get("access")
        if turn["event"] == "int":
            inside = True
        elif inside and is_end(turn):
            inside = False
        elif access and access["kind"] != "load" and not own[0] <= access["address"] < own[1]:
            if access["address"] >> 12 != 0x3FF40:  # what is sent is an outcome anyway
                counts[inside][access["address"] & ~3] += 1
    return counts


class Moments:
    """The orders with moments of the image of a run. `words` are addresses that belong to an outcome; where none are
    given, those are taken that both interrupts and other code store into in the run, or if there are none, any that are
    stored into."""

    def __init__(self, run, names, words):
        self.run, self.names = run, names
        self.words = words or self.chosen()
        self.states = FEW_STATES if run.program.is_unproved else STATES

    def chosen(self):
        """The words of the run that are stored into most often."""
        both, every = Counter(), Counter()
        for core in (0, 1):
            turns = self.run.program.objects(["trace", "--core", str(core)], self.run.recording)
            other, interrupts = stored_words(turns, self.run.stacks[core])
            every += other + interrupts
            both.update({word: every[word] for word in other.keys() & interrupts.keys()})
        return sorted(word for word, _ in (both or every).most_common(MOST_WORDS))

    def asked(self, show=None):
        """What `outcomes` says, with the turns of one order if it is named."""
        given = zip(self.run.options[::2], self.run.options[1::2])
        words = [word for pair in given if pair[0] in SHARED for word in pair]
        for word in self.words:
            words += ["--word", "0x%08X" % word]
        words += ["--show", show] if show else []
        words = ["outcomes", "--any-time", *words, "--states", str(self.states)]
        return xt.Outcomes.of(self.run.program.objects(words, self.run.image))

    def found(self):
        """The finding."""
        if self.run.program.is_unproved:
            print("bin/why: looking at orders with moments, with at most %d states, by the program that is not proved"
                  % self.states, file=sys.stderr)
        it = {"kind": "moments", "answer": "some", "lack": "memory", "states": self.states, "time": None,
              "words": [self.named(word) for word in self.words], "ends": [], "stuck": None, "is_settled": False}
        try:
            every = self.asked()
        except UsageError:
            raise
        except XtError:
            return {**it, "finding": False}
        it["lack"] = None if every.is_all else every.end
        it["answer"] = "all" if every.is_all else "some"
        if every.uses_time:
            core, pc = every.uses_time
            it["time"] = {"core": core, "at": self.told_at(pc)}
        it["is_settled"] = every.stuck == "none"
        shows = [str(number + 1) for number in range(min(len(every.outcomes), MOST_SHOWN))]
        shows += [] if every.stuck in ("none", "unknown") else ["stuck"]
        with ThreadPoolExecutor(4) as pool:
            shown = dict(zip(shows, pool.map(lambda show: self.asked(show).shown, shows)))
        for number, end in enumerate(every.outcomes, 1):
            it["ends"].append({
                "hex": end.sent.hex(), "pcs": [stop.pc for stop in end.stops],
                "values": [end.words[word] for word in self.words],
                **self.told(end.order, shown.get(str(number)))})
        if "stuck" in shown:
            it["stuck"] = self.told(every.stuck, shown["stuck"])
        return {**it, "finding": bool(it["stuck"] or any(end["lost"] for end in it["ends"]))}

    def told(self, order, turns):
        """An order, its moments, and what is lost by them; without lines where its turns were not looked up."""
        moments = [self.moment(it, turns or []) for it in moments_of(order)]
        lost = []
        for core in (0, 1):
            rows = [turn for turn in turns or () if turn["core"] == core]
            lost += [{"core": core, **self.named(address), "load": self.told_at(load), "store": self.told_at(store)}
                     for address, load, store in lost_bytes(rows, self.run.stacks[core])]
        return {"order": order, "moments": moments, "lost": lost}

    def moment(self, it, turns):
        """A moment with the lines of the step before which the timer fires; or, if its core makes no turn after it, of
        the step after which it does."""
        own = {turn["step"]: turn for turn in turns if turn["core"] == it.core}
        is_last = bool(turns) and it.step not in own
        step = it.step - 1 if is_last else it.step
        turn = own.get(step)
        calls = stack.told(self.names, [stack.Call(turn["pc"], None, 0, False)]) if turn else []
        return {"core": it.core, "timer": it.timer, "step": step, "is_after": is_last, "calls": calls,
                "instruction": turn.get("instruction") if turn else None}

    def named(self, address):
        name, offset = self.names.of(address)
        return {"address": address, "name": name, "offset": offset if name else None}

    def told_at(self, pc):
        """An instruction with its line."""
        place = self.names.place(pc)
        return stack.Told(place, self.names.source(place.place), pc, None)
