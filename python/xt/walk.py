"""Walks over a recorded run, by instructions and by lines, forwards and backwards: what bin/debug
and bin/dap do over the commands of a session."""
from __future__ import annotations

from dataclasses import dataclass, field
from typing import Callable, Iterator, Optional

from . import stack
from .conditions import Condition
from .lines import Object
from .names import Names, Place
from .recording import Recording
from .report import kind
from .session import Session

FEWEST, MOST = 256, 32768  # turns that are read at a time
VECTORS = 0x400  # bytes of the handlers from VECBASE on


@dataclass(frozen=True)
class Hit:
    """A position at which a run stops: why, as the Debug Adapter Protocol names it, which core, and
    what is to be said of it."""

    position: int
    reason: str
    core: int
    text: str = ""


@dataclass
class Stops:
    """Where a run stops: before instructions at addresses, always or where one of some conditions
    holds; after stores into words; and at positions that are known."""

    addresses: dict[int, list[Condition]] = field(default_factory=dict)
    words: set[int] = field(default_factory=set)
    points: list[Hit] = field(default_factory=list)


class Walker:
    """Moves the position of a session. A move that the run does not allow gives False, and the
    position stays. Moves by lines also stop before the instructions at `breaks`, of either core."""

    def __init__(self, session: Session, parts: Recording, names: Names) -> None:
        self.session, self.parts, self.names = session, parts, names
        self.cores = [core for core in (0, 1) if parts.options[f"turns{core}"]] or [0]
        self.places: dict[int, Place] = {}
        self.breaks: dict[int, list[Condition]] = {}

    # ---- Where the run is.

    def step_number(self, core: int) -> int:
        """The number of a core's next step."""
        steps = self.session.steps()
        assert steps is not None
        return steps[core]

    def state(self, core: int) -> stack.State:
        """Both cores directly before the next step of a core."""
        return stack.State(self.session, self.parts.stacks, core, self.step_number(core))

    def place(self, core: int) -> Place:
        """The function and the line of a core's next instruction."""
        return self.place_of(self.session.registers(core).pc)

    def place_of(self, pc: int) -> Place:
        """The function and the line of an instruction."""
        if pc not in self.places:
            self.look_up([pc])
        return self.places[pc]

    def look_up(self, addresses: list[int]) -> None:
        """Looks up lines of addresses, all together."""
        new = [pc for pc in dict.fromkeys(addresses) if pc not in self.places]
        self.places |= {pc: found[0] for pc, found in zip(new, self.names.lines(new))}

    def is_handler(self, pc: int) -> bool:
        """Whether an address is that of a window handler or of a vector."""
        return self.parts.vecbase <= pc < self.parts.vecbase + VECTORS

    def core_next(self) -> Optional[int]:
        """The core that makes the next turn, None at the end of the run."""
        turns = self.read(self.session.position, 1)
        return turns[0]["core"] if turns else None

    # ---- Turns, of both cores, each with the position before it.

    def turns_ahead(self) -> Iterator[tuple[int, Object]]:
        """The turns of the run from here on."""
        position, size = self.session.position, FEWEST
        while size:
            turns = self.read(position, size)
            yield from enumerate(turns, position)
            position += len(turns)
            size = min(2 * size, MOST) if turns else size // 2

    def turns_back(self) -> Iterator[tuple[int, Object]]:
        """The turns of the run before here, the last one first."""
        position, size = self.session.position, FEWEST
        while position:
            count = min(size, position)
            position, size = position - count, min(2 * size, MOST)
            turns = self.read(position, count)
            yield from ((position + at, turns[at]) for at in range(len(turns) - 1, -1, -1))

    def read(self, position: int, count: int) -> list[Object]:
        """So many turns, none if the run ends before that; their lines are looked up together."""
        turns = list(kind(self.session.read(f"next {position};trace {count}"), "turn"))
        self.look_up([it["pc"] for it in turns])
        return turns

    # ---- By instructions.

    def step(self, core: int, count: int = 1) -> bool:
        """Steps of a core on."""
        return self.session.go(core, self.step_number(core) + count)

    def back(self, core: int, count: int = 1) -> bool:
        """Steps of a core back, or to its first."""
        return self.session.go(core, max(0, self.step_number(core) - count))

    # ---- By lines.

    def ahead(self, core: int, wanted: Callable[[int, int], bool]) -> bool:
        """Goes to the first later turn of a core that `wanted` is true of, told its address and the
        depth of calls. Handlers are passed over."""
        depth, is_first, start = 0, True, self.session.position
        for position, turn in self.turns_ahead():
            if position > start and self.stops_at(self.breaks, position, turn["core"], turn["pc"]):
                self.session.position = position
                return True
            if turn["core"] != core:
                continue
            pc, is_entry = turn["pc"], turn.get("instruction", "").startswith("entry ")
            # At its ENTRY a function's own frame is still to be made.
            if is_first:
                depth = -is_entry
            elif not self.is_handler(pc) and wanted(pc, depth + is_entry):
                self.session.position = position
                return True
            is_first = False
            depth += called(turn)
        return False

    def over(self, core: int) -> bool:
        """Goes to the next line of this function, or of its caller; without lines to the next
        instruction of one of them."""
        here = self.place(core)
        return self.ahead(core, lambda pc, depth: depth < 0 or (
            depth == 0 and (not here.place or self.place_of(pc) != here)))

    def into(self, core: int) -> bool:
        """Goes to the next line, also of a function that is called here; without lines to the next
        instruction."""
        here = self.place(core)
        if not here.place:
            return self.step(core)
        return self.ahead(core, lambda pc, _: self.has_other_line(pc, here))

    def has_other_line(self, pc: int, here: Place) -> bool:
        place = self.place_of(pc)
        return bool(place.place) and place != here

    def finish(self, core: int) -> bool:
        """Goes to where the function of a core has returned."""
        return self.ahead(core, lambda pc, depth: depth < 0)

    def back_line(self, core: int) -> bool:
        """Goes back to the beginning of this line, or if it is there to that of the line before
        it, in this function or in its caller; without lines to the instruction before."""
        depth, line, most, found = 0, Place("", ""), 0, None
        if self.state(core).text.startswith("entry "):
            most = 1
        for position, turn in self.turns_back():
            if turn["core"] != core:
                continue
            depth -= called(turn)
            if self.is_handler(turn["pc"]):
                continue
            at = depth + turn.get("instruction", "").startswith("entry ")
            place = self.place_of(turn["pc"])
            if found is None:
                if at > most:
                    continue
                line, most = place, at
            elif at < most or at == most and place != line:
                break
            elif at > most:
                continue
            found = position
            if not line.place:
                break
        if found is None:
            return False
        self.session.position = found
        return True

    # ---- To stops.

    def stops_at(self, breaks: dict[int, list[Condition]], position: int, core: int, pc: int) -> bool:
        """Whether a run stops at a position at which a core is next to execute the instruction at
        `pc`."""
        conditions = breaks.get(pc)
        if not conditions:
            return conditions is not None
        kept, self.session.position = self.session.position, position
        is_met = any(it.holds(self.session, core) for it in conditions)
        self.session.position = kept
        return is_met

    def forward(self, stops: Stops) -> Optional[Hit]:
        """Goes to the next stop; without one to the end of the run."""
        start, found = self.session.position, [it for it in stops.points]
        for address in stops.addresses:
            for core in self.cores:
                self.session.position = start
                while self.session.break_at(core, address):
                    if self.stops_at(stops.addresses, self.session.position, core, address):
                        found.append(Hit(self.session.position, "breakpoint", core))
                        break
        for word in stops.words:
            self.session.position = start
            if self.session.watch(word):
                core = self.read(self.session.position - 1, 1)[0]["core"]
                found.append(Hit(self.session.position, "data breakpoint", core))
        later = [it for it in found if it.position > start]
        self.session.position = start
        if not later:
            self.session.end_of_run()
            return None
        hit = min(later, key=lambda it: it.position)
        self.session.position = hit.position
        return hit

    def backward(self, stops: Stops) -> Optional[Hit]:
        """Goes back to the stop before here; without one to the beginning of the run."""
        start = self.session.position
        points = [it for it in stops.points if it.position < start]
        hit = max(points, key=lambda it: it.position, default=None)
        least = hit.position if hit else -1
        for position, turn in self.turns_back() if stops.addresses or stops.words else ():
            if position < least:
                break
            core = turn["core"]
            if position + 1 < start and stored(turn) in stops.words:
                hit = Hit(position + 1, "data breakpoint", core)
                break
            if position > least and self.stops_at(stops.addresses, position, core, turn["pc"]):
                hit = Hit(position, "breakpoint", core)
                break
        self.session.position = hit.position if hit else 0
        return hit


def called(turn: Object) -> int:
    """By how much a turn changes the depth of calls."""
    text = turn.get("instruction", "") if turn["event"] == "insn" else ""
    return text.startswith("entry ") - text.startswith("retw")


def stored(turn: Object) -> Optional[int]:
    """The word into which a turn stores, or None."""
    access = turn.get("access")
    if not access or access["kind"] == "load":
        return None
    if access["kind"] == "compare_and_swap" and access["reply"] != access["expect"]:
        return None
    word: int = access["address"] & ~3
    return word
