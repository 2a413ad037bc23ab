"""The calls that a core is in, also where the program cannot tell them: after a breach they are
read from the registers, the ring and the save areas. So they may be wrong in a program that has
broken its stack."""
from __future__ import annotations

from dataclasses import dataclass
from typing import NamedTuple, Optional, Sequence

from .lines import Object
from .names import Names, Place
from .report import kind
from .session import MOST, Session, calls_of, registers_of
from .turns import Turn

DEEPEST = 4000  # frames that are read
STARTS = ("_start", "second", "alone", "keep")  # functions of the start-up code of examples/c
ADDRESS = 0x3FFFFFFF  # the bits of a return address that are no size of a call


class Call(NamedTuple):
    """A frame: where it is, its stack pointer, None before its ENTRY, by how many groups of four
    registers it was called, 0 if nobody called it, and whether `pc` is an address to which
    another returns."""

    pc: int
    sp: Optional[int]
    call: int
    back: bool


class State:
    """Both cores directly before a step of one of them, and the turn of that step."""

    def __init__(
        self, session: Session, stacks: Sequence[tuple[int, int]], core: int, step: int
    ) -> None:
        self.session, self.stacks, self.core, self.step = session, stacks, core, step
        self.here = f"go {core} {step}"
        rows = session.read(f"{self.here};regs 0;regs 1;trace 1;special {core}")
        self.cores = registers_of(rows)
        own = (it for it in kind(rows, "turn") if it["core"] == core)
        self.turn = next((Turn.of(it) for it in own), None)
        self.special = {it["name"]: it["value"] for it in kind(rows, "special")}

    @property
    def text(self) -> str:
        """The instruction of the step."""
        return self.turn.instruction if self.turn else ""

    def calls(self, core: int) -> list[Call]:
        """The calls of a core, the innermost first."""
        at = self.cores[core]
        found = self.known(core) or self.read(core)
        pending = at.ps >> 16 & 3 if core == self.core and self.text.startswith("entry ") else 0
        if pending:
            # The call was made, and the ENTRY that makes its frame is next.
            back = at.a[4 * pending] & ADDRESS | at.pc & ~ADDRESS
            found[0] = found[0]._replace(pc=back, back=True)
            found.insert(0, Call(at.pc, None, pending, False))
        return found

    def known(self, core: int) -> list[Call]:
        """What `calls` prints of a core: its frames, or nothing if they are not known."""
        frames = calls_of(self.session.read(f"{self.here};calls {core}")) or []
        if any(it.pc is None for it in frames):
            return []
        sizes = [(it.call or 0) // 4 for it in frames[1:]] + [0]
        pairs = enumerate(zip(frames, sizes))
        return [Call(it.pc or 0, it.sp, size, i > 0) for i, (it, size) in pairs]

    def read(self, core: int) -> list[Call]:
        """The frames as the registers, the ring and the save areas have them."""
        spans = [
            f"words 0x{at:08X} {min(MOST, (high - at) // 4)}"
            for low, high in self.stacks
            for at in range(low, high, 4 * MOST)
        ]
        rows = self.session.read(";".join([self.here, f"ring {core}", *spans]))
        ring = {it["number"]: it for it in kind(rows, "ring")}
        words = {
            it["address"] + 4 * i: word
            for it in kind(rows, "words")
            for i, word in enumerate(it["words"])
            if word is not None
        }
        at = self.cores[core]
        found: list[Call] = []
        pc, back, window, (a0, a1) = at.pc, False, at.window.base, at.a[:2]
        in_ring, moved = True, 0
        while len(found) < DEEPEST:
            size = a0 >> 30
            found.append(Call(pc, a1, size, back))
            pc, back = a0 & ADDRESS | at.pc & ~ADDRESS, True
            if size == 0:
                break
            moved += size
            window = (window - size) % 16
            if in_ring and moved < 16 and ring[window]["start"]:
                a0, a1 = ring[window]["values"][:2]
                continue
            in_ring = False
            below = a1
            if a1 - 16 not in words or a1 - 12 not in words:
                break
            a0, a1 = words[a1 - 16], words[a1 - 12]
            if a1 < below:
                break
        return found


# ---- Calls in words.


@dataclass(frozen=True)
class Told:
    """A call with its names: where it is, the text of that line, its address and its stack pointer,
    None before its ENTRY."""

    place: Place
    text: str
    pc: int
    sp: Optional[int]

    @property
    def fields(self) -> Object:
        """The same as an object of docs/FORMATS.md."""
        return {**self.place.fields, "text": self.text or None, "pc": self.pc, "sp": self.sp}


def told(names: Names, calls: Sequence[Call]) -> list[Told]:
    """Calls with names and lines, without calls by the start-up code and below. A call that the
    compiler put in place of a function's code has several."""
    shown: list[Call] = []
    for it in calls:
        if it.pc & ADDRESS == 0 or (shown and names.of(it.pc)[0] in STARTS):
            break
        shown.append(it)
    # A return address is behind the call; an ENTRY without a line of its own has that of the next
    # instruction.
    found = names.lines([it.pc - 1 if it.back else it.pc for it in shown])
    if found and not found[0][0].place:
        after = names.lines([shown[0].pc + 3])
        found[:1] = after if after[0][0].place else found[:1]
    return [
        Told(place, names.source(place.place), it.pc, it.sp)
        for it, places in zip(shown, found)
        for place in places
    ]


def shown(calls: Sequence[Told], effect: str = "") -> list[str]:
    """The lines that show calls, with what the step does behind the innermost. A function that
    calls itself from the same line has one line."""
    wide = max([len(it.place.function) for it in calls] or [0]) + 2
    far = max([len(it.place.short) for it in calls] or [0]) + 2
    made, number = [], 0
    for i, it in enumerate(calls):
        number += 1
        following = calls[i + 1] if i + 1 < len(calls) else None
        if i and following and following.place == it.place:
            continue
        source = it.text
        text = source if len(source) <= 72 else source[:70] + ".."
        times = f"({number} times)" if number > 1 else ""
        line = f"          {it.place.function:{wide}}{it.place.short:{far}}"
        line += "  ".join(part for part in (text, times) if part)
        if i == 0 and effect:
            line = f"{line:60}  {effect}" if source else line + effect
        made.append(line.rstrip())
        number = 0
    return made
