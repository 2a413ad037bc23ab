"""What `run` and the commands over recordings print: the report of a run, and its parts."""
from __future__ import annotations

import io
from dataclasses import dataclass, field
from typing import Iterable, Iterator, Optional

from .errors import LineError
from .lines import Object, objects, whole
from .turns import Turn


@dataclass(frozen=True)
class Stop:
    """How a core ended: `stop` is `break` or `turns`. `outcomes` says no number of turns."""

    core: int
    stop: str
    turns: Optional[int] = None
    pc: Optional[int] = None


@dataclass(frozen=True)
class Handler:
    """Whether a window handler does its work, and else at which of its bytes it does not."""

    passes: bool
    byte: Optional[int] = None


@dataclass(frozen=True)
class Breach:
    """The first step that breaks a rule, of the stack or of uses."""

    kind: str
    core: int
    step: int


@dataclass(frozen=True)
class Verdict:
    """What is said of a whole run: `none`, `whole`, or `breach` with the breach; of `uses` also how
    many steps of each core carried what is not known."""

    answer: str
    breach: Optional[Breach] = None
    carried: tuple[int, int] = (0, 0)

    @property
    def is_whole(self) -> bool:
        return self.answer == "whole"

    @classmethod
    def of(cls, it: Object) -> Verdict:
        if "answer" in it:
            return cls(it["answer"], None, (it.get("carried0", 0), it.get("carried1", 0)))
        return cls("breach", Breach(it["kind"], it["core"], it["step"]))


@dataclass(frozen=True)
class Register:
    """A register that a breach of `uses`, or a leak of `secrets`, reads: its value and which bits
    are known, or its mark."""

    register: int
    value: Optional[int] = None
    known: Optional[int] = None
    mark: Optional[int] = None


@dataclass(frozen=True)
class Uses:
    """What `uses` prints: its verdict, and of a breach its turn, its instruction and registers."""

    verdict: Verdict
    turn: Optional[Turn] = None
    instruction: str = ""
    registers: list[Register] = field(default_factory=list)


@dataclass(frozen=True)
class Leak:
    """The first turn that uses a bit which depends on a secret."""

    core: int
    step: int


@dataclass(frozen=True)
class Secrets:
    """What `secrets` prints: the leak with its turn, its instruction and registers; or that there
    is none, and how many turns of each core carried a secret."""

    leak: Optional[Leak] = None
    carried: tuple[int, int] = (0, 0)
    turn: Optional[Turn] = None
    instruction: str = ""
    registers: list[Register] = field(default_factory=list)

    @property
    def is_whole(self) -> bool:
        return self.leak is None


@dataclass(frozen=True)
class Event:
    """A kind of turn of a core: how often it came, and the step and the pc of the first."""

    core: int
    event: str
    times: int
    first: int
    pc: int
    number: Optional[int] = None


@dataclass(frozen=True)
class Race:
    """The first data race: two entries of the history, counted from 0, and their turns."""

    first: int
    second: int
    turns: list[Turn]


@dataclass(frozen=True)
class Calls:
    """The turns of a stack of calls, the outermost function first; `cut` if some are left out, and
    `after` if they come at or after the first breach."""

    core: int
    calls: tuple[int, ...]
    turns: int
    cut: bool = False
    after: bool = False


@dataclass(frozen=True)
class Others:
    """The turns of a core that no stack of calls has: window handlers' and those after a breach."""

    core: int
    handler_turns: int
    after_turns: Optional[int] = None
    after: bool = False


@dataclass(frozen=True)
class Profile:
    """What `profile` prints. `judged` is false if a window handler does not pass its check."""

    judged: bool
    calls: list[Calls]
    others: list[Others]

    @classmethod
    def of(cls, lines: Iterable[Object]) -> Profile:
        rows = list(lines)
        calls = [Calls(**{**rest(it), "calls": tuple(it["calls"])}) for it in kind(rows, "calls")]
        others = [Others(**rest(it)) for it in kind(rows, "others")]
        return cls(not list(kind(rows, "profile")), calls, others)


@dataclass(frozen=True)
class Count:
    """How often a core executed the instruction at an address, had an exception in its place, and,
    of a branch, went on at its target."""

    core: int
    pc: int
    executed: int
    raised: int
    taken: Optional[int] = None


@dataclass
class Report:
    """What `run` prints: what was sent, how each core ended, and what the options ask for
    besides."""

    sent: bytes = b""
    stops: list[Stop] = field(default_factory=list)
    accesses: int = 0
    handlers: dict[str, Handler] = field(default_factory=dict)
    frames: Verdict = Verdict("none")
    memory: dict[int, list[Optional[int]]] = field(default_factory=dict)
    events: list[Event] = field(default_factory=list)
    race: Optional[Race] = None
    profile: Optional[Profile] = None
    uses: Optional[Uses] = None
    secrets: Optional[Secrets] = None
    turns: list[Turn] = field(default_factory=list)

    @classmethod
    def of(cls, lines: Iterable[Object]) -> Report:
        """The report of the lines of `run`, in their order."""
        rows = list(lines)
        heads = {it["line"]: it for it in rows if it["line"] in ("uart", "history", "handlers")}
        if "uart" not in heads or "history" not in heads:
            raise LineError("no report of a run")
        made = cls(bytes.fromhex(heads["uart"]["hex"]), accesses=heads["history"]["accesses"])
        made.stops = [Stop(**rest(it)) for it in kind(rows, "stop")]
        found = heads.get("handlers", {"handlers": {}})["handlers"]
        made.handlers = {name: Handler(**it) for name, it in found.items()}
        made.frames = next((Verdict.of(it) for it in kind(rows, "frames")), made.frames)
        made.memory = {it["address"]: it["words"] for it in kind(rows, "words")}
        made.events = [Event(**rest(it)) for it in kind(rows, "events")]
        made.race, rows = race_of(rows)
        made.uses, rows = uses_of(rows)
        made.secrets, rows = secrets_of(rows)
        if any(it["line"] in ("profile", "others") for it in rows):
            made.profile = Profile.of(rows)
        made.turns = [Turn.of(it) for it in kind(rows, "turn")]
        return made

    @classmethod
    def parse(cls, data: bytes) -> Report:
        """The report of what `run` printed."""
        return cls.of(whole(objects(io.BytesIO(data))))

    def stop(self, core: int) -> Stop:
        """How a core ended."""
        return self.stops[core]


def kind(lines: Iterable[Object], name: str) -> Iterator[Object]:
    """The objects of one kind."""
    return (it for it in lines if it["line"] == name)


def rest(it: Object) -> Object:
    """The fields of an object."""
    return {name: value for name, value in it.items() if name != "line"}


def race_of(rows: list[Object]) -> tuple[Optional[Race], list[Object]]:
    """The race of a text, if it has one, and the text without its lines."""
    for at, it in enumerate(rows):
        if it["line"] == "race" and "first" in it:
            turns = [Turn.of(line) for line in rows[at + 1:at + 3]]
            return Race(it["first"], it["second"], turns), rows[:at] + rows[at + 3:]
    return None, rows


def uses_of(rows: list[Object]) -> tuple[Optional[Uses], list[Object]]:
    """What a text says of uses, if it does, and the text without its lines."""
    for at, it in enumerate(rows):
        if it["line"] != "uses":
            continue
        verdict = Verdict.of(it)
        if verdict.breach is None:
            return Uses(verdict), rows[:at] + rows[at + 1:]
        turn, instruction, registers, left = shown(rows[at + 1:])
        return Uses(verdict, turn, instruction, registers), rows[:at] + left
    return None, rows


def secrets_of(rows: list[Object]) -> tuple[Optional[Secrets], list[Object]]:
    """What a text says of secrets, if it does, and the text without its lines."""
    for at, it in enumerate(rows):
        if it["line"] != "secrets":
            continue
        if "step" not in it:
            return Secrets(carried=(it["carried0"], it["carried1"])), rows[:at] + rows[at + 1:]
        turn, instruction, registers, left = shown(rows[at + 1:])
        leak = Leak(it["core"], it["step"])
        return Secrets(leak, (0, 0), turn, instruction, registers), rows[:at] + left
    return None, rows


def shown(rows: list[Object]) -> tuple[Turn, str, list[Register], list[Object]]:
    """The turn, the instruction and the registers with which these lines begin, and the others."""
    turn, end, instruction, registers = Turn.of(rows[0]), 1, "", []
    if end < len(rows) and rows[end]["line"] == "instruction":
        instruction, end = rows[end]["instruction"], end + 1
    while end < len(rows) and rows[end]["line"] == "register":
        registers.append(Register(**rest(rows[end])))
        end += 1
    return turn, instruction, registers, rows[end:]
