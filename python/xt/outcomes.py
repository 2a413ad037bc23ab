"""What `outcomes` prints: the ways in which two cores can both end (docs/OUTCOMES.md)."""
from __future__ import annotations

from dataclasses import dataclass, field
from typing import Iterable, Optional

from .errors import LineError
from .lines import Object
from .report import Stop, kind, rest
from .turns import Turn


@dataclass(frozen=True)
class Outcome:
    """One way to end: what was sent, how each core ended, words of memory, and an order for it."""

    sent: bytes
    stops: list[Stop]
    words: dict[int, int]
    order: str


@dataclass(frozen=True)
class Moment:
    """A timer of a core that fires, before the core's step of this number. Before it the order has
    so many turns of both cores."""

    core: int
    timer: int
    step: int
    position: int


def moments_of(order: str) -> list[Moment]:
    """The moments of an order that `outcomes --any-time` prints."""
    found, steps = [], [0, 0]
    for part in order.split(","):
        core, timer = int(part[0]), part[2:] if part[1] == "!" else ""
        if timer:
            found.append(Moment(core, int(timer), steps[core], sum(steps)))
        else:
            steps[core] += int(part[2:])
    return found


@dataclass(frozen=True)
class OrderBreach:
    """A first breach, and the order of the run that has it."""

    kind: str
    core: int
    pc: int
    order: str


@dataclass
class Outcomes:
    """All outcomes. `stuck` and `race` are an order, or `none` or `unknown`; `frames` is `whole`,
    `none`, `unknown` or `broken`, then with breaches; `end` is `all`, `frames`, `states` or `time`.
    `shown` has the turns of the order that `--show` names, as objects."""

    outcomes: list[Outcome] = field(default_factory=list)
    stuck: str = "unknown"
    race: str = "unknown"
    race_turns: list[Turn] = field(default_factory=list)
    frames: str = "unknown"
    breaches: list[OrderBreach] = field(default_factory=list)
    end: str = ""
    uses_time: Optional[tuple[int, int]] = None  # a core and its pc, where `end` is `time`
    shown: list[Object] = field(default_factory=list)

    @property
    def is_all(self) -> bool:
        """Whether every order was looked at; after `some frames` only for breaches they were not all."""
        return self.end in ("all", "frames")

    @classmethod
    def of(cls, lines: Iterable[Object]) -> Outcomes:
        rows = list(lines)
        end = next((at for at, it in enumerate(rows) if it["line"] == "end"), None)
        if end is None:
            raise LineError("no text of outcomes")
        rows, shown = rows[: end + 1], rows[end + 1 :]
        heads = {it["line"]: it for it in rows}
        made = cls(outcomes_of(rows), end=heads["end"]["answer"], shown=shown)
        for name in ("stuck", "race"):
            it = heads[name]
            setattr(made, name, it.get("order") or it["answer"])
        made.race_turns = [Turn.of(it) for it in kind(rows, "turn")]
        made.frames = heads["frames"]["answer"]
        made.breaches = [OrderBreach(**rest(it)) for it in kind(rows, "breach")]
        if made.end == "time":
            made.uses_time = (heads["end"]["core"], heads["end"]["pc"])
        return made


def outcomes_of(rows: list[Object]) -> list[Outcome]:
    """The outcomes of a text: each from a line `outcome` to its line `order`."""
    found: list[Outcome] = []
    sent, stops, words = b"", [], {}
    for it in rows:
        if it["line"] == "outcome":
            sent, stops, words = bytes.fromhex(it["hex"]), [], {}
        elif it["line"] == "stop":
            stops.append(Stop(**rest(it)))
        elif it["line"] == "word":
            words[it["address"]] = it["value"]
        elif it["line"] == "order":
            found.append(Outcome(sent, stops, words, it["order"]))
    return found
