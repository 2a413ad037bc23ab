"""A line of `trace`: one turn of a core."""
from __future__ import annotations

from dataclasses import dataclass, field
from typing import Optional

from . import lines
from .errors import LineError


@dataclass(frozen=True)
class Write:
    """The visible register that a turn wrote, numbered in the window after the turn."""

    register: int
    value: int


@dataclass(frozen=True)
class Access:
    """What the bus served for a turn. `kind` is `load`, `store` or `compare_and_swap`; a load has a
    `reply`, a store a `value`, and a compare-and-swap `expect`, `new` and `reply`."""

    kind: str
    size: int
    address: int
    reply: Optional[int] = None
    value: Optional[int] = None
    expect: Optional[int] = None
    new: Optional[int] = None

    @property
    def stores(self) -> bool:
        """Whether memory is written: a store does, and a compare-and-swap that found what it
        expected."""
        return self.kind == "store" or (self.kind != "load" and self.reply == self.expect)

    @property
    def word(self) -> int:
        """The address of the word that holds it."""
        return self.address & ~3

    @property
    def bytes(self) -> range:
        """The addresses of its bytes."""
        return range(self.address, self.address + self.size)


@dataclass(frozen=True)
class Window:
    """WINDOWBASE and WINDOWSTART."""

    base: int
    start: int


@dataclass(frozen=True)
class Area:
    """The save area of a frame: its first byte, and how many it has."""

    address: int
    bytes: int


@dataclass(frozen=True)
class Known:
    """What the machine with unbounded frames knows of a core after a turn (`trace --frames`)."""

    depth: int
    areas: list[Area] = field(default_factory=list)
    unset: list[int] = field(default_factory=list)
    marks: dict[str, int] = field(default_factory=dict)


@dataclass(frozen=True)
class Turn:
    """A turn of a core, as a line of a trace tells it (docs/TRACE.md).

    `event` is `insn`, `window`, `exc`, `int`, `wait` or `stop`, and `number` what stands behind it.
    `frames` is what `--frames` prints; `has_frames` says whether it was asked for, so that with it
    `frames` None means `no frames`.
    """

    core: int
    step: int
    pc: int
    event: str
    number: Optional[int] = None
    write: Optional[Write] = None
    access: Optional[Access] = None
    instruction: str = ""
    window: Optional[Window] = None
    frames: Optional[Known] = None
    has_frames: bool = False

    @classmethod
    def of(cls, it: lines.Object) -> Turn:
        """The turn of an object `turn`."""
        parts = {name: value for name, value in it.items() if name != "line"}
        for name, kind in (("write", Write), ("access", Access), ("window", Window)):
            if name in parts:
                parts[name] = kind(**parts[name])
        if "frames" in parts:
            parts["has_frames"] = True
            known = parts["frames"]
            if known is not None:
                areas = [Area(**area) for area in known.get("areas", ())]
                parts["frames"] = Known(known["depth"], areas, known["unset"], known["marks"])
        return cls(**parts)

    @classmethod
    def parse(cls, line: str) -> Turn:
        """The turn of a line of a trace."""
        it = lines.read(line)
        if it is None or it["line"] != "turn":
            raise LineError(f"no line of a trace: {line}")
        return cls.of(it)

    @property
    def mnemonic(self) -> str:
        """The first word of the instruction."""
        return self.instruction.split(" ", 1)[0]

    @property
    def is_handler_entry(self) -> bool:
        """Whether a window exception, an exception or an interrupt came in this turn."""
        return self.event in ("window", "exc", "int")
