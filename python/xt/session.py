"""A session: one `xt replay -`, which reads a recording once and walks its run by scripts."""
from __future__ import annotations

import shutil
import subprocess
import tempfile
import threading
from dataclasses import dataclass, field
from typing import Any, Optional, Sequence

from . import lines
from .errors import UsageError, error_of
from .lines import Object
from .program import Data, Program, opened
from .report import kind, rest
from .turns import Turn, Window

MOST = 64  # bytes or words that one command of a script prints


@dataclass(frozen=True)
class Registers:
    """The registers of a core between two steps; `a` are a0 to a15."""

    core: int
    step: int
    pc: int
    ps: int
    window: Window
    a: tuple[int, ...] = ()


@dataclass(frozen=True)
class RingWindow:
    """Four registers of the ring, a0 to a3 of window `number`: whether it is WINDOWBASE, and
    whether a frame begins in it."""

    number: int
    values: tuple[int, ...]
    base: bool
    start: bool


@dataclass(frozen=True)
class Frame:
    """A call that a core is in. `pc` is where it goes on, None if that is not known; `size` its
    bytes of stack from `sp` on; `call` 4, 8 or 12 for the CALL to the next frame, None of the
    innermost."""

    callers: int
    pc: Optional[int]
    sp: int
    size: int
    call: Optional[int] = None


@dataclass(frozen=True)
class Memory:
    """Bytes of memory from an address on; None for one that is neither memory nor constant."""

    address: int
    bytes: list[Optional[int]] = field(default_factory=list)

    def __getitem__(self, address: int) -> Optional[int]:
        """The byte at an address."""
        at = address - self.address
        if not 0 <= at < len(self.bytes):
            raise IndexError(f"{address:08X}")
        return self.bytes[at]

    def word(self, address: int) -> Optional[int]:
        """The word that begins at an address; its first byte is the lowest."""
        parts = [self[address + i] for i in range(4)]
        if None in parts:
            return None
        return int.from_bytes(bytes(it or 0 for it in parts), "little")


class Session:
    """A recorded run, and a position in it: a number of steps of both cores together.

    A move that the run does not allow gives False, and the position stays. Several threads may
    `ask` at the same time.
    """

    def __init__(self, recording: Data, program: Optional[Program] = None) -> None:
        self.program = program or Program()
        self.position = 0
        self.asking = threading.Lock()
        self.said = tempfile.TemporaryFile()
        self.child = subprocess.Popen(
            [self.program.path, "replay", "--lenient", "-"],
            stdin=subprocess.PIPE, stdout=subprocess.PIPE, stderr=self.said,
        )
        assert self.child.stdin is not None and self.child.stdout is not None
        self.source, self.sink = self.child.stdout, self.child.stdin
        with opened(recording) as file:
            size = file.seek(0, 2)
            file.seek(0)
            try:
                self.sink.write(b"%d\n" % size)
                shutil.copyfileobj(file, self.sink)
            except BrokenPipeError:
                pass  # `ask` says why

    def __enter__(self) -> Session:
        return self

    def __exit__(self, *_: Any) -> None:
        self.close()

    def close(self) -> None:
        """Ends the session."""
        try:
            self.sink.close()
        except BrokenPipeError:
            pass
        self.source.close()
        self.child.wait()
        self.said.close()

    # ---- Scripts. Each begins at position 0.

    def ask(self, script: str) -> list[str]:
        """The lines that a script prints."""
        found: list[str] = []
        with self.asking:
            try:
                self.sink.write(script.encode() + b"\n")
                self.sink.flush()
                for line in self.source:
                    if line == b".\n":
                        break
                    found.append(line[:-1].decode())
                else:
                    raise BrokenPipeError
            except BrokenPipeError:
                raise self.end() from None
        if found == ["Usage 9"]:
            raise UsageError(64, found[0])
        return found

    def end(self) -> Exception:
        """The error with which the program has ended."""
        code = self.child.wait()
        self.said.seek(0)
        return error_of(code or 70, self.said.read().decode(errors="replace"))

    def read(self, script: str) -> list[Object]:
        """The lines that a script prints, as objects."""
        return lines.read_all(self.ask(script))

    def here(self, command: str) -> list[Object]:
        """What a command prints at this position."""
        return self.read(f"next {self.position};{command}")

    # ---- Moves.

    def steps(self, script: str = "") -> Optional[tuple[int, int]]:
        """The next steps of both cores where a script ends, by default this position; None if a
        command of it did not come where it should."""
        rows = self.read((script or f"next {self.position}") + ";regs 0;regs 1")
        if any(it["line"] in ("past end", "none") for it in rows):
            return None
        first, second = list(kind(rows, "state"))[-2:]
        return first["step"], second["step"]

    def move(self, script: str) -> bool:
        """Goes where a script ends."""
        steps = self.steps(script)
        if steps is None:
            return False
        self.position = sum(steps)
        return True

    def go(self, core: int, step: int) -> bool:
        """Goes directly before a step of a core."""
        return self.move(f"go {core} {step}")

    def next(self, count: int = 1) -> bool:
        """Goes positions on."""
        return self.move(f"next {self.position};next {count}")

    def back(self, count: int = 1) -> bool:
        """Goes positions back."""
        return self.move(f"next {self.position};back {count}")

    def end_of_run(self) -> bool:
        """Goes directly after the last step."""
        return self.move("end")

    def break_at(self, core: int, *addresses: int) -> bool:
        """Goes to the next position at which a core is to execute the instruction at one of these
        addresses."""
        places = ",".join(f"0x{it:08X}" for it in addresses)
        return self.move(f"next {self.position};break {core} {places}")

    def watch(self, address: int) -> bool:
        """Goes directly after the next step that stores into the word at an address."""
        return self.move(f"next {self.position};watch 0x{address:08X}")

    # ---- What is at this position.

    def registers(self, core: int) -> Registers:
        return registers_of(self.here(f"regs {core}"))[0]

    def ring(self, core: int) -> list[RingWindow]:
        """The ring of 64 registers, four in each of its windows."""
        rows = kind(self.here(f"ring {core}"), "ring")
        return [RingWindow(**{**rest(it), "values": tuple(it["values"])}) for it in rows]

    def special(self, core: int) -> dict[str, int]:
        """The special registers by their names."""
        return {it["name"]: it["value"] for it in kind(self.here(f"special {core}"), "special")}

    def memory(self, address: int, count: int) -> Memory:
        """Bytes of memory."""
        spans = [(at, min(MOST, count - at)) for at in range(0, count, MOST)]
        commands = ";".join(f"mem 0x{address + at:08X} {size}" for at, size in spans)
        rows = kind(self.here(commands), "mem") if count else iter(())
        return Memory(address, [it for row in rows for it in row["bytes"]])

    def words(self, address: int, count: int) -> list[Optional[int]]:
        """Words of memory; None for one with a byte that is neither memory nor constant."""
        spans = [(at, min(MOST, count - at)) for at in range(0, count, MOST)]
        commands = ";".join(f"words 0x{address + 4 * at:08X} {size}" for at, size in spans)
        rows = kind(self.here(commands), "words") if count else iter(())
        return [it for row in rows for it in row["words"]]

    def depth(self, core: int) -> Optional[int]:
        """How many calls deep a core is; None if a handler does not pass its check, or after a
        breach."""
        return self.here(f"frames {core}")[-1]["depth"]

    def calls(self, core: int) -> Optional[list[Frame]]:
        """The calls that a core is in, the innermost first; None likewise."""
        rows = self.here(f"calls {core}")
        return calls_of(rows)

    def trace(self, count: int) -> list[Turn]:
        """The turns of the next positions, at which this stays; none if the run ends before that.
        """
        rows = self.here(f"trace {count}")
        return [Turn.of(it) for it in kind(rows, "turn")]


def registers_of(rows: Sequence[Object]) -> list[Registers]:
    """The registers in what `regs C` prints, of each in its order."""
    found: list[Registers] = []
    for at, it in enumerate(rows):
        if it["line"] == "state":
            values = tuple(value for row in rows[at + 1:at + 5] for value in row["values"])
            window = Window(**it["window"])
            found.append(Registers(it["core"], it["step"], it["pc"], it["ps"], window, values))
    return found


def calls_of(rows: Sequence[Object]) -> Optional[list[Frame]]:
    """The calls in what `calls C` prints."""
    if any(it["line"] == "callers" and "answer" in it for it in rows):
        return None
    return [Frame(**rest(it)) for it in kind(rows, "frame")]
