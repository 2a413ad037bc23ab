"""A recording, read from its bytes alone (docs/RECORDING.md). It checks no more than its lengths.
"""
from __future__ import annotations

import struct
from dataclasses import dataclass, field
from typing import Iterator

from .program import Data, contents
from .turns import Access

KINDS = ("load", "store", "compare_and_swap")
OPTIONS = "turns0 turns1 entry1 vecbase low0 high0 low1 high1".split()
ENTRY, CHECKPOINT = 20, 353152  # bytes of each
MEMORIES = ((0x3FF80000, 0x3FF82000), (0x3FFAE000, 0x40000000), (0x50000000, 0x50002000))


@dataclass(frozen=True)
class Entry:
    """An access of a core, in the order of the bus."""

    core: int
    access: Access

    def __str__(self) -> str:
        """The access as a trace prints it."""
        it = self.access
        if it.kind == "load":
            return f"ld{it.size} {it.address:08X} -> {it.reply:08X}"
        if it.kind == "store":
            return f"st{it.size} {it.address:08X} {it.value:08X}"
        return f"cas {it.address:08X} {it.expect:08X} {it.new:08X} -> {it.reply:08X}"


@dataclass(frozen=True)
class Checkpoint:
    """The state of a run at a position: the entries before it, and the bytes that hold the rest."""

    position: int
    entries: int
    data: bytes = field(repr=False)


class Recording:
    """The parts of a recording; entries and checkpoints are read when they are asked for."""

    def __init__(self, data: Data) -> None:
        self.data = contents(data)
        if len(self.data) < 12 or self.data[:4] != b"XTRC":
            raise ValueError("no recording")
        self.version, length = struct.unpack_from("<II", self.data, 4)
        if self.version not in (1, 2):
            raise ValueError(f"a recording of version {self.version}")
        place = 12 + length
        if len(self.data) < place + 36:
            raise ValueError("a recording that is cut off")
        self.image = self.data[12:place]
        self.options = dict(zip(OPTIONS, struct.unpack_from("<8I", self.data, place)))
        self.count, = struct.unpack_from("<I", self.data, place + 32)
        self.first = place + 36
        self.after = self.first + ENTRY * self.count
        self.points = 0
        end = self.after
        if self.version == 2 and len(self.data) >= self.after + 4:
            self.points, = struct.unpack_from("<I", self.data, self.after)
            end = self.after + 4 + CHECKPOINT * self.points
        if end != len(self.data) or (self.version == 2 and end == self.after):
            raise ValueError(f"{len(self.data)} bytes, not {end}")

    @property
    def stacks(self) -> tuple[tuple[int, int], tuple[int, int]]:
        """The first address and the end of the stack of each core."""
        it = self.options
        return (it["low0"], it["high0"]), (it["low1"], it["high1"])

    @property
    def vecbase(self) -> int:
        return self.options["vecbase"]

    def rows(self) -> Iterator[tuple[int, ...]]:
        """The entries as core, kind, size, address, a, b and reply."""
        return struct.iter_unpack("<BBBxIIII", self.data[self.first:self.after])

    @property
    def entries(self) -> list[Entry]:
        return [entry(row) for row in self.rows()]

    @property
    def checkpoints(self) -> list[Checkpoint]:
        found = []
        for at in range(self.points):
            place = self.after + 4 + CHECKPOINT * at
            data = self.data[place:place + CHECKPOINT]
            found.append(Checkpoint(*struct.unpack_from("<II", data), data))
        return found


def entry(row: tuple[int, ...]) -> Entry:
    """The entry of a row."""
    core, kind, size, address, a, b, reply = row
    name = KINDS[kind]
    if name == "load":
        return Entry(core, Access(name, size, address, reply=reply))
    if name == "store":
        return Entry(core, Access(name, size, address, value=a))
    return Entry(core, Access(name, size, address, expect=a, new=b, reply=reply))
