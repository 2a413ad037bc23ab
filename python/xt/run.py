"""A run: of an image or an ELF executable with options, or of a recording."""
from __future__ import annotations

import os
from dataclasses import dataclass, fields
from functools import cached_property
from typing import Generator, Iterator, Optional, Sequence, Union

from .names import Names, beside
from .outcomes import Outcomes
from .program import Data, Program, contents
from .recording import Recording
from .report import (
    Count, Event, Profile, Race, Report, Secrets, Uses, kind, race_of, rest, secrets_of, uses_of,
)
from .session import Session
from .turns import Turn

Stack = Union[tuple[int, int], str]
Places = Sequence[tuple[int, int]]


def places(**given: Places) -> list[str]:
    """Options that list places of memory, pairs of an address and a number, as words."""
    found: list[str] = []
    for name, pairs in given.items():
        if pairs:
            found += ["--" + name, ",".join(f"0x{at:08X}:{count}" for at, count in pairs)]
    return found


@dataclass(frozen=True)
class Options:
    """The options of `run` and `record`, as docs/HELP.txt has them; None leaves one out. A stack
    is a pair of its first address and its end; `require` are words of `--require`."""

    turns0: Optional[int] = None
    turns1: Optional[int] = None
    entry1: Optional[int] = None
    vecbase: Optional[int] = None
    stack0: Optional[Stack] = None
    stack1: Optional[Stack] = None
    seed: Optional[int] = None
    order: Optional[str] = None

    def words(self, *names: str) -> list[str]:
        """The options as words, all or those that are named."""
        found: list[str] = []
        for it in fields(self):
            value = getattr(self, it.name)
            if value is None or names and it.name not in names:
                continue
            if isinstance(value, tuple):
                value = ":".join(f"0x{address:08X}" for address in value)
            elif it.name in ("entry1", "vecbase"):
                value = f"0x{value:08X}"
            found += ["--" + it.name, str(value)]
        return found


class Run:
    """A run of an image, an ELF executable or a recording: bytes, or the name of a file.

    An image or an ELF executable takes options; without `seed` and `order` it has `seed=1`, so that
    each call speaks of the same run. A recording has its options already.
    """

    def __init__(self, data: Data, program: Optional[Program] = None,
                 names: Optional[Names] = None, **options: Union[int, str, Stack]) -> None:
        self.program = program or Program()
        self.path = "" if isinstance(data, bytes) else os.fspath(data)
        found = contents(data)
        self.is_recording = found[:4] == b"XTRC"
        self.options = Options(**options)  # type: ignore[arg-type]
        is_elf = found[:4] == b"\x7fELF"
        if self.is_recording:
            if options:
                raise ValueError("a recording has its options already")
            self.recording = found
            self.image = Recording(found).image
        else:
            if self.options.seed is None and self.options.order is None:
                self.options = Options(**{**options, "seed": 1})  # type: ignore[arg-type]
            self.image = self.program.elf(found) if is_elf else found
        self.given_names = Names(self.path) if names is None and is_elf and self.path else names

    @cached_property
    def recording(self) -> bytes:
        """The recording of the run."""
        return self.program.call(["record", *self.options.words()], self.image)

    @cached_property
    def parts(self) -> Recording:
        """The parts of the recording."""
        return Recording(self.recording)

    @cached_property
    def names(self) -> Names:
        """The names of the ELF file, or of the file of names beside the image or the recording."""
        if self.given_names is not None:
            return self.given_names
        return Names(*beside(self.path, self.image, self.program)) if self.path else Names()

    def session(self) -> Session:
        """A session over the run."""
        return Session(self.recording, self.program)

    # ---- Of the image.

    def report(self, *flags: str, memory: Places = (), secret: Places = (), public: Places = (),
               require: Sequence[str] = ()) -> Report:
        """The report of the run. `flags` are words of `events`, `race`, `profile`, `uses` and
        `trace`; `memory` are pairs of an address and a number of words, `secret` and `public` of
        an address and a number of bytes; if a word of `require` is not met, this ends with a
        `RequiredError`."""
        words = ["run", *self.again(), *(f"--{it}" for it in flags)]
        words += places(memory=memory, secret=secret, public=public)
        if require:
            words += ["--require", ",".join(require)]
        return Report.parse(self.program.call(words, self.image))

    def again(self) -> list[str]:
        """The options that make the same run again; of a recording none are known to."""
        if self.is_recording:
            raise ValueError("a recording does not say the order: make a Run of its image")
        return self.options.words()

    def outcomes(self, *words: int, timed: bool = False, any_time: bool = False,
                 show: Optional[str] = None, states: Optional[int] = None) -> Outcomes:
        """All ways in which the two cores can end; `words` are addresses that belong to an
        outcome."""
        asked = ["outcomes", *self.options.words("entry1", "vecbase", "stack0", "stack1")]
        if timed:
            asked += ["--timed", *self.options.words("turns0", "turns1")]
        asked += ["--any-time"] if any_time else []
        asked += [] if show is None else ["--show", show]
        asked += [it for word in words for it in ("--word", f"0x{word:08X}")]
        asked += [] if states is None else ["--states", str(states)]
        return Outcomes.of(self.program.objects(asked, self.image))

    def listing(self, *flags: str) -> Iterator[tuple[int, str]]:
        """The instructions of the image: addresses and texts. A flag is `flow`."""
        rows = self.program.objects(["dis", *(f"--{it}" for it in flags)], self.image)
        return ((it["pc"], it["instruction"]) for it in kind(rows, "instruction"))

    # ---- Of the recording.

    def trace(self, first: Optional[int] = None, last: Optional[int] = None,
              core: Optional[int] = None, accesses: bool = False, jumps: bool = False,
              frames: bool = False) -> Generator[Turn, None, None]:
        """The turns of both cores in one order, each as it comes; from a position up to one."""
        words = ["trace"]
        for name, value in (("from", first), ("to", last), ("core", core)):
            words += [] if value is None else [f"--{name}", str(value)]
        flags = (("accesses", accesses), ("jumps", jumps), ("frames", frames))
        words += [f"--{name}" for name, is_set in flags if is_set]
        for it in self.program.objects(words, self.recording):
            yield Turn.of(it)

    def events(self) -> list[Event]:
        """Which kinds of turns came, how often, and when first."""
        return [Event(**rest(it)) for it in self.program.objects(["events"], self.recording)]

    def counts(self) -> list[Count]:
        """How often each instruction was executed."""
        return [Count(**rest(it)) for it in self.program.objects(["counts"], self.recording)]

    def race(self) -> Optional[Race]:
        """The first data race, or None."""
        return race_of(list(self.program.objects(["race"], self.recording)))[0]

    def profile(self, depth: Optional[int] = None, after: bool = False) -> Profile:
        """How many turns each stack of calls has."""
        words = ["profile", *([] if depth is None else ["--depth", str(depth)])]
        return Profile.of(self.program.objects(words + ["--after"] * after, self.recording))

    def uses(self, lenient: bool = False) -> Uses:
        """The first breach of the stack's rules if unknown values may be carried."""
        rows = self.program.objects(["uses"] + ["--lenient"] * lenient, self.recording)
        found = uses_of(list(rows))[0]
        assert found is not None
        return found

    def secrets(self, secret: Places, public: Places = ()) -> Secrets:
        """The first turn that lets one of these secret bytes decide something, or that there is
        none; the places are pairs of an address and a number of bytes."""
        words = ["secrets", *places(secret=secret, public=public)]
        found = secrets_of(list(self.program.objects(words, self.recording)))[0]
        assert found is not None
        return found

