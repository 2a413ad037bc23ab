"""The ends of xt without success: a status line and an exit code, as docs/STATUS.md lists them."""
from __future__ import annotations

from typing import Optional


class XtError(Exception):
    """The end of a program of xt.

    `code` is its exit code, `status` its line without `xt: `, `words` what follows the line's first
    word, as numbers where they are decimal numbers, and `answer` what it had printed before.
    """

    def __init__(self, code: int, status: str, answer: bytes = b"") -> None:
        super().__init__(status or f"ended with {code}")
        self.code, self.status, self.answer = code, status, answer
        words = status.split()[1:]
        self.words: list[int | str] = [int(it) if it.isdecimal() else it for it in words]

    def number(self, at: int) -> Optional[int]:
        """The number at a place among the words, or None."""
        it = self.words[at] if at < len(self.words) else None
        return it if isinstance(it, int) else None


class UsageError(XtError):
    """`Usage N`: the words are none that the command takes."""


class ImageError(XtError):
    """`Image ..`: the input is no image."""


class AsmError(XtError):
    """`Asm LINE COLUMN KIND`: the first fault of a text."""

    @property
    def line(self) -> Optional[int]:
        return self.number(0)

    @property
    def column(self) -> Optional[int]:
        return self.number(1)

    @property
    def kind(self) -> Optional[int]:
        return self.number(2)


class RecordingError(XtError):
    """`Recording ..`: the input is no recording of a run."""


class ReadFault(XtError):
    """`ReadFault`: standard input could not be read."""


class WriteFault(XtError):
    """`WriteFault`: standard output could not be written."""


class TooLargeError(XtError):
    """`TooLarge N`: the input has more than N bytes."""


class OutOfMemory(XtError):
    """`Memory`: there was too little memory."""


class ElfError(XtError):
    """`Elf ..`: the input is no ELF executable that can be loaded."""


class RequiredError(XtError):
    """`Required ..`: the run does not meet a word of `--require`; `answer` is the whole report."""


class PastEnd(XtError):
    """`PastEnd`: a command of a script led beyond the run; `answer` is what was printed before."""


class Missing(XtError):
    """There is no file that can be read, or no program that can be run: the reason is `status`."""


class LineError(ValueError):
    """A line that no text of xt has."""


BY_WORD: dict[str, type[XtError]] = {
    "Usage": UsageError,
    "Image": ImageError,
    "Asm": AsmError,
    "Recording": RecordingError,
    "ReadFault": ReadFault,
    "WriteFault": WriteFault,
    "TooLarge": TooLargeError,
    "Memory": OutOfMemory,
    "Elf": ElfError,
    "Required": RequiredError,
    "PastEnd": PastEnd,
}


def error_of(code: int, said: str, answer: bytes = b"") -> XtError:
    """The error that an exit code and the lines of standard error stand for: the last line `xt:
    ..` is the status line."""
    lines = [it[4:] for it in said.splitlines() if it.startswith("xt: ")]
    status = lines[-1] if lines else said.strip()
    kind = BY_WORD.get(status.split(" ", 1)[0], Missing if code in (66, 70) else XtError)
    return kind(code, status, answer)
