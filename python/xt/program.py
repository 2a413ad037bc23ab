"""The program xt: where it is, and how a command of it is run."""
from __future__ import annotations

import os
import shutil
import subprocess
import tempfile
from pathlib import Path
from typing import IO, Iterator, Sequence, Union

from .errors import Missing, error_of
from .lines import Object, objects, whole

Data = Union[bytes, str, "os.PathLike[str]"]
# The clone or the archive, if the package lies in one.
CLONE = Path(__file__).resolve().parents[2]


def which() -> str:
    """The path of the program: what the variable XT names; else the program of the clone or
    archive in which this package lies, which is compiled first if it is not there; else `xt` of
    PATH."""
    named = os.environ.get("XT")
    if named:
        return named
    wrapper = CLONE / "bin" / "xt"
    if wrapper.is_file():
        return from_wrapper(str(wrapper))
    found = shutil.which("xt")
    if not found:
        raise Missing(66, "there is no program xt: the variable XT may name it, or PATH have it")
    try:
        return from_wrapper(found)
    except Missing:
        return found


def from_wrapper(path: str) -> str:
    """The program that `bin/xt` runs."""
    words = [path, "--which"]
    done = subprocess.run(words, stdin=subprocess.DEVNULL, capture_output=True, text=True)
    if done.returncode:
        raise Missing(done.returncode, done.stderr.strip())
    return done.stdout.strip()


class Program:
    """A program xt, by default the one of `which`."""

    def __init__(self, path: str | None = None) -> None:
        self.path = path or which()

    @property
    def is_unproved(self) -> bool:
        """Whether it is one that bin/unproved compiled without proofs, which is some hundred times slower."""
        return Path(self.path).parent.name == ".unproved"

    def call(self, words: Sequence[str], data: Data = b"", good: Sequence[int] = (0,)) -> bytes:
        """What a command prints over its input: bytes, or a file. Ends with an error of `errors`
        if its exit code is none of the good ones."""
        with opened(data) as source:
            words = [self.path, *words]
            done = subprocess.run(words, stdin=source, capture_output=True, check=False)
        if done.returncode not in good:
            raise error_of(done.returncode, done.stderr.decode(errors="replace"), done.stdout)
        return done.stdout

    def objects(self, words: Sequence[str], data: Data = b"") -> Iterator[Object]:
        """The lines that a command prints, as objects, each as it comes."""
        with opened(data) as source, tempfile.TemporaryFile() as said:
            child = subprocess.Popen(
                [self.path, *words], stdin=source, stdout=subprocess.PIPE, stderr=said
            )
            try:
                assert child.stdout is not None
                yield from whole(objects(child.stdout))
                if child.wait():
                    said.seek(0)
                    raise error_of(child.returncode, said.read().decode(errors="replace"))
            finally:
                child.kill()
                child.wait()
                child.stdout and child.stdout.close()

    # ---- The commands that make files of files.

    def asm(self, text: Data) -> bytes:
        """The image of a text in the assembly language."""
        return self.call(["asm"], text.encode() if isinstance(text, str) else text)

    def elf(self, data: Data) -> bytes:
        """The image of an ELF executable."""
        return self.call(["elf"], data)

    def image(self, data: Data) -> bytes:
        """The image of an image or an ELF executable."""
        data = contents(data)
        return self.elf(data) if data[:4] == b"\x7fELF" else data


def opened(data: Data) -> IO[bytes]:
    """A file to read these bytes, or the file of this name, from its begin."""
    if not isinstance(data, bytes):
        try:
            return open(data, "rb")
        except OSError as fault:
            raise Missing(66, f"there is no file {data} that can be read") from fault
    file = tempfile.TemporaryFile()
    file.write(data)
    file.seek(0)
    return file


def contents(data: Data) -> bytes:
    """Bytes, or those of a file."""
    if isinstance(data, bytes):
        return data
    with opened(data) as file:
        return file.read()
