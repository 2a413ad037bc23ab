"""What the tests have in common: the package of this clone, the built program, and the cases of
crates/xt_program_tests/data and bench/cases, whose values come from outside the program."""
from __future__ import annotations

import functools
import sys
from pathlib import Path
from typing import Iterator

PYTHON = Path(__file__).resolve().parents[1]
TOP = PYTHON.parent
FOLDERS = (TOP / "crates/xt_program_tests/data", TOP / "bench/cases")
sys.path.insert(0, str(PYTHON))

import xt  # noqa: E402


@functools.cache
def program() -> xt.Program:
    """The built program, or the one that the variable XT names."""
    return xt.Program()


@functools.cache
def image(name: str) -> bytes:
    """The image of a text of examples/."""
    return program().asm(TOP / "examples" / name)


def cases(name: str) -> Iterator[dict[str, str]]:
    """The cases of the files of this name: of each its parts, what follows the name of a part in its line, and
    the indented lines below it."""
    for path in (folder / name for folder in FOLDERS):
        case: dict[str, str] = {}
        part = ""
        for line in path.read_text(encoding="utf-8").splitlines() if path.exists() else ():
            if line.startswith("    "):
                case[part] = case.get(part, "") + line[4:] + "\n"
            elif line == "end":
                yield case
                case = {}
            elif line and not line.startswith("#"):
                part, _, rest = line.partition(" ")
                case[part] = rest
            elif part in case and not line:
                case[part] += "\n"


def files() -> list[str]:
    """The names of the files of cases."""
    return sorted({path.name for folder in FOLDERS for path in folder.glob("*.txt")})


def page(name: str) -> str:
    """The text of a page of docs/."""
    return (TOP / "docs" / name).read_text(encoding="utf-8")
