"""The definitions of the toolchain's kit that definitions of this repository name, those that these name, and so on.

The kit lies beside the program `rt`. Its primitives (natural numbers, their sums and comparisons) have no text and are
not counted, and neither are the types of its code.
"""
import functools
import os
import re
import shutil
import sys

# What stands in no file of definitions: primitives, and proofs by computation.
NO_TEXT = ("Prim", "native", "denote", "mir")


@functools.cache
def root():
    """The folder of the kit's libraries, or None where there is no `rt`."""
    program = shutil.which("rt")
    folder = program and os.path.join(os.path.dirname(os.path.dirname(os.path.realpath(program))), "rattle")
    return folder if folder and os.path.isdir(folder) else None


@functools.cache
def text(path):
    with open(path, encoding="utf-8") as file:
        return file.read()


def file_of(module):
    """The file of a module, or None."""
    if root() is None:
        sys.exit("bench: there is no `rt`, beside which the definitions of the kit lie")
    first, *parts = module.split(".")
    if first in NO_TEXT or "declared" in parts:
        return None
    base = {"lib": "logic/Lib", "mathlib": "antt/port/mathlib/src", "Rattle": ""}.get(first)
    path = None if base is None else os.path.join(root(), base, *parts) + ".antt"
    return path if path and os.path.exists(path) else None


@functools.cache
def imported(path):
    """The names that a file brings in or passes on: each with its module and its name there."""
    found = {}
    for module, names in re.findall(r"^ *(?:pub )?use ([\w.-]+)\.\{(.*?)\}", text(path), re.M):
        for name in names.split(", "):
            there, _, here = name.partition(" as ")
            found[here or there] = (module, there)
    return found


@functools.cache
def defined(path):
    """The definitions of a file, each with its lines: from the line of its type to a blank line or the next type, and
    all that is indented below the head of a record or of a type. A field or a constructor stands for its type.
    """
    found, name, inside = {}, None, None
    for line in text(path).splitlines():
        code = "" if line.lstrip().startswith("--") else line.rstrip()
        depth = len(code) - len(code.lstrip())
        if inside is not None and code and depth <= inside:
            name = inside = None
        head = re.match(r" *((?:(?:abbrev|unfoldable|pub|record|data) )*)([^\s(){}]+)(?: :|(?<=\S) )", code)
        if re.match(r" *(pub )?(use|mod|module|infix\w*) ", code) or not line.strip() and inside is None:
            name = None
        elif inside is not None:
            field = re.match(r" *(?:pub )?([^\s(){}]+) :", code)
            if field:
                found.setdefault(field[1], found[name])
        elif head and depth < 4 and (head[1] or re.match(r" *\S+ : ", code)):
            name = head[2]
            found.setdefault(name, [])
            inside = depth if re.search(r"\b(record|data) ", head[1]) else None
        if name and code:
            found[name].append(code)
    return found


def parts(name):
    """What a text has where it names this: `◌+◌` has `+` there, and `if◌then◌else◌` three words."""
    return [it for it in name.split("◌") if it]


def tokens(lines):
    return set(re.findall(r"[^\s(){},;]+", " ".join(lines)))


def find(module, name):
    """The file and the name of a definition that a module declares or passes on, or None."""
    path = file_of(module)
    if path is None:
        return None
    if name in defined(path):
        return path, name
    return find(*imported(path)[name]) if name in imported(path) else None


def named(path, lines):
    """The definitions of the kit that lines of a file name."""
    words = tokens(lines)
    plain = words | {it.split(".")[-1] for it in words}
    own = {it: (path, it) for it in defined(path)} if path.startswith(f"{root()}/") else {}
    for name in {**imported(path), **own}:
        if all(it in plain for it in parts(name)) and parts(name):
            found = own.get(name) or find(*imported(path)[name])
            if found:
                yield found


def reached(definitions):
    """All that definitions of this repository, each a file and its lines, name of the kit, each its lines."""
    left = [it for path, lines in definitions for it in named(path, lines)]
    found = {}
    while left:
        path, name = left.pop()
        lines = defined(path)[name]
        if (path, id(lines)) not in found:
            found[path, id(lines)] = lines
            left += named(path, lines)
    return list(found.values())
