"""What `bin/xt help` and `bin/xt --version` say, as objects: from docs/HELP.txt and docs/STATUS.md."""
from __future__ import annotations

import re
from pathlib import Path

from .lines import Object


def entries(page: str, section: str) -> list[tuple[str, str]]:
    """The entries of a section of the page of help, by a pattern of its head: what stands before the
    text, and the text."""
    found: list[tuple[str, str]] = []
    is_inside = False
    for line in page.splitlines():
        if re.match(r"\S", line):
            is_inside = bool(re.match(section, line))
        elif is_inside and (row := re.match(r"  (\S.*?)  +(\S.*)$", line)):
            found.append((row[1], row[2]))
        elif is_inside and found and line.strip():
            found[-1] = (found[-1][0], f"{found[-1][1]} {line.strip()}")
    return found


def option(words: str, text: str) -> Object:
    """An option: its name, what its value is called, and the commands that take it, none if all do."""
    name, _, value = words.partition(" ")
    taken = re.match(r"\[([^]]*)\] (.*)", text)
    commands = taken[1].split(", ") if taken else []
    text = taken[2] if taken else text
    return {"name": name, "value": value or None, "commands": commands, "text": text}


def codes(page: str) -> list[Object]:
    """The exit codes of docs/STATUS.md, each with its status or with what it means."""
    rows = re.findall(r"^\| (\d+) \| (.*?) ?\|$", page.split("## ")[0], re.M)
    return [{"code": int(code), "text": text.replace("`", "")} for code, text in rows]


def help_of(docs: Path) -> Object:
    """The commands with their options, the commands of a script, and the exit codes."""
    page = (docs / "HELP.txt").read_text(encoding="utf-8")
    return {
        "commands": [
            {"name": words.split(" ")[0], "words": words, "text": text}
            for words, text in entries(page, "Commands$")
        ],
        "options": [option(*it) for it in entries(page, "Options")],
        "script": [
            {"name": words.split(" ")[0], "words": words, "text": text}
            for words, text in entries(page, "Commands of a script")
        ],
        "codes": codes((docs / "STATUS.md").read_text(encoding="utf-8")),
    }


def version_of(said: str) -> Object:
    """What `--version` prints: the release, the commit, the toolchain, and whether the program is proved."""
    head, *rows = said.splitlines()
    words = head.removeprefix("xt, ").split()
    commit = words[1] if len(words) > 1 else None
    found: Object = {"release": words[0], "commit": commit, "toolchain": None, "proved": False}
    for row in rows:
        name, colon, text = row.partition(": ")
        if name == "proved":
            found["proved"] = not text.startswith("not built")
        elif not colon:
            found["toolchain"] = row
        elif name != "unproved":
            found[name] = text
    return found
