"""The lines of the texts that xt prints, as docs/FORMATS.md lists them: what each is, and its
fields.

This is the one place that takes a line apart. `read` gives a line as an object, a dictionary with
the fields of docs/FORMATS.md; `json_of` gives the same object as a line of JSON, without making it,
since a trace may have millions of lines. The classes of this package are made of these objects.
"""
from __future__ import annotations

import json
import re
from typing import Any, BinaryIO, Callable, Iterable, Iterator, Optional

from .errors import LineError

Object = dict[str, Any]

NUMBER = "(?:0|[1-9][0-9]*)"
WORD = "[0-9A-F]{8}"
HALF = "[0-9A-F]{4}"
CORE = "core (?P<core>[01])"
ORDER = r"[01]\*[0-9]+(?:,[01]\*[0-9]+)*"
MOMENTS = r"[01](?:\*[0-9]+|![012])(?:,[01](?:\*[0-9]+|![012]))*"
EVENT = f"(?P<event>insn|window|exc|int|wait|stop)(?: (?P<number>{NUMBER}))?"
BREACH = rf"breach (?P<kind>\w+) {CORE} step (?P<step>{NUMBER})"
PLACED = rf"(?P<index>{NUMBER}) (?P<address>{WORD}) (?P<bytes>{NUMBER}) (?P<region>\w+)"
KEY = rf"(?P<calls>{WORD}(?:;(?:{WORD}|\.\.))*) (?P<turns>{NUMBER})"
HANDLERS = " ".join(f"{it} (?:yes|no {NUMBER})" for it in "of4 uf4 of8 uf8 of12 uf12".split())
KNOWN = (
    rf"depth {NUMBER}(?: areas {WORD}\+16 {WORD}\+{NUMBER})?"
    rf"(?: unset(?: {NUMBER})+)?(?: marks(?: {NUMBER}:{NUMBER})+)?"
)
TAIL = (
    r"(?=.)(?:(?!wb |depth |no frames)(?P<instruction>[^|]*[^| ]))?"
    rf"(?:(?:^| \| )wb (?P<window>{NUMBER} ws {HALF}))?(?:(?:^| \| )(?P<frames>{KNOWN}|no frames))?"
)


# ---- The fields of a line: how each is read.


def hexadecimal(text: str) -> int:
    return int(text, 16)


def is_there(text: str) -> bool:
    return text != ""


def handlers(text: str) -> Object:
    """Of each window handler whether it passes, and else at which of its bytes it does not."""
    words, found = text.split(), {}
    while words:
        name, answer = words.pop(0), words.pop(0)
        passes = answer == "yes"
        found[name] = {"passes": passes} if passes else {"passes": False, "byte": int(words.pop(0))}
    return found


def window(text: str) -> Object:
    base, _, start = text.partition(" ws ")
    return {"base": int(base), "start": int(start, 16)}


def frames(text: str) -> Optional[Object]:
    """What the machine with unbounded frames knows after a turn: None if it knows nothing."""
    words = text.split()
    if words[0] == "no":
        return None
    known: Object = {"depth": int(words[1]), "unset": [], "marks": {}}
    part = ""
    for word in words[2:]:
        if word.isalpha():
            part = word
            known.setdefault(part, [])
        elif part == "areas":
            address, _, size = word.partition("+")
            known[part].append({"address": int(address, 16), "bytes": int(size)})
        elif part == "unset":
            known[part].append(int(word))
        else:
            register, _, mark = word.partition(":")
            known[part][f"a{register}"] = int(mark)
    return known


def call_stack(text: str) -> list[int]:
    """The addresses of a key, the outermost function first."""
    return [int(it, 16) for it in text.split(";") if it != ".."]


def or_none(read: Callable[[str], Any], none: str) -> Callable[[str], Any]:
    return lambda text: None if text == none else read(text)


def words(text: str) -> list[Optional[int]]:
    """Words or bytes of memory: None for one that is neither memory nor constant."""
    return [None if "-" in it else int(it, 16) for it in text.split()]


# The fields that are no decimal numbers.
READERS: dict[str, Callable[[str], Any]] = {
    "handlers": handlers,
    "window": window,
    "frames": frames,
    "calls": call_stack,
    "cut": lambda text: ".." in text,
    "words": words,
    "values": words,
    "memory": words,
    "taken": or_none(int, "-"),
    "depth": or_none(int, "none"),
    "return": or_none(hexadecimal, "--------"),
}
HEXADECIMAL = "pc entry address value sum known ps sp".split()
READERS |= {name: hexadecimal for name in HEXADECIMAL}
READERS |= {name: is_there for name in "after loaded is_base is_start".split()}
READERS |= {name: lambda text: text == "yes" for name in ("digest",)}
TEXTS = "code instruction name order kind region event answer stop".split()
READERS |= {name: str for name in TEXTS}
# The fields of another name than their group of a form.
NAMES = {"return": "pc", "is_base": "base", "is_start": "start", "memory": "bytes"}

# ---- The same fields as JSON.

MOST_KEPT = 100_000  # texts of a field that are kept
Texts = tuple[Optional[str], ...]


class Kept(dict[str, str]):
    """What a field is as JSON, by its text: the same few texts come again and again. A text of
    another pattern is a KeyError."""

    def __init__(self, read: Callable[[str], Any], pattern: str = ".*") -> None:
        super().__init__()
        self.read, self.match = read, re.compile(pattern, re.ASCII).fullmatch

    def __missing__(self, text: str) -> str:
        if not self.match(text):
            raise KeyError(text)
        if len(self) >= MOST_KEPT:
            self.clear()
        made = self[text] = json.dumps(self.read(text))
        return made


WORDS = Kept(hexadecimal, WORD)


def writer_of(name: str) -> Optional[Callable[[str], str]]:
    """What makes JSON of the text of a field; None if it is that text, as of a decimal number."""
    if name not in READERS:
        return None
    if READERS[name] is hexadecimal:
        return WORDS.__getitem__
    return Kept(READERS[name]).__getitem__


class Form:
    """One form of a line: what it is, its pattern, and of each field its name and how it is read.

    `more` are fields that are read from the text of another: their names, and those of the
    others."""

    def __init__(self, kind: str, pattern: str, **more: str) -> None:
        self.kind, self.compiled = kind, re.compile(pattern, re.ASCII)
        groups = list(self.compiled.groupindex)
        self.places = [groups.index(of) for of in more.values()]
        names = [NAMES.get(it, it) for it in groups] + list(more)
        self.readers = [(n, READERS.get(it, int)) for n, it in zip(names, [*groups, *more])]
        self.writers = [writer_of(it) for it in [*groups, *more]]
        self.keys = [f', "{it}": ' for it in names]
        self.head = f'{{"line": "{kind}"'
        self.whole = self.head + "".join(f"{it}%s" for it in self.keys) + "}"

    def match(self, line: str) -> Optional[Texts]:
        """The texts of the fields of a line, None for one that it does not have."""
        found = self.compiled.fullmatch(line)
        if not found:
            return None
        texts = found.groups()
        return texts + tuple([texts[at] for at in self.places]) if self.places else texts

    def read(self, texts: Texts) -> Object:
        """The object of a line, from the texts of its fields."""
        it: Object = {"line": self.kind}
        pairs = zip(self.readers, texts)
        return it | {name: read(text) for (name, read), text in pairs if text is not None}

    def json(self, texts: Texts) -> str:
        """The same as JSON."""
        if None not in texts:
            return self.whole % tuple(
                [text if write is None else write(text) for write, text in zip(self.writers, texts)]
            )
        parts = [
            key + (text if write is None else write(text))
            for key, write, text in zip(self.keys, self.writers, texts)
            if text is not None
        ]
        return self.head + "".join(parts) + "}"


    def json_of(self, line: str) -> Optional[str]:
        """A line as JSON, or None."""
        texts = self.match(line)
        return None if texts is None else self.json(texts)


class Tails(dict[str, str]):
    """The fields of a turn from its instruction on, as the end of an object of JSON, by their
    text."""

    form = Form("", TAIL)

    def __missing__(self, text: str) -> str:
        texts = self.form.match(text)
        if texts is None:
            raise KeyError(text)
        if len(self) >= MOST_KEPT:
            self.clear()
        made = self[text] = self.form.json(texts)[len(self.form.head):]
        return made


TAILS = Tails()
# The events of a turn, and whether a number stands behind each.
EVENTS = {"insn": False, "window": True, "exc": True, "int": True, "wait": False, "stop": False}
# By the first word of an access how it begins as JSON, the name of its last word, and how many it has.
ACCESSES = {
    f"{word}{size}": (f', "access": {{"kind": "{kind}", "size": {size}, "address": ', name, count)
    for word, kind, name, count in (("ld", "load", "reply", 4), ("st", "store", "value", 3))
    for size in (1, 2, 4)
}
SWAP = ', "access": {"kind": "compare_and_swap", "size": 4, "address": '
ARROW = "->"


def access_json(words: list[str], at: int) -> str:
    """The access of a turn as JSON, from its words from a place on; a KeyError if they are none."""
    word, count = words[at], len(words) - at
    if word in ACCESSES:
        begin, name, right = ACCESSES[word]
        if count == right and (count == 3 or words[at + 2] == ARROW):
            return f'{begin}{WORDS[words[at + 1]]}, "{name}": {WORDS[words[-1]]}}}'
    elif word == "cas" and count == 6 and words[at + 4] == ARROW:
        address, expect, new, _, reply = words[at + 1:]
        return (
            f'{SWAP}{WORDS[address]}, "expect": {WORDS[expect]}, "new": {WORDS[new]},'
            f' "reply": {WORDS[reply]}}}'
        )
    raise KeyError(word)


class TurnForm(Form):
    """The form of a turn, of which there may be millions: it is taken apart by its blanks."""

    def __init__(self) -> None:
        super().__init__("turn", "turn")

    def json_of(self, line: str) -> Optional[str]:
        head, bar, end = line.partition(" | ")
        words = head.split(" ")
        try:
            core, step, pc, event = words[:4]
            made = (
                f'{{"line": "turn", "core": {core}, "step": {step}, "pc": {WORDS[pc]},'
                f' "event": "{event}"'
            )
            at, count = 4, len(words)
            if EVENTS[event]:
                made += f', "number": {NUMBERS[words[4]]}'
                at = 5
            if count > at and words[at][0] == "a":
                register, _, value = words[at].partition("=")
                number = NUMBERS[register[1:]]
                made += f', "write": {{"register": {number}, "value": {WORDS[value]}}}'
                at += 1
            if count > at:
                made += access_json(words, at)
            made += TAILS[end] if bar else "}"
        except (KeyError, ValueError, IndexError):
            return None
        is_number = step.isdecimal() and (step[0] != "0" or step == "0")
        return made if is_number and core in CORES else None

    def match(self, line: str) -> Optional[Texts]:
        made = self.json_of(line)
        return None if made is None else (made,)

    def read(self, texts: Texts) -> Object:
        made: Object = json.loads(texts[0] or "")
        return made


CORES = ("0", "1")
NUMBERS = Kept(int, NUMBER)
# Of each line of a text the parts of a turn that executed an instruction, without a compare-and-swap; or, as the
# last part, the line if it is another.
PLAIN = re.compile(
    rf"^(?:([01]) ({NUMBER}) ({WORD}) insn(?: a({NUMBER})=({WORD}))?"
    rf"(?: (ld[124] {WORD} ->|st[124] {WORD}) ({WORD}))?(?: \| (.+))?|(.*))$",
    re.ASCII | re.MULTILINE,
).findall


def plain_json(parts: tuple[str, ...]) -> Optional[str]:
    """The JSON of a line, by its parts."""
    core, step, pc, register, value, access, data, tail, other = parts
    if not core:
        return json_of(other)
    write = end = ""
    if register:
        write = f', "write": {{"register": {register}, "value": {int(value, 16)}}}'
    if access:
        begin, name, _ = ACCESSES[access[:3]]
        end = f'{begin}{int(access[4:12], 16)}, "{name}": {int(data, 16)}}}'
    try:
        return (
            f'{{"line": "turn", "core": {core}, "step": {step}, "pc": {WORDS[pc]},'
            f' "event": "insn"{write}{end}{TAILS[tail] if tail else "}"}'
        )
    except KeyError:
        return None


# ---- The forms of a line by its first word. The first that fits counts.

FORMS: dict[str, list[Form]] = {
    "gen": [Form("gen", f"gen (?P<number>{NUMBER})")],
    "image": [
        Form(
            "image",
            f"image segments (?P<segments>{NUMBER}) entry (?P<entry>{WORD})"
            " digest (?P<digest>yes|no)",
        ),
        Form("length", f"image (?P<bytes>{NUMBER})"),
    ],
    "segment": [Form("segment", f"segment {PLACED}")],
    ".entry": [Form("entry", rf"\.entry 0x(?P<entry>{WORD})")],
    ".seg": [Form("segment", rf"(?P<loaded>\.seg) 0x{WORD} # segment {PLACED}")],
    "#": [Form("segment", f"(?P<loaded>)# segment {PLACED}")],
    "core": [
        Form("counts", f"{CORE} (?P<pc>{WORD}) (?P<executed>{NUMBER}) (?P<raised>{NUMBER})"
             f" (?P<taken>{NUMBER}|-)"),
        Form("calls", f"(?P<after>){CORE} {KEY}", cut="calls"),
        Form(
            "stop",
            f"{CORE} stop (?P<stop>break|turns)(?: turns (?P<turns>{NUMBER}))?"
            f"(?: pc (?P<pc>{WORD}))?",
        ),
        Form("events", f"{CORE} {EVENT} times (?P<times>{NUMBER}) first (?P<first>{NUMBER})"
             f" pc (?P<pc>{WORD})"),
        Form("others", f"(?P<after>){CORE} handlers (?P<handler_turns>{NUMBER})"
             f" after (?P<after_turns>{NUMBER})"),
        Form("state", f"{CORE} step (?P<step>{NUMBER}) pc (?P<pc>{WORD}) ps (?P<ps>{WORD})"
             f" wb (?P<window>{NUMBER} ws {HALF})"),
        Form("core", CORE),
    ],
    "~core": [
        Form("calls", f"(?P<after>~){CORE} {KEY}", cut="calls"),
        Form("others", f"(?P<after>~){CORE} handlers (?P<handler_turns>{NUMBER})"),
    ],
    "history": [Form("history", f"history (?P<accesses>{NUMBER})")],
    "handlers": [Form("handlers", f"handlers (?P<handlers>{HANDLERS})")],
    "frames": [
        Form("frames", "frames (?P<answer>none|whole|unknown|broken)"),
        Form("frames", "frames " + BREACH),
        Form("depth", f"frames (?P<core>[01]) depth (?P<depth>{NUMBER})"),
        Form("depth", "frames (?P<core>[01]) (?P<depth>none)"),
    ],
    "breach": [
        Form("breach", rf"breach (?P<kind>\w+) {CORE} pc (?P<pc>{WORD}) order (?P<order>{ORDER})")
    ],
    "race": [
        Form("race", "race (?P<answer>none|unknown)"),
        Form("race", f"race (?P<first>{NUMBER}) (?P<second>{NUMBER})"),
        Form("race", f"race (?P<order>{ORDER})"),
    ],
    "stuck": [
        Form("stuck", "stuck (?P<answer>none|unknown)"),
        Form("stuck", f"stuck (?P<order>{MOMENTS})"),
    ],
    "order": [Form("order", f"order (?P<order>{MOMENTS})")],
    "word": [Form("word", f"word (?P<address>{WORD}) (?P<value>{WORD})")],
    "outcomes": [Form("outcomes", f"outcomes (?P<outcomes>{NUMBER})")],
    "all": [Form("end", "(?P<answer>all)")],
    "some": [
        Form("end", "some (?P<answer>frames|states)"),
        Form("end", f"some (?P<answer>time) {CORE} pc (?P<pc>{WORD})"),
    ],
    "profile": [Form("profile", "profile (?P<answer>none)")],
    "uses": [
        Form("uses", "uses (?P<answer>none)"),
        Form(
            "uses",
            f"uses (?P<answer>whole) carried (?P<carried0>{NUMBER}) (?P<carried1>{NUMBER})",
        ),
        Form("uses", "uses " + BREACH),
    ],
    "secrets": [
        Form(
            "secrets",
            f"secrets (?P<answer>whole) carried (?P<carried0>{NUMBER}) (?P<carried1>{NUMBER})",
        ),
        Form("secrets", f"secrets leak {CORE} step (?P<step>{NUMBER})"),
    ],
    "words": [Form("words", f"words (?P<address>{WORD})(?P<words>(?: (?:{WORD}|-{{8}}))*)")],
    "mem": [Form("mem", f"mem (?P<address>{WORD})(?P<memory>(?: (?:[0-9A-F]{{2}}|--))*)")],
    "calls": [Form("callers", "calls (?P<core>[01])(?: (?P<answer>none))?")],
    "none": [Form("none", "none")],
    "past": [Form("past end", "past end")],
    ".": [Form("answered", r"\.")],
    "Usage": [Form("usage", f"Usage (?P<number>{NUMBER})")],
    "digits": [
        Form("instruction", f"(?P<pc>{WORD}) (?P<code>(?:[0-9A-F]{{2}})+) (?P<instruction>.+)"),
        Form("label", rf"(?P<address>{WORD}) (?P<name>\S+)"),
    ],
    "turn": [TurnForm()],
    "register": [
        Form("register", f"a(?P<register>{NUMBER}) (?P<value>{WORD}) known (?P<known>{WORD})"),
        Form("register", f"a(?P<register>{NUMBER}) mark (?P<mark>{NUMBER})"),
        Form("visible", f"a(?P<register>{NUMBER})(?P<values>(?: {WORD}){{4}})"),
    ],
    "ring": [
        Form(
            "ring",
            f"(?P<number>{NUMBER}):(?P<values>(?: {WORD}){{4}})"
            "(?P<is_base> base|)(?P<is_start> start|)",
        )
    ],
    "frame": [
        Form("frame", f"(?P<callers>{NUMBER}) pc (?P<return>{WORD}|-{{8}}) sp (?P<sp>{WORD})"
             f" size (?P<size>{NUMBER})(?: call (?P<call>{NUMBER}))?")
    ],
    "text": [
        Form("instruction", f"(?P<instruction>[^#]*[^# ]) # (?P<pc>{WORD})"),
        Form("special", f"(?P<name>[a-z]+[0-9]?) (?P<value>{WORD})"),
    ],
}
FORMS["0"] = FORMS["1"] = FORMS["turn"] + FORMS["frame"]
QUICK = {"0 ": FORMS["0"], "1 ": FORMS["1"]}  # of lines that come by the million
DIGITS, REGISTER, RING = (
    re.compile(it, re.ASCII).match for it in (WORD + r"\Z", r"a[0-9]+\Z", r"[0-9]+:\Z")
)


def forms_of(line: str) -> list[Form]:
    """The forms that a line may have, by its first word."""
    word = line.split(" ", 1)[0]
    if word in FORMS:
        return FORMS[word]
    if DIGITS(word):
        return FORMS["digits"]
    if REGISTER(word):
        return FORMS["register"]
    if RING(word):
        return FORMS["ring"]
    return FORMS["frame"] if word.isdecimal() else FORMS["text"]


def read(line: str) -> Optional[Object]:
    """The object of a line, without the end of the line; None if it is no line of xt."""
    for form in forms_of(line):
        texts = form.match(line)
        if texts is not None:
            return form.read(texts)
    return None


def json_of(line: str) -> Optional[str]:
    """The same as JSON."""
    for form in QUICK.get(line[:2]) or forms_of(line):
        made = form.json_of(line)
        if made is not None:
            return made
    return None


# ---- Whole texts, which have bytes of a program between their lines.

SENT = re.compile(rb"^(?:(outcome )?uart ((?:0|[1-9][0-9]*))|gen [0-9]+)\n", re.M).search
SUM = re.compile(rb"^uart ([0-9A-F]{8})\n", re.M).search
BLOCK = 1 << 20


def sent(data: bytes, kind: str, count: int) -> Optional[Object]:
    """The object of bytes that a program sent, behind a line with their number, and the end of a
    line; None if they are fewer."""
    if len(data) != count + 1 or not data.endswith(b"\n"):
        return None
    data = data[:-1]
    it: Object = {"line": kind, "bytes": count, "hex": data.hex()}
    try:
        it["text"] = data.decode("utf-8")
    except UnicodeDecodeError:
        pass
    return it


class Parts:
    """A text in parts: `next` gives lines, or a line alone with its object, or None if it has
    none."""

    def __init__(self, source: BinaryIO) -> None:
        self.source, self.data, self.of_gen = source, b"", False

    def __iter__(self) -> Iterator[tuple[list[str], bool, Optional[Object]]]:
        read = getattr(self.source, "read1", self.source.read)
        while block := read(BLOCK):
            self.data += block
            yield from self.whole_lines()
        if self.data:
            yield [self.data.decode("latin-1")], True, None

    def whole_lines(self) -> Iterator[tuple[list[str], bool, Optional[Object]]]:
        """The lines that are there, up to the last end of a line."""
        while b"\n" in self.data:
            found = self.next_alone()
            end = found.start() if found else self.data.rfind(b"\n") + 1
            if end:
                yield self.data[:end - 1].decode("latin-1").split("\n"), False, None
            self.data = self.data[end:]
            if found:
                yield self.alone(found)

    def next_alone(self) -> Optional[re.Match[bytes]]:
        """The next line whose meaning depends on the lines before it, or with bytes behind it."""
        if b"uart " not in self.data and b"gen " not in self.data:
            return None
        return SUM(self.data) if self.of_gen else SENT(self.data)

    def alone(self, found: re.Match[bytes]) -> tuple[list[str], bool, Optional[Object]]:
        """Such a line, with its object."""
        line = found[0][:-1].decode("latin-1")
        self.data = self.data[len(found[0]):]
        if self.of_gen:
            self.of_gen = False
            return [line], True, {"line": "sum", "sum": int(found[1], 16)}
        self.of_gen = line.startswith("gen ")
        if self.of_gen:
            return [line], True, read(line)
        count = int(found[2])
        if len(self.data) <= count:
            self.data += self.source.read(count + 1 - len(self.data))
        data, self.data = self.data[:count + 1], self.data[count + 1:]
        return [line], True, sent(data, "outcome" if found[1] else "uart", count)


def objects(source: BinaryIO) -> Iterator[tuple[str, Optional[Object]]]:
    """Each line of a text, and its object, or None if it is no line of xt, or not whole."""
    for lines, is_alone, it in Parts(source):
        for line in lines:
            yield line, it if is_alone else read(line)


def json_parts(source: BinaryIO) -> Iterator[tuple[list[str], list[Optional[str]]]]:
    """The same with JSON, as much at a time as has come: lines, and what each is."""
    for lines, is_alone, it in Parts(source):
        if is_alone:
            yield lines, [None if it is None else json.dumps(it)]
        else:
            yield lines, list(map(plain_json, PLAIN("\n".join(lines))))


def whole(lines: Iterable[tuple[str, Optional[Object]]]) -> Iterator[Object]:
    """The objects of lines; a LineError at the first that has none."""
    for line, it in lines:
        if it is None:
            raise LineError(f"no line of xt: {line}")
        yield it


def read_all(lines: Iterable[str]) -> list[Object]:
    """The objects of lines that a command printed; likewise."""
    return list(whole((line, read(line)) for line in lines))
