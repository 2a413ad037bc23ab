"""Numbers that the pages print, each with the place where it is printed and how it is counted from the files.

A place is a page and the words around the number, in which `#` stands for the number and a blank for any white space; of
several numbers the sum is counted. Numbers are digits with or without commas, or words up to twenty.
"""
import functools
import glob
import os
import re

TOP = os.path.dirname(os.path.dirname(os.path.abspath(__file__)))
WORDS = """zero one two three four five six seven eight nine ten eleven twelve thirteen fourteen fifteen sixteen
seventeen eighteen nineteen twenty""".split()
CASES = "crates/xt_program_tests/data", "bench/cases"


@functools.cache
def read(path):
    with open(f"{TOP}/{path}", encoding="utf-8") as file:
        return file.read()


# ---- what is counted


@functools.cache
def below():
    """The crates of crates.txt with those that each stands on."""
    lines = [it for it in read("crates.txt").splitlines() if it.strip() and not it.startswith("#")]
    found = {head.split()[0]: tail.split() for head, tail in (it.split(":", 1) for it in lines)}
    return {crate: [it for it in on if it in found] for crate, on in found.items()}


def reach(crate):
    return {crate}.union(*map(reach, below()[crate]))


def level(crate):
    return 1 + max(map(level, below()[crate]), default=0)


def counted(pattern, *paths):
    """How often a pattern is in these files."""
    return sum(len(re.findall(pattern, read(it), re.M)) for it in paths)


def functions(crate):
    paths = glob.glob(f"{TOP}/crates/{crate}/src/**/*.rt", recursive=True)
    return counted(r"^\s*(?:pub(?:\(crate\))? )?fn ", *(os.path.relpath(it, TOP) for it in paths))


def cases(part, *files):
    """The cases of files that have a part, or all of them: `case`. Those of the gate and the others are in two folders."""
    paths = [f"{folder}/{it}.txt" for folder in CASES for it in files]
    return counted(rf"^{part}\b", *(it for it in paths if os.path.exists(f"{TOP}/{it}")))


def assembled(case):
    """The instructions of a text of listings.txt, which two lines begin."""
    text = re.search(rf"^case {case}\n(?:#.*\n)?words asm\ntext\n((?:    .*\n)*)", read(f"{CASES[0]}/listings.txt"), re.M)[1]
    return text.count("\n") - 2


def enum(path, name):
    """The variants of a type, but for that of running out of memory."""
    body = re.search(rf"^pub enum {name} {{\n(.*?)^}}", read(path), re.M | re.S)[1]
    return len(re.findall(r"^    (?!Memory\b)[A-Z]\w*", body, re.M))


def followed():
    """The functions that the listings along the code of the examples name."""
    return sum(map(int, re.findall(r"^functions (\d+)", read("bench/cases/examples.txt"), re.M)))


def built(folder):
    """The programs of a folder that bench/c builds."""
    found = re.search(rf'^ *for name in (.*?); do try \$name "{re.escape(folder)}/', read("bench/c"), re.M)
    return len(found[1].split())


def builds():
    """The programs of both folders at each level."""
    levels = re.search(r"^ *for level in (.*?); do", read("bench/c"), re.M)[1].split()
    return len(levels) * (built("$c") + built("$top/examples/programs"))


# ---- where it is printed

INSNS = functools.partial(counted, r"^    (?:wide|narrow) 0x", "crates/xt_isa/specs/Spelling.antt")
KINDS = functools.partial(enum, "crates/xt_frames/src/kinds.rt", "BreachKind")
IMAGE_RULES = functools.partial(enum, "crates/xt_image/src/fault.rt", "ImageFault")
PROVED, README, GUIDE, MAP = "docs/PROVED.md", "README.md", "CONTRIBUTING.md", "docs/ARCHITECTURE.md"
PLACES = [
    (README, "proves all # crates and builds", lambda: len(reach("xt"))),
    (README, "the # rules of [IMAGE_FORMAT]", IMAGE_RULES),
    (README, "All # instructions of the table", INSNS),
    (MAP, "the # rows that spell them", INSNS),
    (MAP, "the first of # rules that the bytes break", IMAGE_RULES),
    ("CHANGELOG.md", "The table has # instructions", INSNS),
    ("CHANGELOG.md", "names the first of # rules that the file breaks", lambda: enum("crates/xt_elf/src/fault.rt", "ElfFault")),
    ("CHANGELOG.md", "The reader names the first of # rules that a file breaks", IMAGE_RULES),
    ("docs/C.md", "`bench/c` builds # programs of `examples/c`", lambda: built("$c")),
    ("docs/C.md", "and the # of `examples/programs`", lambda: built("$top/examples/programs")),
    ("docs/C.md", "Of the # builds, `run` names", builds),
    (PROVED, "one of the # kinds", KINDS),
    (PROVED, "spellings of instructions | # words, and", lambda: assembled("spellings-assembled")),
    (PROVED, "words, and # illegal ones", lambda: cases("case illegal", "listings")),
    (PROVED, "Boolean registers and BR | # words, and", lambda: assembled("boolean-spellings-assembled")),
    (PROVED, "words, and # that spell nothing", lambda: cases("case boolean-illegal", "listings")),
    (PROVED, "assembly texts | # faulty ones", lambda: cases("code 3", "texts")),
    (PROVED, "and # good ones with all their bytes", lambda: cases("code 0", "texts")),
    (PROVED, "images | #, sound and damaged", lambda: cases("words (?:check|dis|run)", "images")),
    (PROVED, "damaged; # further files", lambda: cases("case elf-(?!good)", "images")),
    (PROVED, "whole traces | #, and", lambda: cases("case", "traces")),
    (PROVED, "and # more by hand;", lambda: cases("case", "worked")),
    (PROVED, "by hand; # that run wild", lambda: cases("case", "wild")),
    (PROVED, "over given schedules | # |", lambda: cases("case", "schedules")),
    (PROVED, "that a C compiler made | #,", lambda: cases("case", "programs")),
    (PROVED, ", # of them on two threads", lambda: cases("threads", "programs")),
    (PROVED, "texts on two threads | # |", lambda: cases("case", "threads")),
    (PROVED, "twice on each core | #, and", lambda: cases("case", "verdicts")),
    (PROVED, ", and # with interrupts in window handlers | | | what `check`", lambda: cases("report", "nested")),
    (PROVED, "of window handlers | # images", lambda: cases("case", "checks")),
    (PROVED, "in a written order | # |", lambda: cases("case", "orders")),
    (PROVED, "that follow the code | # |", lambda: cases("command dis", "chosen")),
    (PROVED, "| maps | # |", lambda: cases("command map", "chosen")),
    (PROVED, "in the order of a seed | # |", lambda: cases("analysis", "chosen")),
    (PROVED, "that a seed stands for | # seeds", lambda: cases("seed", "chosen")),
    (PROVED, "names all #", followed),
    (PROVED, "what `counts` prints | # runs", lambda: cases("case", "counts")),
    (PROVED, "what `events` prints | # runs", lambda: cases("case", "events")),
    (PROVED, "what `trace` prints | # runs", lambda: cases("case", "turns")),
    (PROVED, "or none | # runs of two cores", lambda: cases("case", "races")),
    (PROVED, "profiles | # runs", lambda: cases("case", "profiles")),
    (PROVED, "`uses --lenient` prints | # runs", lambda: cases("case", "uses")),
    (PROVED, "runs, # of them of programs that a C compiler made", lambda: cases("file", "uses")),
    (PROVED, "by the strict discipline | # runs", lambda: cases("case", "strict")),
    (PROVED, "what `secrets` prints | # runs", lambda: cases("case", "secrets")),
    (PROVED, "good and damaged | #, and", lambda: cases("answer", "recordings", "nested")),
    (PROVED, "and # with interrupts in window handlers | | | scripts", lambda: cases("answer", "nested")),
    (PROVED, "with what they print | # |", lambda: cases("script", "scripts", "nested")),
    (PROVED, "which rule they break | # |", lambda: cases("case", "words")),
    (PROVED, "`outcomes` finds | # programs", lambda: cases("case", "outcomes")),
    (PROVED, "with their lines | # |", lambda: cases("case", "ends")),
    (GUIDE, "today one has #, up to `xt_cli`", lambda: level("xt_cli")),
    (GUIDE, "(today `xt_frames` has #,", lambda: functions("xt_frames")),
    (GUIDE, "`xt_judged` #,", lambda: functions("xt_judged")),
    (GUIDE, "`xt_uses` #,", lambda: functions("xt_uses")),
    (GUIDE, "`xt_command_line` #,", lambda: functions("xt_command_line")),
    (GUIDE, "`xt_outcomes` #,", lambda: functions("xt_outcomes")),
    (GUIDE, "`xt_rows` #,", lambda: functions("xt_rows")),
    (GUIDE, "`xt_moment_search` # and", lambda: functions("xt_moment_search")),
    (GUIDE, "`xt_debug` #)", lambda: functions("xt_debug")),
]


def number(word):
    word = word.lower().replace(",", "")
    return int(word) if word.isdigit() else WORDS.index(word)


def changing_definitions():
    """The crates of which a wrong version changes a definition, and those that the page names."""
    paths = glob.glob(f"{TOP}/crates/*/must-fail/*.edit")
    found = {it.split("/")[-3] for it in paths if counted(r"^file: specs/", os.path.relpath(it, TOP))}
    sentence = re.search(r"In ((?:[`\w]+,?\s+(?:and\s+)?)+)edits also change a definition", read(PROVED))
    return found, set(re.findall(r"`(\w+)`", sentence[1] if sentence else ""))


def wrong():
    """A line for each place whose words are not there, or whose number is another than is counted."""
    found, named = changing_definitions()
    if found != named:
        yield f"{PROVED}: wrong versions change definitions of {', '.join(sorted(found))}, and it names {', '.join(sorted(named))}"
    one = rf"(\d[\d,]*\d|\d|{'|'.join(WORDS)})"
    for page, words, count in PLACES:
        parts = [r"\s+".join(map(re.escape, it.split(" "))) for it in words.split("#")]
        found = [*re.finditer(one.join(parts), read(page), re.I)]
        if len(found) != 1:
            yield f"{page}: the words `{words}` of bench/numbers_of_pages.py stand there {len(found)} times"
        for it in found:
            line, counts = read(page).count("\n", 0, it.start(1)) + 1, count()
            if sum(map(number, it.groups())) != counts:
                yield f"{page}:{line}: says {' and '.join(it.groups())} in `{words}`, and {counts} are counted"
