"""The definitions that a clause of a contract names, those that these name, and so on: what a reader has to believe.

A definition is one of a file of specs/, by its name, or a type of the code that definitions or the call name, with what
contracts see of it, or a trait that the call asks for, with its contracts. Only names are followed, those of the kit's
libraries by `kit`. A name that a variable has too counts as the definition.
"""
import functools
import os
import re

import kit

TOP = os.path.dirname(os.path.dirname(os.path.abspath(__file__)))
# The first line of a file of specs/ that a reader need not believe ends so.
UNBELIEVED = "nothing that a reader must believe."
# The calls whose contracts make each claim: the crate, the module and the function.
CLAIMS = (
    ("one turn", (("xt_core", "cores", "turn_begin"), ("xt_core", "cores", "turn_end"))),
    ("a run is the image's", (("xt_machine", "threads", "run"), ("xt_machine", "scheduled", "run_schedule"))),
    ("windows are frames", (("xt_report", "laws", "run_is_framed"),)),
    ("what is not known decides nothing", (("xt_report", "use_report", "uses_of"),)),
    ("all of `xt_main`", (("xt_cli", "top", "xt_main"),)),
)
WORD = r"[A-Za-z_]\w*(?:\.[A-Za-z_]\w*)*"


@functools.cache
def lines(path):
    with open(f"{TOP}/{path}", encoding="utf-8") as file:
        return file.read().splitlines()


def exists(path):
    return os.path.exists(f"{TOP}/{path}")


def is_unbelieved(path):
    return path.endswith(".antt") and lines(path)[0].endswith(UNBELIEVED)


class Definition:
    """Its file, its name, its first line, and its text without comments."""

    def __init__(self, path, name, line):
        self.path, self.name, self.line, self.text = path, name, line, []

    def size(self):
        return sum(bool(it.strip()) for it in self.text)


@functools.cache
def definitions(path):
    """The definitions of a file of specs/; a constructor stands for its type."""
    found, now = {}, None
    for number, line in enumerate(lines(path), 1):
        code = line.split("--", 1)[0].rstrip()
        head = re.match(r"((?:pub |abbrev |unfoldable |record |data )*)([A-Za-z_]\w*)( :|\b)", code)
        if re.match(r"(pub )?(use|mod|infix\w*) ", code):
            now = None
        elif head and (head[1] or head[3] == " :") and (now is None or head[2] != now.name):
            now = found.setdefault(head[2], Definition(path, head[2], number))
        if now and code.strip():
            now.text.append(code)
            built = re.match(r"  (\w+) :", code)
            if built and re.match(r"(pub )?data ", now.text[0]):
                found.setdefault(built[1], now)
    return found


@functools.cache
def imports(path):
    """The names that a file brings in, each with its module and its name there; a module alone has no name."""
    found = {}
    text = "\n".join(lines(path))
    for module, names, other in re.findall(
        r"^\s*(?:pub |ghost )*use (Rattle\.xt_[\w.]+?)(?:\.\{(.*?)\}| as (\w+))?;?$", text, re.M
    ):
        if names:
            for name in names.split(", "):
                here, _, there = name.partition(" as ")
                found[there or here] = (module, here)
        else:
            found[other or module.split(".")[-1]] = (module, None)
    return found


def source(module):
    """The file of a module of specs/, or the file and the type of one that is declared in code."""
    crate, _, *parts = module.split(".")[1:]
    if parts and parts[0] == "declared":
        parts = [it for it in parts[1:] if it != "TheVariants"]
        kind = next((it for it in parts if it[0].isupper()), None)
        folder = "/".join(it for it in parts if it[0].islower())
        return f"crates/{crate}/src/{folder or 'lib'}.rt", kind
    return f"crates/{crate}/specs/{'/'.join(parts)}.antt", None


def declared(path, name):
    """A type of the code."""
    for number, line in enumerate(lines(path), 1):
        head = re.match(rf"pub (?:struct|enum|type|trait) {name}\b", line)
        if head:
            found = Definition(path, name, number)
            for it in lines(path)[number - 1 :]:
                code = re.sub("//.*", "", it)
                if code.strip() and not code.strip().startswith("#["):
                    found.text.append(code)
                if it.rstrip() == "}" or found.text[-1].endswith(";") and len(found.text) == 1:
                    return found
    return None


@functools.cache
def resolve(path, word):
    """The definition that a word of a file names, if any."""
    first, *more = word.split(".")
    if path.endswith(".antt") and first in definitions(path):
        return definitions(path)[first]
    if first not in imports(path):
        return None
    module, name = imports(path)[first]
    where, kind = source(module)
    if kind:
        return declared(where, kind) if exists(where) else None
    name = name or (more[0] if more else None)
    return resolve(where, name) if name and exists(where) else None


@functools.cache
def views(path, name):
    """What a type of the code is to contracts: the words of its `ghost Value` and `ghost view`."""
    text = "\n".join(lines(path))
    block = re.search(rf"^impl[^\n]* Model for {name}\b.*?^}}", text, re.M | re.S)
    found = re.findall(r"ghost (?:Value|view) = \{(.*?)\};", block[0], re.S) if block else []
    return " ".join(found)


def named(definition):
    """The definitions that one names."""
    if definition.path.endswith(".antt"):
        text = " ".join(definition.text)
        words = re.findall(WORD, text)
        found = [resolve(definition.path, it) for it in words]
    else:
        text = " ".join(definition.text)
        found = [type_of(definition.path, it) for it in re.findall(r"\b[A-Z]\w*", text)]
        seen = text if text.startswith("pub trait ") else views(definition.path, definition.name)
        found += [resolve(definition.path, it) for it in re.findall(WORD, seen)]
    return [it for it in found if it is not None and it is not definition]


@functools.cache
def type_of(path, name):
    """The type of the code that a file of code calls so, of its own or of another that it uses."""
    if declared(path, name):
        return declared(path, name)
    text = "\n".join(lines(path))
    for crate, module, names in re.findall(r"^use (\w+)((?:::\w+)*)::\{?([\w, \n]+)\}?;", text, re.M):
        if name in re.findall(r"\w+", names) and (crate == "crate" or crate.startswith("xt_")):
            folder = f"crates/{path.split('/')[1] if crate == 'crate' else crate}/src"
            file = f"{folder}/{'/'.join(module.split('::')[1:]) or 'lib'}.rt"
            if exists(file) and file != path:
                return type_of(file, name) if declared(file, name) is None else declared(file, name)
    for module, names in re.findall(r"^pub use (?:crate::)?([\w:]+)::\{?([\w, \n]+)\}?;", text, re.M):
        file = f"{os.path.dirname(path)}/{module.replace('::', '/')}.rt"
        if name in re.findall(r"\w+", names) and exists(file) and file != path:
            return type_of(file, name)
    return None


def clauses(path, function):
    """The clauses of a public function: the label of each and its text."""
    text = lines(path)
    at = next(i for i, it in enumerate(text) if re.match(rf"\s*(pub )?fn {function}\b", it))
    found = []
    for line in text[at:]:
        head = re.match(r"\s*(requires|ensures) (\w+ )?(.*)", line)
        if head:
            found.append([(head[2] or head[1]).strip(), head[3]])
        elif line.strip() in ("{", "{}"):
            break
        elif found:
            found[-1][1] += " " + line.strip()
    return found


def types_of(path, function):
    """The types and traits that the head of a function names, and of a method its own type."""
    text, head = lines(path), ""
    at = next(i for i, it in enumerate(text) if re.match(rf"\s*(pub )?fn {function}\b", it))
    for line in text[at:]:
        if re.match(r"\s*(requires|ensures|\{)", line):
            break
        head += line + " "
    if text[at].startswith(" "):
        head += next(it for it in reversed(text[:at]) if it.startswith("impl"))
    return [it for it in (type_of(path, word) for word in re.findall(r"\b[A-Z]\w*", head)) if it]


def exported(crate):
    """The public functions and methods of the modules that a library makes public, or of which it gives out names."""
    lib = "\n".join(lines(f"crates/{crate}/src/lib.rt"))
    given = [(it, None) for it in re.findall(r"^pub mod (\w+);", lib, re.M)]
    given += re.findall(r"^pub use (\w+)::\{?([\w, \n]+)\}?;", lib, re.M)
    for module, names in given:
        path = f"crates/{crate}/src/{module}.rt"
        for line in lines(path) if exists(path) else ():
            found = re.match(r"(\s*)pub fn (\w+)", line)
            if found and (found[1] or names is None or found[2] in re.findall(r"\w+", names)):
                yield crate, module, found[2]


def reached(path, texts, types=(), with_types=True):
    """All that the texts of a file of code name, each with what it was reached from."""
    found, left = {(it.path, it.name): (it, None) for it in types}, [*types]
    for text in texts:
        for it in re.findall(WORD, text):
            here = resolve(path, it)
            if here and (here.path, here.name) not in found:
                found[here.path, here.name] = (here, None)
                left.append(here)
    while left:
        now = left.pop()
        for it in named(now) if with_types or now.path.endswith(".antt") else ():
            if (it.path, it.name) not in found:
                found[it.path, it.name] = (it, now)
                left.append(it)
    return found


def cone(calls):
    found = {}
    for crate, module, function in calls:
        path = f"crates/{crate}/src/{module}.rt"
        texts = [it for _, it in clauses(path, function)]
        found.update(reached(path, texts, types_of(path, function)))
    return [it for it, _ in found.values()]


def rows():
    """For each claim: its calls, the lines of its definitions, how many they are, the lines of types of the code, and
    the lines and the number of the kit's definitions."""
    for claim, calls in CLAIMS:
        found = {(it.path, it.name): it for it in cone(calls)}.values()
        specs = [it for it in found if it.path.endswith(".antt")]
        types = [it for it in found if it.path.endswith(".rt")]
        said = ", ".join(f"`{crate}::{function}`" for crate, _, function in calls)
        below = kit.reached((f"{TOP}/{it.path}", it.text) for it in specs)
        own = sum(it.size() for it in specs), len(specs), sum(it.size() for it in types)
        yield claim, said, *own, sum(map(len, below)), len(below)


# Calls that other crates of this repository alone use, so no claim rests on what their clauses say: the halves of a turn,
# and the pieces in which a text comes.
INNER = {("xt_core", "begin"), ("xt_core", "end"), ("xt_core", "local_turn"), ("xt_core", "head_of"), ("xt_report", "add")}


def unbelieved():
    """Each definition of a file that need not be believed that a clause of a public call names, with the way there.

    The calls are those of the claims and all others of their crates. What a type of the code is to contracts is not
    followed here: a value that one call makes and another takes says nothing by itself.
    """
    calls = dict.fromkeys(it for _, calls in CLAIMS for crate, *_ in calls for it in exported(crate))
    for crate, module, function in calls:
        if (crate, function) in INNER:
            continue
        path = f"crates/{crate}/src/{module}.rt"
        for label, text in clauses(path, function):
            found = reached(path, [text], (), False)
            for it, _ in found.values():
                if is_unbelieved(it.path):
                    yield f"{crate}::{function}", label, it, way(found, it)


def way(found, it):
    """From the name in the clause to the definition."""
    steps = []
    while it is not None:
        crate, name = it.path.split("/")[1], os.path.splitext(os.path.basename(it.path))[0]
        steps.append(f"{crate}.{name}.{it.name}")
        it = found[it.path, it.name][1]
    return steps[::-1]
