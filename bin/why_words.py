"""The lines that bin/why prints of its findings, which are objects with the fields of
docs/FORMATS.md. The words stand here alone: with --json bin/why prints the fields.
"""
from __future__ import annotations

import json
import os
import re
from typing import Optional, Sequence

from xt import stack
from xt.lines import Object
from xt.names import Place

Parts = tuple[str, Sequence[stack.Told], str, Sequence[str]]  # text, calls, last step, notes

TOP = os.path.dirname(os.path.dirname(os.path.realpath(__file__)))
LIBRARY = os.path.join(TOP, "examples/c/")
MOST_TEXTS = 8  # of those that other orders send
LONGEST = 200  # characters of an order that stands in a line
# What a step does that is a breach of this kind.
BREACHES = {
    "Unset": "uses a value that its function never set",
    "SpWritten": "writes the stack pointer",
    "FrameSize": "makes a frame that is too small for the registers that are saved in it",
    "StackRange": "needs more stack than there is",
    "SpAlign": "makes a stack pointer that is no multiple of 16",
    "OpeningCall": "is an ENTRY that no call came to",
    "ReturnMismatch": "returns by another size of call than the one that came",
    "NoCaller": "returns, and nobody called",
    "SaveStore": "stores where registers of a caller are saved",
    "StaleLoad": "loads what a window handler may have left there",
    "ExcmRegister": "names one of a4 to a15 in exception mode",
    "WindowInstruction": "is an instruction for window handlers alone",
    "WindowRegister": "reads or writes WINDOWBASE or WINDOWSTART",
    "WoeCleared": "turns the windows off",
    "VecbaseMoved": "moves the vectors",
    "EpcLost": "reads EPC1 after a window exception may have written it",
    "Movsp": "moves the stack pointer by MOVSP to where it may not be",
    "VectorEntered": "goes into a window handler",
    "Nested": "does in an interrupt inside a window handler what is not allowed there",
}
# What they do if nothing has to come of it.
MOVES = {"Unset": "moves a value that its function never set", "Movsp": "moves the stack pointer"}
# What a secret does at an instruction, by the beginning of its name; the first that fits counts.
DECIDES = (
    ("b", "decided a branch"), ("s32c1i", "decided an exchange"),
    ("quo", "decided how long a division takes"), ("rem", "decided how long a division takes"),
    ("ss", "chose how far to shift"), ("loop", "chose how often a loop runs"),
    ("jx", "chose where to go on"), ("callx", "chose what is called"),
    ("ret", "chose where to return"), ("wsr", "was written to a special register"),
    ("xsr", "was written to a special register"), ("movsp", "chose a stack pointer"),
    ("entry", "chose a stack pointer"), ("l", "chose an address"), ("s", "chose an address"),
)
SENDER = 0x3FF40000  # the address that sends a byte
SIDES = {"load": "load", "store": "store", "compare_and_swap": "exchange"}
CAUSES = {
    0: "no instruction of this machine",
    1: "SYSCALL",
    5: "MOVSP, and the caller's registers are in memory",
    6: "a division by 0",
}


def named(it: Object) -> str:
    """An address in words: its name and its digits."""
    if not it["name"]:
        return "%08X" % it["address"]
    return "%s%s (%08X)" % (it["name"], "+%d" % it["offset"] if it["offset"] else "", it["address"])


def where(place: Place) -> str:
    """A function and its line."""
    return " ".join([place.function, place.short]).strip()


def finding(
    kind: str, text: str, calls: Sequence[stack.Told] = (), effect: str = "",
    notes: Sequence[str] = (),
) -> list[str]:
    """The lines of a finding: its text, the calls and the notes."""
    head = "%-8s%s" % (kind, text)
    return [head, *stack.shown(calls, effect), *("        " + note for note in notes)]


def effect_of(it: Object) -> str:
    """What the step of a finding does."""
    access = it["access"]
    if access is None:
        return it["instruction"]
    if access.kind == "store":
        return "stores %X at %08X" % (access.value, access.address)
    return "%s %08X" % ("loads from" if access.kind == "load" else "exchanges at", access.address)


# ---- How a core ended.


def end_parts(it: Object) -> Parts:
    """Of the end of a core its text, its calls, what its last step does, and notes."""
    end, turns = it["end"], it["turns"]
    if end == "exit":
        return exit_parts(it)
    if end == "exception" and it["step"] is not None:
        return exception_parts(it)
    if end == "turns":
        return waiting_parts(it)
    if end == "abort":
        return "ended: abort, after %d turns" % turns, it["calls"], "", ()
    text = {
        "idle": "makes no turns",
        "absent": "ended: it has no main1",
        "break": "ended: %s, after %d turns" % (it.get("instruction"), turns),
        "exception": "ended: an exception, after %d turns" % turns,
    }[end]
    return text, (), "", ()


def exit_parts(it: Object) -> Parts:
    found = it["register"]
    notes = []
    if found is not None:
        lack = "not each bit" if found["known"] else "no bit"
        notes.append(
            "%s of %d is known: the result of main, or the number of exit, was never set"
            % (lack, it["code"])
        )
        notes += origin(found)
    return "ended: exit(%d), after %d turns" % (it["code"], it["turns"]), (), "", notes


def exception_parts(it: Object) -> Parts:
    cause, text, address = it["cause"], it["instruction"] or "", it["address"]
    what = CAUSES.get(cause, "")
    if cause == 3:
        side = "store to" if re.match("s(8|16|32)", text) else "load from"
        what = "%s %08X, no memory there" % (side, address)
        if it["into_code"]:
            what = "store to %08X, where code lies, which no store changes" % address
            what += "" if it["runtime"] else "; put data into `.seg 0x3FFB0000`"
    elif cause == 9:
        what = "%08X is no multiple of the access's size" % address
    elif cause == 2:
        what = "no code at %08X" % address
    said = "ended: exception, cause %d (%s), at step %d" % (cause, what, it["step"])
    return said, it["calls"], text, ()


def waiting_parts(it: Object) -> Parts:
    until = "; its %d turns are used up" % it["turns"]
    if it["same_as"] is not None:
        again = (it["turns"], it["same_as"])
        until = " for ever: at step %d its state is that of step %d" % again
    if not it["waits"]:
        return "goes on" + until.replace(";", ":"), it["calls"], "", ()
    notes = [
        "%s %s" % (word["name"] or "%08X" % word["address"], owner(it["core"], word["last"]))
        for word in it["waits"]
    ]
    text = "waits for %s%s" % (" and ".join(map(named, it["waits"])), until)
    return text, it["calls"], "", notes


def owner(core: int, last: Optional[Object]) -> str:
    """Who stored into a word last, and where."""
    if last is None:
        return "was never stored into"
    places = [it.place for it in last["calls"] if it.place.place]
    library = (LIBRARY + "lib.c", LIBRARY + "include/")
    own = [it for it in places if not it.place.startswith(library)] or places
    chain = ", called by ".join(where(it) for it in own[:3])
    return "was %s by core %d%s at step %d%s" % (
        "taken" if last["exchange"] else "stored into last", last["core"],
        " itself" if last["core"] == core else "", last["step"], ", in " + chain if chain else "")


def ends(found: Sequence[Object]) -> list[str]:
    """The lines on both cores: one if there is nothing to tell of either."""
    parts = [end_parts(it) for it in found]
    if not any(it["finding"] for it in found):
        return ["%-52s%s" % ("core 0  " + parts[0][0], "core 1  " + parts[1][0])]
    return [line for core, it in enumerate(parts) for line in finding("core %d" % core, *it)]


# ---- The stack's rules and uses.


ANSWERS = {
    "none": "not judged: a window handler does not pass its check (the report's line `handlers`)",
    "whole": "whole",
    "same": "the same",
}


def verdict(it: Object) -> list[str]:
    if it["answer"] != "breach":
        return finding(it["kind"], ANSWERS[it["answer"]])
    name = it["breach"]
    head = "step %d of core %d " % (it["step"], it["core"])
    if not it["finding"]:
        words = MOVES.get(name, BREACHES[name])
        more = " (%s). Correct compiled code may do that" % name
        more += "; the line `uses` says whether it matters"
        return finding(it["kind"], head + words + more)
    words = BREACHES["StackRange"] if it["leaves_stack"] else BREACHES.get(name, "breaks a rule")
    text = "%s%s (%s%s)" % (head, words, name, ", longjmp" if it["longjmp"] else "")
    effect = effect_of(it)
    if it["calls"] and not it["calls"][0].text and effect != it["instruction"]:
        effect = "%s  %s" % (it["instruction"], effect)  # there is no line of C that shows it
    return finding(it["kind"], text, it["calls"], effect, breach_notes(it))


def breach_notes(it: Object) -> list[str]:
    """What is known besides of a breach."""
    notes = [part(found) for found in it["bytes"]]
    if it["pointer"]:
        found = it["pointer"]
        name = found["variable"]
        of = ("%s of " % name if name else "the frame of ") + found["function"]
        notes.append("the address comes from %s (%08X): step %d, in %s" % (
            of, found["address"], found["step"], where(found["place"])))
    if it["stack"]:
        low, high, used, calls = (it["stack"][name] for name in ("low", "high", "used", "calls"))
        notes.append(
            "the stack of core %d is %08X to %08X; %d of its %d bytes are used, by %d calls"
            % (it["core"], low, high - 1, used, high - low, calls))
    notes += [line for found in it["registers"] for line in origin(found)]
    if it["longjmp"]:
        notes.append(
            "setjmp and longjmp read the registers that callers have saved, which is always a breach")
    return notes


def part(it: Object) -> str:
    """What bytes of memory are."""
    if it["what"] == "gone":
        return "%08X is below the stack pointer: of a frame that is gone" % it["address"]
    if it["what"] == "name":
        return named(it)
    span = "%08X to %08X" % (it["first"], it["last"])
    if it["what"] == "saved":
        return "%s are for a%d to a%d of %s" % (span, *it["registers"], it["function"])
    size = it["last"] + 1 - it["first"]
    text = "the frame of %s has %d bytes, %s" % (it["function"], size, span)
    if it["variable"]:
        name, size, far = (it["variable"][name] for name in ("name", "bytes", "offset"))
        variable = "%s, %d bytes," % (name, size) if size else name
        text += "; %s begins %s" % (variable, "%d below" % far if far else "there")
    return text


def origin(it: Object) -> list[str]:
    """Where a register that is not known came from."""
    said = "%s of a%d is known" % ("no bit" if it["known"] == 0 else "not each bit", it["register"])
    if it["from"] is None:
        return [said]
    step = it["step"]
    if it["from"] == "heap":
        since = "%s: step %d freed the block that it comes from" if it["freed"] else (
            "%s: it comes from a block that step %d got, and nothing set it since")
        return [since % (said, step), *stack.shown(it["calls"])]
    place = where(it["place"])
    if it["from"] == "unset":
        return ["%s: it was a%d of %s, which nothing set since step %d" % (
            said, it["was"], place, step)]
    if it["from"] == "left":
        return ["%s: the return at step %d left it, in %s" % (said, step, place)]
    if it["from"] == "made":
        return ["%s: step %d made it, %s, in %s" % (said, step, it["instruction"], place)]
    head = "%s: step %d loaded it from %08X, in %s" % (said, step, it["address"], place)
    return [head, *map(part, it["bytes"])]


# ---- Secrets.


def secret(it: Object) -> list[str]:
    if it["answer"] == "whole":
        return finding("secret", "whole: the run is the same with any other content of %s" % it["secret"])
    does = next((does for name, does in DECIDES if it["instruction"].startswith(name)), "decided something")
    if it["access"] and it["access"].address == SENDER:
        does = "was sent"
    found = dict.fromkeys(secret_origin(register) for register in it["registers"])
    notes = ["%s, and %s at %s" % (came, does, line_of(it["place"])) for came in found if came]
    text = "step %d of core %d uses a bit that depends on %s" % (it["step"], it["core"], it["secret"])
    return finding("secret", text, it["calls"], effect_of(it), notes)


def secret_origin(it: Object) -> str:
    """Where a register that depends on a secret came from; nothing if that is not known."""
    if it["from"] is None:
        return ""
    if it["from"] == "made":
        return "a%d was computed at %s" % (it["register"], line_of(it["place"]))
    name = it["name"] or "%08X" % it["address"]
    if it["name"] and it["size"] == 1:
        name += "[%d]" % it["offset"]
    elif it["offset"]:
        name += "+%d" % it["offset"]
    return "%s was loaded at %s" % (name, line_of(it["place"]))


def line_of(place: Place) -> str:
    """A line, or if none is known the function."""
    return place.short or place.function


# ---- Both cores, and interrupts.


def race(it: Object) -> list[str]:
    if it["answer"] == "none":
        return finding("race", "none in this order")
    first, second = it["sides"]
    kinds = [SIDES[side["access"].kind] for side in it["sides"]]
    lines = finding("race", "%s by core %d and %s by core %d, and nothing orders them: %s" % (
        kinds[0], first["core"], kinds[1], second["core"], named(it)))
    for side in it["sides"]:
        lines.append("        step %d of core %d" % (side["step"], side["core"]))
        lines += stack.shown(side["calls"], effect_of(side))
    return lines


def sent_text(found: Object) -> str:
    """The end of a text that is sent."""
    return json.dumps(bytes.fromhex(found["hex"])[-38:].decode(errors="replace")) if found["hex"] else "nothing"


def order(options: Sequence[str]) -> str:
    """The words that give a run this order, if they are not too long for a line."""
    text = " ".join(options)
    return text if len(text) <= LONGEST else "an order of %d parts, which --json prints" % (text.count(",") + 1)


LACKS = {
    "states": "there are more than %d states of the two cores",
    "time": "a core reads the time",
    "memory": "there was too little memory",
}


def listed(rows: Sequence[tuple[str, Sequence[str]]], what: str) -> list[str]:
    """Lines with what comes out and an order that leads there."""
    lines = ["          %-40s  %s" % (text, order(options)) for text, options in rows[:MOST_TEXTS]]
    if len(rows) > MOST_TEXTS:
        lines.append("          and %d other %s" % (len(rows) - MOST_TEXTS, what))
    return lines


def results(it: Object, which: str) -> list[str]:
    """What is sent in these orders, and if that is the same, how the word of the race ends: a text, and lines."""
    texts: dict[str, Sequence[str]] = {}
    values: dict[str, Sequence[str]] = {}
    for found in it["sent"]:
        texts.setdefault(found["hex"], found["options"])
        if found["value"] is not None:
            values.setdefault("%08X" % found["value"], found["options"])
    if not texts:
        return ["in none of them both cores end"]
    if len(texts) > 1:
        rows = [(sent_text({"hex": text}), options) for text, options in texts.items()]
        return ["%s it sends one of %d texts" % (which, len(texts)), *listed(rows, "texts")]
    one = "%s it sends %s" % (which, sent_text(it["sent"][0]))
    if len(values) < 2:
        return [one]
    head = "%s, and %s ends with one of %d values" % (one, named(it["word"]), len(values))
    return [head, *listed(list(values.items()), "values")]


def orders(it: Object) -> list[str]:
    """What other orders of the two cores' turns lead to."""
    if it["answer"] == "all":
        text, *lines = results(it, "in each")
        lines = finding("orders", "all were looked at: " + text) + lines
        lines.append("        " + (
            "after %s the cores can never both end" % order(it["stuck"]) if it["stuck"] else
            "nothing is stuck: at each point of each order both cores can still end"))
    else:
        lack = LACKS[it["lack"]]
        head = "not all were looked at: " + (lack % it["states"] if "%d" in lack else lack)
        lines = finding("orders", head)
        if it["tried"] is not None:
            before = "in those and " if it["frames"] else ""
            text, *more = results(it, before + "in %d that were run" % it["tried"])
            lines += ["        " + text] + more
    if it["unended"]:
        lines.append("        with %s a core does not end in its turns" % order(it["unended"]))
    return lines + race_of_orders(it) + frames_of_orders(it)


def race_of_orders(it: Object) -> list[str]:
    """The race of another order, if this run has none."""
    if it["race"] is None:
        return ["        no order leads to a race"] if it["answer"] == "all" and it["word"] is None else []
    parts = ["%s by core %d at %s" % (SIDES[side["access"].kind], side["core"], where(side["place"]))
             for side in it["race"]["sides"]]
    return ["        after %s a race comes next: %s, at %s" % (
        order(it["race"]["options"]), " and ".join(parts), named(it["race"]))]


def frames_of_orders(it: Object) -> list[str]:
    """Whether other orders keep the rules of the stack."""
    if it["frames"] == "whole":
        return ["        each order keeps the rules of the stack"]
    lines = []
    for found in [found for found in it["breaches"] if found["finding"]][:MOST_TEXTS]:
        place = ", in " + where(found["place"]) if found["place"] else ""
        lines.append("        with %s a step of core %d %s (%s)%s" % (
            order(found["options"]), found["core"], BREACHES.get(found["breach"], "breaks a rule"), found["breach"], place))
    if it["frames"] == "unknown" and it["answer"] == "all":
        lines.append("        it is not known whether each order keeps the rules of the stack")
    return lines


# ---- Orders with moments.


def moments(it: Object) -> list[str]:
    """What orders with moments lead to."""
    if it["answer"] == "all":
        head = "all were looked at: " + ends_text(it)
    elif it["lack"] == "time" and it["time"]:
        place = where(it["time"]["at"].place)
        head = "not all were looked at: what CCOUNT is decides something on core %d, in %s" % (it["time"]["core"], place)
    else:
        head = "not all were looked at: " + MOMENT_LACKS[it["lack"]].format(it["states"])
    lines = finding("moments", head)
    for number, end in enumerate(it["ends"][:MOST_TEXTS], 1):
        lines += end_lines(it, number, end)
    if len(it["ends"]) > MOST_TEXTS:
        lines.append("        and %d other ends" % (len(it["ends"]) - MOST_TEXTS))
    if it["stuck"]:
        lines += moment_lines("the cores can never both end ", it["stuck"])
    elif it["is_settled"]:
        lines.append("        nothing is stuck: at each point of each order both cores can still end")
    return lines


MOMENT_LACKS = {
    "states": "there are more than {} states of the two cores",
    "time": "what CCOUNT is decides something",
    "memory": "there was too little memory",
}


def ends_text(it: Object) -> str:
    """How many ends there are."""
    count = len(it["ends"])
    return "the cores can end in one way" if count == 1 else "the cores can end in %d ways" % count


def end_lines(it: Object, number: int, end: Object) -> list[str]:
    """The lines of the end that `outcomes` lists with this number: what is sent and left, and the moments that lead there."""
    parts = ["%s = %08X" % (word["name"] or "%08X" % word["address"], value)
             for word, value in zip(it["words"], end["values"])]
    if len({other["hex"] for other in it["ends"]}) > 1 or not parts:
        parts.insert(0, "it sends " + sent_text(end))
    return moment_lines("outcome %d: %s " % (number, ", ".join(parts)), end)


def moment_lines(head: str, end: Object) -> list[str]:
    """The lines of an order's moments, and of what is lost by them."""
    fires = ["timer %d of core %d fires %s step %d" % (
        one["timer"], one["core"], "after" if one["is_after"] else "before", one["step"]) for one in end["moments"]]
    lines = [] if fires else ["        %sif no timer fires, with %s" % (head, order(["--order", end["order"]]))]
    for at, (text, one) in enumerate(zip(fires, end["moments"])):
        lines.append("        " + (head + "if " + text if at == 0 else "    and " + text))
        lines += stack.shown(one["calls"], one["instruction"] or "")
    for found in end["lost"]:
        places = (named(found), line_of(found["load"].place), line_of(found["store"].place))
        text = "the interrupt comes between a load of %s at %s and the store at %s: what it stores there is lost" % places
        lines.append("        " + text)
    return lines


def interrupts(it: Object) -> list[str]:
    head = " %d of core %d; " % (it["times"], it["core"])
    if not it["lost"]:
        return finding(
            "interrupts", head + "none came between a load and a store of bytes that it changes")
    lines = []
    for found in it["lost"]:
        calls = [found["load"], found["store"]]
        if calls[0].place.place == calls[1].place.place:
            calls.pop()
        lines += finding(
            "interrupts",
            " %d of the %d of core %d came between a load and a store of %s; what they stored there is"
            " lost" % (found["times"], it["times"], it["core"], named(found)), calls)
    return lines


BY_KIND = {
    "stack": verdict, "uses": verdict, "secret": secret, "race": race, "orders": orders, "moments": moments,
    "interrupts": interrupts,
}


def lines_of(it: Object) -> list[str]:
    """The lines of a finding that is no end of a core."""
    return BY_KIND[it["kind"]](it)
