"""Where a value came from: a walk back over the turns of one core, from a step that reads a register to the one that
made it. bin/why says with it where an unknown value, a secret, or the pointer of a store came from.

The walk follows moves, loads of what the core itself stored, arguments over ENTRY and results over RETW. It knows no
more than the lines of `trace` say, and passes over window handlers and interrupts, so it is no part of any proof.
"""
import re

MOST = 400  # definitions that one walk looks at
KINDS = {"load": "ld", "store": "st", "compare_and_swap": "cas"}


class Turn:
    """One turn of a trace, with WINDOWBASE before it and after it."""

    def __init__(self, turn, base):
        self.step, self.pc, self.kind, self.text = turn.step, turn.pc, turn.event, turn.instruction
        self.register, self.value = (turn.write.register, turn.write.value) if turn.write else (None, None)
        access = turn.access
        self.access = KINDS[access.kind] if access else None
        self.address, self.size = (access.address, access.size) if access else (0, 0)
        self.before, self.after = base, turn.window.base if turn.window else base

    def runs(self, *names):
        """Whether it executed one of these instructions."""
        return self.kind == "insn" and self.text.split(" ")[0].removesuffix(".n") in names

    def operands(self):
        return [it.strip() for it in self.text.partition(" ")[2].split(",")]

    def sources(self):
        """The registers that it reads, without the first operand, which it writes."""
        found = [int(it[1:]) for it in self.operands()[1:] if re.fullmatch(r"a\d+", it)]
        return list(dict.fromkeys(found))


def turns_of(turns, base):
    """These turns, of which the first begins with this WINDOWBASE."""
    found = []
    for turn in turns:
        found.append(Turn(turn, base))
        base = found[-1].after
    return found


def visible(turns):
    """Those of the turns that belong to the code which makes the last of them: no window handler, no interrupt, and
    nothing before the interrupt in which it is."""
    kept, outer = [], []
    for turn in turns:
        if turn.kind in ("window", "exc", "int"):
            outer.append(kept)
            kept = []
        elif turn.runs("rfwo", "rfwu", "rfe", "rfi") and outer:
            kept = outer.pop()
        else:
            kept.append(turn)
    return kept


class End:
    """Where a walk ended: `unset`, a register of a function that nothing set since its ENTRY; `empty`, bytes of a frame
    that nothing stored since its ENTRY, or of one that is gone; `left`, a register that a return left; `made`, what an
    instruction made; or `unknown`. With the turn of that ENTRY, return or instruction, and for bytes the load."""

    def __init__(self, kind, turn=None, register=None, load=None):
        self.kind, self.turn, self.register, self.load = kind, turn, register, load


class Walk:
    def __init__(self, turns, is_pointer):
        self.turns, self.is_pointer, self.left = visible(turns), is_pointer, MOST

    def definition(self, at, register):
        """The turn before `at` that made a register of the function there: its index, and the number of the register in
        the function that it was made in. Or the End that comes before."""
        depth = 0  # calls between the turn that is looked at and the function of the register
        for i in range(at - 1, -1, -1):
            turn = self.turns[i]
            if turn.runs("retw"):
                size = (turn.before - turn.after) % 16 * 4
                if depth == 0 and register >= size:
                    register -= size
                    if not 2 <= register <= 5:
                        return End("left", turn, register + size)
                else:
                    depth += 1
            elif turn.runs("entry"):
                size = (turn.after - turn.before) % 16 * 4
                if depth:
                    depth -= 1
                elif register == 1:
                    return i, register
                elif register >= 16 - size:
                    return End("unset", turn, register)
                else:
                    register += size
            elif depth == 0 and turn.register == register:
                return i, register
        return End("unknown")

    def store(self, at):
        """The index of the turn before a load with which each byte of it was stored, or the End before."""
        load = self.turns[at]
        missing = set(range(load.address, load.address + load.size))
        depth, found = 0, None  # calls that returned before the load; the store, if it is inside of one
        for i in range(at - 1, -1, -1):
            turn = self.turns[i]
            if turn.runs("retw"):
                depth += 1
            elif turn.runs("entry"):
                below = 16 if depth else 0  # a return leaves nothing there
                if turn.value - below <= load.address < turn.value + int(turn.operands()[1]):
                    return End("empty", turn, load=load)
                depth = max(0, depth - 1)
            elif turn.access == "st" and missing:
                missing.difference_update(range(turn.address, turn.address + turn.size))
                found = found if missing else i
            if depth == 0 and found is not None:
                return found
        return End("unknown", load=load) if found is None else found

    def origin(self, at, register):
        """The End of a register that the turn `at` reads and of which not each bit is known."""
        end = End("unknown")
        while self.left > 0:
            self.left -= 1
            found = self.definition(at, register)
            if isinstance(found, End):
                return found
            at, register = found
            turn = self.turns[at]
            if turn.access == "ld":
                stored = self.store(at)
                if isinstance(stored, End):
                    return stored
                at, register = stored, int(self.turns[stored].operands()[0][1:])
                continue
            sources = [it for it in turn.sources() if it != 1]
            end = End("made" if sources else "unknown", turn, register)
            if len(sources) != 1:
                return self.of_several(at, sources) or end
            register = sources[0]
        return end

    def secret(self, at, register, is_secret):
        """The load of a secret byte that a register which the turn `at` reads comes from: an End `loaded`. If none is found,
        the End `made` with the last turn that made the register of several, or `unknown`."""
        while self.left > 0:
            self.left -= 1
            found = self.definition(at, register)
            if isinstance(found, End):
                break
            at, register = found
            turn = self.turns[at]
            if turn.access == "ld":
                stored = self.store(at)
                if isinstance(stored, End):
                    return End("loaded" if is_secret(turn.address, turn.size) else "unknown", turn, load=turn)
                at, register = stored, int(self.turns[stored].operands()[0][1:])
                continue
            sources = turn.sources() + [register] * turn.runs("moveqz", "movnez", "movltz", "movgez")
            if len(sources) != 1:
                ends = (self.secret(at, it, is_secret) for it in sources if it != 1)
                return next((end for end in ends if end.kind == "loaded"), End("made" if sources else "unknown", turn, register))
            register = sources[0]
        return End("unknown")

    def of_several(self, at, sources):
        """The first End of several registers that names where nothing was set."""
        for register in sources:
            end = self.origin(at, register)
            if end.kind in ("unset", "empty", "left"):
                return end
        return None

    def object(self, at, register):
        """The turn that made the first address of a pointer that the turn `at` has in a register: the address of an
        object on a stack. None if none is found."""
        while self.left > 0:
            self.left -= 1
            found = self.definition(at, register)
            if isinstance(found, End):
                return None
            at, register = found
            turn = self.turns[at]
            if turn.access == "ld":
                at = self.store(at)
                if isinstance(at, End):
                    return None
                register = int(self.turns[at].operands()[0][1:])
                continue
            sources = turn.sources()
            if 1 in sources and turn.runs("addi", "addmi", "mov", "add", "or", "movsp"):
                return turn
            if len(sources) > 1:
                sources = [it for it in sources if self.points(at, it)]
            if len(sources) != 1:
                return None
            register = sources[0]
        return None

    def points(self, at, register):
        """Whether a register of the turn `at` holds an address of a stack."""
        found = self.definition(at, register)
        return not isinstance(found, End) and self.is_pointer(self.turns[found[0]].value or 0)
