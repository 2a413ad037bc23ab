"""The local variables of the functions of an ELF file, of which bin/why names one for an address of the stack.

They are read from what `readelf --debug-dump=info` prints of the file.
"""
import re

TYPED = ("DW_TAG_variable", "DW_TAG_formal_parameter")
THROUGH = ("DW_TAG_typedef", "DW_TAG_const_type", "DW_TAG_volatile_type")
# How likely a variable of this type was overrun; others are less likely.
RANKS = {"DW_TAG_array_type": 2, "DW_TAG_structure_type": 1, "DW_TAG_union_type": 1}


class Variable:
    """A variable of a function: where it begins, from the caller's a1 on, its name, its size, 0 if that is not known, and
    the rank of its type."""

    def __init__(self, begin, name, size, rank):
        self.begin, self.name, self.size, self.rank = begin, name, size, rank

    def holds(self, offset):
        return self.begin <= offset < self.begin + max(self.size, 1)

    def text(self):
        return "%s, %d bytes," % (self.name, self.size) if self.size else self.name


class Entries:
    """The entries of the file, by their offsets: for each its tag and its attributes as texts."""

    def __init__(self, text):
        self.tags, self.texts, self.counts, self.order = {}, {}, {}, []
        array = None
        for part in re.split(r"\n(?= <)", text):
            head = re.match(r" <(\d+)><([0-9a-f]+)>:.*\((DW_TAG_\w+)\)", part)
            if not head:
                continue
            key, tag = head[2], head[3]
            self.tags[key], self.texts[key] = tag, part
            self.order.append(key)
            if tag == "DW_TAG_array_type":
                array, self.counts[key] = key, 1
            elif tag == "DW_TAG_subrange_type" and array:
                most = re.search(r"DW_AT_upper_bound +: (\d+)", part)
                self.counts[array] *= int(most[1]) + 1 if most else 0

    def reference(self, key, name):
        found = re.search(name + r" *: <0x([0-9a-f]+)>", self.texts.get(key, ""))
        return found[1] if found else None

    def attribute(self, key, form):
        """What a form finds in an entry, or in the one that it stands for."""
        while key:
            found = re.search(form, self.texts.get(key, ""))
            if found:
                return found[1]
            key = self.reference(key, "DW_AT_abstract_origin")
        return None

    def size(self, key):
        """The number of bytes of a type, 0 if it is not known, and its rank."""
        for _ in range(16):
            tag = self.tags.get(key)
            if tag not in THROUGH:
                break
            key = self.reference(key, "DW_AT_type")
        else:
            return 0, 0
        if tag == "DW_TAG_array_type":
            return self.size(self.reference(key, "DW_AT_type"))[0] * self.counts[key], RANKS[tag]
        return int(self.attribute(key, r"DW_AT_byte_size +: (\d+)") or 0), RANKS.get(tag, 0)

    def variable(self, key):
        """The variable of an entry, or None if it has no place on the stack."""
        place = re.search(r"DW_OP_fbreg: (-?\d+)", self.texts[key])
        if not place:
            return None
        name = self.attribute(key, r"DW_AT_name +: (?:\(.*?\): )?(\S+)") or "a variable"
        return Variable(int(place[1]), name, *self.size(self.attribute(key, r"DW_AT_type +: <0x([0-9a-f]+)>")))


def functions_of(text):
    """The functions of a file: the addresses from which and up to which each goes, and its variables."""
    entries, found, inside = Entries(text), [], False
    for key in entries.order:
        if entries.tags[key] == "DW_TAG_subprogram":
            low = re.search(r"DW_AT_low_pc +: 0x([0-9a-f]+)", entries.texts[key])
            size = re.search(r"DW_AT_high_pc +: 0x([0-9a-f]+)", entries.texts[key])
            inside = bool(low and size)
            if inside:
                found.append((int(low[1], 16), int(low[1], 16) + int(size[1], 16), []))
        elif inside and entries.tags[key] in TYPED:
            variable = entries.variable(key)
            found[-1][2].extend([variable] if variable else [])
    return found


def nearest(functions, pc, offset):
    """The variable of the function at pc that holds the byte so many bytes from its caller's a1; else the nearest
    array below, which may have been overrun, else the nearest structure, and else the nearest variable. None if there is
    none."""
    below = [it for low, high, variables in functions if low <= pc < high for it in variables if it.begin <= offset]
    holding = [it for it in below if it.holds(offset)]
    return max(holding or below, key=lambda it: (it.rank if not holding else 0, it.begin), default=None)
