"""Conditions on a register or a word of a recorded run, such as `a2 == 5` or `count > 10`."""
from __future__ import annotations

import operator
import re
from dataclasses import dataclass
from typing import Callable, Optional

from .names import Names
from .session import Session

FORM = "A == N: A is a0 to a15, a variable or an address; also != < <= > >="
WORDS = re.compile(r"\s*([^\s=!<>]+)\s*(==|!=|<=|>=|<|>)\s*([^\s=!<>]+)\s*")
RELATIONS: dict[str, Callable[[int, int], bool]] = {
    "==": operator.eq, "!=": operator.ne, "<": operator.lt, "<=": operator.le, ">": operator.gt,
    ">=": operator.ge,
}
NUMBER = re.compile("-?(0x[0-9A-Fa-f]{1,8}|[0-9]+)")


@dataclass(frozen=True)
class Condition:
    """Compares a register, or `size` bytes (1, 2 or 4) at an address, with a number. All are
    numbers without a sign, unless the number is below 0: then all have one."""

    register: Optional[int]
    address: int
    size: int
    relation: str
    number: int

    def holds(self, session: Session, core: int) -> bool:
        """Whether it holds at the session's position, of this core's registers. It does not where
        the address is no memory."""
        if self.register is not None:
            value: Optional[int] = session.registers(core).a[self.register]
        else:
            found = session.memory(self.address, self.size).bytes
            known = [it for it in found if it is not None]
            value = int.from_bytes(bytes(known), "little") if len(known) == self.size else None
        if value is None:
            return False
        if self.number < 0 and value >> (8 * self.size - 1):
            value -= 1 << 8 * self.size
        return RELATIONS[self.relation](value, self.number)


def condition_of(text: str, names: Names) -> Condition:
    """The condition that a text is, as `a2 == 5`. A ValueError says what is wrong."""
    parts = WORDS.fullmatch(text)
    if not parts or not NUMBER.fullmatch(parts[3]):
        raise ValueError(f"the form of a condition is {FORM}")
    what, relation, number = parts[1], parts[2], int(parts[3], 0)
    register = re.fullmatch("a([0-9]|1[0-5])", what)
    if register:
        return Condition(int(register[1]), 0, 4, relation, number)
    addresses = names.addresses(what)
    if len(addresses) != 1:
        raise ValueError(f"there is no {what}")
    size = next((it.size for it in names.symbols if it.name == what), 4)
    return Condition(None, addresses[0], size if size in (1, 2) else 4, relation, number)
