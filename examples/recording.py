#!/usr/bin/env python3
"""Reads a recording of `xt record`, from its bytes alone, and finds its first race by the trace.

    python3 examples/recording.py show x.rec
    bin/xt trace x.rec | python3 examples/recording.py race x.rec

`show` prints the options, the numbers of turns decimal and addresses hexadecimal, the entries and where each checkpoint
stands. `race` prints the first race, as `bin/xt race` does; its standard input is what `xt trace` prints, which says what
each entry was made by. The package xt of python/ takes both apart (docs/PYTHON.md, docs/RECORDING.md).
"""
import sys
from collections import deque
from pathlib import Path

sys.path.insert(0, str(Path(__file__).resolve().parents[1] / "python"))
import xt  # noqa: E402
from xt.recording import MEMORIES  # noqa: E402


def made_by(lines, entries):
    """For each entry the line of its turn, and the turn. The turns with an access come in their order."""
    turns = []
    for line in lines:
        turn = xt.Turn.parse(line.rstrip("\n"))
        if turn.access:
            turns.append((line.partition(" | ")[0].rstrip("\n"), turn))
    if [(turn.core, turn.access) for _, turn in turns] != [(it.core, it.access) for it in entries]:
        raise SystemExit("this is not the trace of this recording")
    return turns


def first_race(turns):
    """The first pair of accesses that no synchronisation orders: the least second, and for it the least first."""
    touched = ({}, {})   # of each core, by byte, whether it stores and whether it synchronises: places of accesses
    released = ({}, {})  # of each core, by address: the place of its latest release
    acquired = [-1, -1]  # of each core: what the other did up to this place comes before what it does now
    for j, turn in enumerate(turns):
        own, other, entry = turn.core, 1 - turn.core, turn.access
        writes, orders = entry.stores, turn.mnemonic in ("s32ri", "l32ai", "s32c1i")
        if turn.mnemonic in ("l32ai", "s32c1i"):
            acquired[own] = max(acquired[own], released[other].get(entry.address, -1))
        found = []
        for byte in entry.bytes:
            if not any(low <= byte < high for low, high in MEMORIES):
                continue
            touched[own].setdefault((byte, writes, orders), deque()).append(j)
            for key in ((byte, w, o) for w in (False, True) for o in (False, True) if (w or writes) and not (o and orders)):
                places = touched[other].get(key, ())
                while places and places[0] <= acquired[own]:
                    places.popleft()
                found += [places[0]] if places else []
        if found:
            return min(found), j
        if turn.mnemonic == "s32ri" or (turn.mnemonic == "s32c1i" and writes):
            released[own][entry.address] = j
    return None


def main():
    if len(sys.argv) != 3 or sys.argv[1] not in ("show", "race"):
        sys.exit(__doc__)
    recording = xt.Recording(sys.argv[2])
    if sys.argv[1] == "show":
        options = recording.options.items()
        print(" ".join(f"{name} {it}" if name.startswith("turns") else f"{name} {it:08X}" for name, it in options))
        for i, entry in enumerate(recording.entries):
            print(i, "core", entry.core, entry)
        for point in recording.checkpoints:
            print(f"checkpoint at position {point.position}, before entry {point.entries}")
        return
    turns = made_by(sys.stdin, recording.entries)
    race = first_race([turn for _, turn in turns])
    print(f"race {race[0]} {race[1]}\n{turns[race[0]][0]}\n{turns[race[1]][0]}" if race else "race none")


if __name__ == "__main__":
    main()
