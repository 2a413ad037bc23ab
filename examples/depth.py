#!/usr/bin/env python3
"""Draws how deep the calls of core 0 are over time: python3 examples/depth.py FILE [PICTURE]

FILE is an image or an ELF executable. With matplotlib the picture goes to the file PICTURE; without that word a line of
text stands for each part of the run, with its first step, the deepest call in it, and a mark for each call.
"""
import sys
from pathlib import Path

sys.path.insert(0, str(Path(__file__).resolve().parents[1] / "python"))
import xt  # noqa: E402

ROWS = 16  # lines of text


def main(path, picture=None):
    turns = xt.Run(path, turns1=0).trace(core=0, frames=True)
    depths = [turn.frames.depth if turn.frames else 0 for turn in turns]
    if picture:
        try:
            from matplotlib import pyplot
        except ImportError:
            raise SystemExit("depth.py: there is no matplotlib; without PICTURE it draws with letters") from None
        pyplot.step(range(len(depths)), depths)
        pyplot.xlabel("step of core 0")
        pyplot.ylabel("calls")
        return pyplot.savefig(picture)
    size = -(-len(depths) // ROWS) or 1
    for first in range(0, len(depths), size):
        deepest = max(depths[first:first + size])
        print(f"{first:6} {deepest:3}  {'*' * deepest}".rstrip())


if __name__ == "__main__":
    main(*sys.argv[1:])
