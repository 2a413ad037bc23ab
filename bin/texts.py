"""What the scripts of bin/ say of a source text that is given in place of what is made of it."""
import os

from xt.scripts import refuse


def refuse_source(script, path):
    """Refuses a source text, and says which command makes of it what the script takes."""
    stem, ending = os.path.splitext(path or "")
    if ending == ".c":
        refuse(64, f"{script}: {path} is a text in C: `examples/c/xtcc {stem}.elf {path}` compiles it")
    if ending in (".s", ".S"):
        refuse(64, f"{script}: {path} is a text: `bin/xt asm {path} > {stem}.img` makes its image")
