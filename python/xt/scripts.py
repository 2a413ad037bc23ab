"""How the scripts of bin/ end: the exit codes of docs/STATUS.md."""
from __future__ import annotations

import os
import sys
from typing import Callable, NoReturn, Optional

from .errors import UsageError, XtError
from .names import Names
from .run import places

# The options of `run` that have a value and that scripts pass on.
VALUED = "--turns0 --turns1 --entry1 --vecbase --stack0 --stack1 --seed --order --require".split()


class Refused(Exception):
    """The end of a script: its exit code, and the reason for standard error."""

    def __init__(self, code: int, reason: str) -> None:
        super().__init__(code, reason)
        self.code, self.reason = code, reason


def refuse(code: int, reason: str) -> NoReturn:
    raise Refused(code, reason)


def secret_words(names: Names, secret: Optional[str], public: Optional[str]) -> list[str]:
    """The words `--secret LIST` and `--public LIST`, if there are lists, of which each part may name a
    variable. A part that is none is refused."""
    given = {"secret": secret, "public": public}
    try:
        return places(**{name: names.ranges(text) for name, text in given.items() if text is not None})
    except ValueError as fault:
        refuse(64, f"{os.path.basename(sys.argv[0])}: {fault}")


def run_main(main: Callable[[], int]) -> int:
    """The exit code of a script. What it refuses, what xt refuses, and output that cannot be
    written end as with xt, except that words which xt refuses are 64."""
    try:
        code = main()
        sys.stdout.flush()
        return code
    except Refused as end:
        print(end.reason, file=sys.stderr)
        return end.code
    except XtError as end:
        print(f"xt: {end.status}" if end.code < 64 else end.status, file=sys.stderr)
        return 64 if isinstance(end, UsageError) else end.code
    except OSError as fault:
        if fault.filename is not None:
            raise
        os.dup2(os.open(os.devnull, os.O_WRONLY), 1)  # where what is left goes
        if isinstance(fault, BrokenPipeError):
            return 141
        print("xt: WriteFault", file=sys.stderr)
        return 6
