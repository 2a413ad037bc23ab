"""Runs of xt from Python: docs/PYTHON.md of the repository shows each class.

Each class holds what the program prints; nothing is worked out here. A command that ends without
success raises an `XtError`, made of its status line.
"""
from .errors import (
    AsmError, ElfError, ImageError, LineError, Missing, OutOfMemory, PastEnd, ReadFault,
    RecordingError, RequiredError, TooLargeError, UsageError, WriteFault, XtError,
)
from .names import Names, Place, Symbol
from .outcomes import Outcome, Outcomes
from .program import Program
from .recording import Checkpoint, Entry, Recording
from .report import (
    Breach, Calls, Count, Event, Handler, Leak, Others, Profile, Race, Register, Report, Secrets,
    Stop, Uses, Verdict,
)
from .run import Options, Run
from .session import Frame, Memory, Registers, RingWindow, Session
from .turns import Access, Area, Known, Turn, Window, Write

__all__ = [
    "Access", "Area", "AsmError", "Breach", "Calls", "Checkpoint", "Count", "ElfError", "Entry",
    "Event", "Frame", "Handler", "ImageError", "Known", "Leak", "LineError", "Memory", "Missing",
    "Names", "Options", "Others", "OutOfMemory", "Outcome", "Outcomes", "PastEnd", "Place",
    "Profile", "Program", "Race", "ReadFault", "Recording", "RecordingError", "Register",
    "Registers", "Report", "RequiredError", "RingWindow", "Run", "Secrets", "Session", "Stop",
    "Symbol", "TooLargeError", "Turn", "UsageError", "Uses", "Verdict", "Window", "Write",
    "WriteFault", "XtError",
]
