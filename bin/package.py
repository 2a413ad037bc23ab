"""Lets a script of bin/ import the package xt of the same clone or archive: `import package`
comes first."""
import sys
from pathlib import Path

sys.path.insert(0, str(Path(__file__).resolve().parents[1] / "python"))
