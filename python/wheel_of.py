"""Builds the wheel of the package xt for pip, from pyproject.toml and the files of xt/, without
any other package, so that `pip install ./python` needs no network. The hooks are those of PEP
517."""
import base64
import hashlib
import re
import tarfile
import zipfile
from pathlib import Path

HERE = Path(__file__).resolve().parent
NAME = "xt"


def said(field):
    """A text of pyproject.toml, whose lines here have the form `field = "text"`."""
    text = (HERE / "pyproject.toml").read_text(encoding="utf-8")
    return re.search(rf'^{field} = "(.*)"$', text, re.M)[1]


def metadata():
    return (
        f"Metadata-Version: 2.1\nName: {NAME}\nVersion: {said('version')}\nSummary: {said('description')}\n"
        f"License: MIT OR Apache-2.0\nRequires-Python: {said('requires-python')}\n"
    )


def files():
    """The files of a wheel by their names."""
    found = {f"{NAME}/{it.name}": it.read_bytes() for it in sorted((HERE / NAME).iterdir()) if it.is_file()}
    wheel = f"Wheel-Version: 1.0\nGenerator: {Path(__file__).stem}\nRoot-Is-Purelib: true\nTag: py3-none-any\n"
    folder = f"{NAME}-{said('version')}.dist-info"
    return found | {f"{folder}/METADATA": metadata().encode(), f"{folder}/WHEEL": wheel.encode()}


def build_wheel(wheel_directory, config_settings=None, metadata_directory=None):
    name = f"{NAME}-{said('version')}-py3-none-any.whl"
    record = f"{NAME}-{said('version')}.dist-info/RECORD"
    rows = ""
    with zipfile.ZipFile(Path(wheel_directory) / name, "w", zipfile.ZIP_DEFLATED) as made:
        for path, data in files().items():
            made.writestr(path, data)
            digest = base64.urlsafe_b64encode(hashlib.sha256(data).digest()).rstrip(b"=").decode()
            rows += f"{path},sha256={digest},{len(data)}\n"
        made.writestr(record, f"{rows}{record},,\n")
    return name


def build_sdist(sdist_directory, config_settings=None):
    folder = f"{NAME}-{said('version')}"
    with tarfile.open(Path(sdist_directory) / f"{folder}.tar.gz", "w:gz") as made:
        for path in ("pyproject.toml", Path(__file__).name, NAME):
            made.add(HERE / path, f"{folder}/{path}", filter=lambda it: None if "__pycache__" in it.name else it)
    return f"{folder}.tar.gz"
