"""What bin/xt itself says for programs: faults of a text as objects, and failing devices, also
those of the other scripts. bin/xt runs the program of this clone, so its tests are left out if that
is another than the one which is asked."""
from __future__ import annotations

import json
import os
import subprocess
import sys
import tempfile
import unittest
from pathlib import Path
from typing import Any, Optional

from support import TOP, program

BAD = ".seg 0x400D0000\n.entry start\nstart:  movi a2, 4000\n        j strat\n"


def run(
    *words: str, output: Any = subprocess.PIPE, environment: Optional[dict[str, str]] = None,
) -> subprocess.CompletedProcess[bytes]:
    return subprocess.run(
        [str(TOP / "bin/xt"), *words], stdout=output, stderr=subprocess.PIPE, env=environment,
        check=False)


class Wrapper(unittest.TestCase):
    @classmethod
    def setUpClass(cls) -> None:
        if os.path.realpath(program().path) != str(TOP / "crates/xt/out/xt"):
            raise unittest.SkipTest("bin/xt runs another program than the one that is asked")

    def test_faults(self) -> None:
        """docs/STATUS.md: the faults of `bad.s`, in lines 3 and 4; alone and behind another file.
        """
        with tempfile.TemporaryDirectory() as folder:
            bad, good = Path(folder) / "bad.s", Path(folder) / "good.s"
            bad.write_text(BAD, encoding="utf-8")
            good.write_text("# one line", encoding="utf-8")
            for files in ((bad,), (good, bad)):
                done = run("asm", "--json", *map(str, files))
                self.assertEqual(done.returncode, 3)
                rows = [json.loads(it) for it in done.stderr.decode().splitlines() if it[0] == "{"]
                found = [(it["file"], it["line"], it["column"], it["end"]) for it in rows]
                self.assertEqual(found, [(str(bad), 3, 18, 22), (str(bad), 4, 11, 16)])
                self.assertEqual([it["kind"] for it in rows], [2, 1])

    def test_full_device(self) -> None:
        image = str(TOP / "examples/letter.bin")
        asked = (
            ("help",), ("--version",), ("help", "--json"), ("--version", "--json"),
            ("run", "--turns1", "0", image), ("run", "--strict-exit", "--turns1", "0", image),
            ("run", "--words", "--turns1", "0", image))
        for words in asked:
            with self.subTest(words), open("/dev/full", "wb") as full:
                done = run(*words, output=full)
                self.assertEqual(done.returncode, 6)
                self.assertTrue(done.stderr.startswith(b"xt: WriteFault\n"))

    def test_no_folder(self) -> None:
        """Behind a pipe no folder for temporary files is needed; for an exit code of the report one
        is."""
        image = str(TOP / "examples/letter.bin")
        environment = {**os.environ, "TMPDIR": "/nonexistent"}
        done = run("run", "--turns1", "0", image, environment=environment)
        self.assertEqual((done.returncode, done.stdout[:9]), (0, b"uart 1\nA\n"))
        words = ("run", "--strict-exit", "--turns1", "0", image)
        done = run(*words, environment=environment)
        self.assertEqual((done.returncode, done.stdout), (70, b""))
        self.assertIn(b"no temporary folder can be made in /nonexistent", done.stderr)


class Scripts(unittest.TestCase):
    def test_full_device(self) -> None:
        """A script whose output cannot be written ends as xt does."""
        request = b'{"seq":1,"type":"request","command":"initialize"}'
        image, recording = (str(TOP / f"examples/letter.{it}") for it in ("bin", "rec"))
        asked: tuple[tuple[list[str], bytes], ...] = (
            (["why", image, "--turns1", "0"], b""), (["why", "--json", image], b""),
            (["page", recording], b""), (["json"], b"history 1\n"),
            (["debug", recording], b"regs\n"), (["stack", recording], b""),
            (["dap"], b"Content-Length: %d\r\n\r\n" % len(request) + request))
        environment = {**os.environ, "XT": os.path.abspath(program().path)}
        for words, data in asked:
            with self.subTest(words), open("/dev/full", "wb") as full:
                done = subprocess.run(
                    [sys.executable, str(TOP / "bin" / words[0]), *words[1:]], input=data,
                    stdout=full, stderr=subprocess.PIPE, env=environment, check=False)
                self.assertEqual((done.returncode, done.stderr), (6, b"xt: WriteFault\n"))


if __name__ == "__main__":
    unittest.main()
