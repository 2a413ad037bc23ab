"""The page of help and the version as objects, with what the pages say."""
import unittest

from support import TOP
from xt.about import help_of, version_of


class About(unittest.TestCase):
    def setUp(self) -> None:
        self.help = help_of(TOP / "docs")

    def test_commands(self) -> None:
        names = [it["name"] for it in self.help["commands"]]
        self.assertEqual(names[:6], ["asm", "elf", "dis", "map", "check", "run"])
        self.assertEqual(names[-2:], ["help", "--version"])
        self.assertIn("replay", names)
        self.assertNotIn("go", names)

    def test_options(self) -> None:
        options = {(it["name"], it["value"]): it for it in self.help["options"]}
        core = options["--core", "C"]
        self.assertEqual((core["commands"], core["text"]), (["trace"], "prints only turns of core C, 0 or 1"))
        self.assertEqual(options["--entry1", "N"]["commands"], ["run", "record", "outcomes", "dis"])
        self.assertEqual(options["--words", None]["commands"], [])

    def test_script(self) -> None:
        names = "go end next back break watch prior last trace regs ring special mem words frames calls events".split()
        self.assertEqual([it["name"] for it in self.help["script"]], names)

    def test_codes(self) -> None:
        codes = {it["code"]: it["text"] for it in self.help["codes"]}
        self.assertEqual((codes[0], codes[3], codes[21]), ("", "Asm LINE COLUMN KIND", "PastEnd"))
        self.assertEqual(sorted(codes), [*range(9), 10, 20, 21, 64, 66, 67, 68, 69, 70])

    def test_version(self) -> None:
        said = "xt, Unreleased d27b4678\nkit-13f logic dac8\nproved: crates/xt/out/xt\n"
        wanted = {"release": "Unreleased", "commit": "d27b4678", "toolchain": "kit-13f logic dac8", "proved": True}
        self.assertEqual(version_of(said), wanted)
        wanted["proved"] = False
        for row in ("unproved: compiled from ..", "proved: not built yet; bin/build proves it"):
            self.assertEqual(version_of(said.replace("proved: crates/xt/out/xt", row)), wanted)


if __name__ == "__main__":
    unittest.main()
