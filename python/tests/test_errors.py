"""Status lines and codes, as docs/STATUS.md and the cases of ends.txt have them."""
import re
import unittest

from support import cases, image, page, program
import xt
from xt.errors import BY_WORD, error_of


class Errors(unittest.TestCase):
    def test_table(self) -> None:
        """Each status of the page's first table has a class of its own, with the code of its row."""
        rows = re.findall(r"^\| (\d+) \| `(\w+)", page("STATUS.md").partition("`bin/xt` and")[0], re.M)
        self.assertEqual(len(rows), 11)
        self.assertEqual({word for _, word in rows}, set(BY_WORD))
        for code, word in rows:
            error = error_of(int(code), f"xt: {word} 1 2 3\n")
            self.assertIs(type(error), BY_WORD[word])
            self.assertEqual((error.code, error.words), (int(code), [1, 2, 3]))

    def test_lines_in_words(self) -> None:
        """The lines that the page has in words are known too."""
        rows = re.findall(r"^\| `([A-Z]\w+)[^`]*` \| ", page("STATUS.md"), re.M)
        self.assertLessEqual(set(rows), set(BY_WORD))
        self.assertGreater(len(rows), 60)

    def test_unproved(self) -> None:
        """Only the last line is the status."""
        error = error_of(2, "xt: unproved: this program is ..\nxt: Image Checksum 22 23\n")
        self.assertIsInstance(error, xt.ImageError)
        self.assertEqual(error.words, ["Checksum", 22, 23])

    def test_ends(self) -> None:
        """What the built program does in the cases of its ends."""
        asked = 0
        for case in cases("ends.txt"):
            line = case.get("line", "").strip()
            # (the larger inputs, and words that are no text, are tried elsewhere)
            if not line or len(case.get("zeros", "")) > 7 or "filled" in case or "raw" in case:
                continue
            data = bytes(int(case["zeros"])) if case.get("zeros") else bytes.fromhex(case.get("bytes", ""))
            with self.subTest(case["case"]), self.assertRaises(xt.XtError) as caught:
                program().call(case.get("words", "").split(), data)
            self.assertEqual(caught.exception.code, int(case["code"]))
            self.assertEqual("xt: " + caught.exception.status, line)
            asked += 1
        self.assertGreater(asked, 5)

    def test_text(self) -> None:
        """The place of a fault of a text: `4000` of docs/STATUS.md stands in line 3, column 9."""
        text = b".seg 0x400D0000\n.entry start\nstart:  movi a2, 4000\n"
        with self.assertRaises(xt.AsmError) as caught:
            program().asm(text)
        self.assertEqual((caught.exception.line, caught.exception.column, caught.exception.kind), (3, 9, 2))

    def test_required(self) -> None:
        """A report whose run does not meet `--require` is there all the same."""
        run = xt.Run(image("race.s"), program(), turns0=3, turns1=0)
        with self.assertRaises(xt.RequiredError) as caught:
            run.report(require=["break"])
        self.assertEqual(caught.exception.status, "Required core 0 stop turns")
        self.assertTrue(caught.exception.answer.startswith(b"uart 0\n\ncore 0 stop turns turns 3 "))

    def test_no_file(self) -> None:
        with self.assertRaises(xt.Missing):
            xt.Run("no such file", program())


if __name__ == "__main__":
    unittest.main()
