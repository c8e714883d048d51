"""tools/book-cases: what it writes can be read again, number by number, and says when it is not current."""
import contextlib
import io
import os
import pathlib
import re
import sys
import tempfile
import unittest

sys.path.insert(0, str(pathlib.Path(__file__).resolve().parent))
from test_flattener import ROOT, module  # noqa: E402

tool = module("book_cases", ROOT / "tools" / "book-cases")
PROGRAM_PLACE = 1048576
ERRORS = 10
BAD_SHAPE, STALE = 3, 12


def read(text):
    """The cases of stdin: name and numbers."""
    at = 0
    while at < len(text):
        name_size, text_size = map(int, text[at:at + 12].split())
        name = text[at + 12:at + 12 + name_size]
        at += 12 + name_size + text_size
        yield name, list(map(int, text[at - text_size:at].split()))


def lists(numbers, at, count):
    """So many lists, and the place behind them."""
    found = []
    for _ in range(count):
        found.append(numbers[at + 1:at + 1 + numbers[at]])
        at += 1 + numbers[at]
    return found, at


class BookCases(unittest.TestCase):
    def setUp(self):
        before = os.getcwd()
        os.chdir(ROOT)
        self.addCleanup(os.chdir, before)

    def test_every_number_has_its_place(self):
        given, wanted = tool.texts()
        lines = wanted.splitlines()
        cases = list(read(given))
        self.assertEqual(lines[-1], f"{len(cases)} cases, 0 differ")
        self.assertEqual(len({name for name, _ in cases}), len(cases))
        self.assertEqual({numbers[0] for _, numbers in cases}, set(range(8)))
        for (name, numbers), line in zip(cases, lines, strict=False):
            call, size = numbers[:2]
            (bundle,), at = lists(numbers, 2, 1)
            lengths, at = numbers[at:at + 12], at + 12
            stands = []
            if call >= tool.LAY_ON:
                totals, at = numbers[at:at + 15], at + 15
                tried, at = (numbers[at:at + 15], at + 15) if call >= tool.COMMIT else ([], at)
                stands, at = lists(numbers, at, 12)
                self.assertTrue(bundle, name)
            row, place, *after_totals = numbers[at:at + 17]
            after, at = lists(numbers, at + 17, 12)
            self.assertEqual((at, line), (len(numbers), f"{name}: row {row}, place {place}"))
            self.judge(name, size, lengths, stands, after)
            if not stands:
                self.assertEqual(after_totals[-1], int(row == 0), name)
                continue
            is_tried = tool.TRIAL <= call < tool.COMMIT
            if row:
                self.assertEqual(after_totals, totals, name)
            else:
                self.assertEqual(after_totals[-1], totals[-1] + int(not is_tried), name)
            if row == STALE:
                self.assertTrue(tried[-1] != totals[-1] == place, name)
            if row or is_tried:
                is_unfit = row == BAD_SHAPE and place > PROGRAM_PLACE
                kept = range(12) if is_unfit else (i for i in range(12) if i != ERRORS)
                self.assertTrue(all(stands[i] == after[i] for i in kept), name)

    def judge(self, name, size, lengths, *areas):
        """Each list lies in its area, which is cut at the memory's end."""
        left = size
        for i, length in enumerate(lengths):
            words = min(length, left)
            left -= words
            self.assertTrue(all(len(lists[i]) <= words for lists in areas if lists), name)
        self.assertIn(left, (0, tool.LEFT_OVER), name)

    def test_the_program_has_the_buffers(self):
        code = (ROOT / "crates" / "book_cases" / "src" / "main.rt").read_text()
        for name in ("MOST_NAME", "MOST_TEXT", "MOST_NUMBERS", "MOST_MEMORY", "LAY_ON", "TRIAL", "COMMIT"):
            self.assertEqual(int(re.search(rf"const {name}: \w+ = (\d+);", code).group(1)), getattr(tool, name), name)

    def test_it_says_when_files_are_not_current(self):
        with tempfile.TemporaryDirectory() as folder:
            self.assertEqual(tool.main(["--to", folder, "--check"]), 1)
            self.assertEqual(tool.main(["--to", folder]), 0)
            self.assertEqual(tool.main(["--to", folder, "--check"]), 0)
            stdin = pathlib.Path(folder) / "stdin"
            stdin.write_text(stdin.read_text().replace(" 0", " 1", 1))
            self.assertEqual(tool.main(["--to", folder, "--check"]), 1)
        with contextlib.redirect_stderr(io.StringIO()):
            self.assertEqual(tool.main(["--to", folder]), 2)


if __name__ == "__main__":
    unittest.main()
