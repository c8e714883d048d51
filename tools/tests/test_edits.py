"""Every must-fail edit fits: each of its `old:` texts stands once in the file that it names. `rt must-fail` asks the same, but only after all crates are proved, and of those in must-fail-by-hand/, which tools/try-edit tries, never."""
import pathlib
import unittest

CRATES = pathlib.Path(__file__).resolve().parents[2] / "crates"


def changes(text):
    """Yields the file and the old text of each change of an edit."""
    name = None
    for line in text.splitlines():
        if line.startswith("file: "):
            name = line[len("file: "):].strip()
        elif line.startswith("old: "):
            yield name, line[len("old: "):]


class Edits(unittest.TestCase):
    def test_old_texts_stand_once(self):
        edits = sorted([*CRATES.glob("*/must-fail/*.edit"), *CRATES.glob("*/must-fail-by-hand/*.edit")])
        self.assertTrue(edits)
        for edit in edits:
            found = list(changes(edit.read_text()))
            self.assertTrue(found, edit)
            for name, old in found:
                with self.subTest(edit=str(edit.relative_to(CRATES)), old=old):
                    self.assertEqual((edit.parent.parent / name).read_text().count(old), 1)


if __name__ == "__main__":
    unittest.main()
