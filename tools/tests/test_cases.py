"""The stored cases of `word_cases` and `text_cases`: each part that is given is answered, each case under its label, and all fits the program's buffer."""
import pathlib
import re
import unittest

CRATES = pathlib.Path(__file__).resolve().parents[2] / "crates"
PARTS = re.compile(r"^part (\w+)\n", re.M)


def read(crate, name):
    return (CRATES / crate / name).read_bytes().decode("latin-1")


def parts(text):
    """The parts' names, each with the text behind it."""
    before, *rest = PARTS.split(text)
    assert before == "", "text before the first part"
    return list(zip(rest[::2], rest[1::2]))


def labels(text, has_file):
    """The labels of a part's cases; behind the line of a case stands its file where it has one."""
    found, at = [], 0
    while at < len(text):
        end = text.index("\n", at)
        label, colon, numbers = text[at:end].partition(":")
        assert colon, f"a line without a colon: {label}"
        found.append(label)
        at = end + 1
        if has_file:
            at += int(numbers.split()[0]) + 1
            assert text[at - 1] == "\n", f"{label}: its file ends elsewhere"
    return found


class Cases(unittest.TestCase):
    def judge(self, crate, has_file):
        given, wanted = parts(read(crate, "stdin")), parts(read(crate, "stdout"))
        self.assertEqual([name for name, _ in given], [name for name, _ in wanted])
        for (name, cases), (_, answers) in zip(given, wanted):
            lines = iter(answers.split("\n"))
            for label in labels(cases, has_file):
                self.assertTrue(any(line.startswith(label + ":") for line in lines), f"{crate}, {name}: no answer to {label}")
        most = int(re.search(r"const MOST_BYTES: usize = (\d+);", read(crate, "src/main.rt")).group(1))
        self.assertLess(len(read(crate, "stdin")), most)

    def test_word_cases(self):
        self.judge("word_cases", False)

    def test_text_cases(self):
        self.judge("text_cases", True)


if __name__ == "__main__":
    unittest.main()
