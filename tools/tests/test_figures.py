"""tools/check-times and tools/benchmarks: tables from a gate's log and from what the benchmarks print."""
import pathlib
import sys
import unittest

sys.path.insert(0, str(pathlib.Path(__file__).resolve().parent))
from test_flattener import ROOT, module  # noqa: E402

check_times = module("check_times", ROOT / "tools" / "check-times")
benchmarks = module("benchmarks", ROOT / "tools" / "benchmarks")
marked = module("marked", ROOT / "tools" / "marked.py")

LOG = """\
gate: commit abc1234, 2026-11-16, 2 processors
21 s  fn words::kind_at: proved
21 s  rt: words proved
21 s  rt: words: trying its must-fail edits (2)
23 s  rt: tree is kept: an earlier run on this machine proved the same files over the same libraries
44 s  rt: listing proved
50 s  rt: must-fail words/shift_55.edit: refused, as it must be: ./proofs/opcode/Answers.antt:18:13: error: no
51 s  rt: must-fail words/stores_swapped.edit: refused, as it must be: note: src/lib.rt:11:1: it is not proved
60 s  rt: listing ran, and wrote what its file stdout has
61 s  rt: listing ran (built by Rattle's own compiler), and wrote what its file stdout has
61 s  rt: ok; handles allowed: none; must-fail edits: 2 refused; every proof and must-fail edit was done in this run
61 s  5 passed, 0 failed
gate: 1938 s
"""

SPEED = """\
Processor time, medians of 15 runs (3 at 1,000,000 records). Ratios: the library's time by the original's.

| Shape | Records | Without slots, ns a record | Growth | Ratio | Ratio, areas 4 times as long | Ratio, the original with its solver | With slots, ns a record | Growth | Ratio |
|---|---|---|---|---|---|---|---|---|---|
| deep nesting | 10237 | 20.9 |  | 1.03 | 1.07 | 1.08 | 21.0 |  | 1.04 |
| deep nesting | 100655 | 22.2 | 1.06 | 0.86 | 1.01 | 0.87 | 22.3 | 1.06 | 0.85 |
| distinct integers | 1000581 | not run | | | | | 31.0 | 1.10 | 0.40 |
| many books | 1000000 | not run | | | | | not run | | |

Median of the ratios without slots: 0.78; of the shapes where nothing is searched: 0.70
Median of the ratios with slots: 0.68; of the shapes where nothing is searched: 0.71

    deep nesting                   10237     1.03 ####################|
"""

BENCH = (
    "1000000 records, 52000000 bytes, medians of 21 runs\n"
    "shape check: library 62.5 million records/s, plain Rust 34.9 million records/s, time ratio 0.56\n"
    "column file to records: library 1300.0 MB/s, plain Rust 1000.0 MB/s, time ratio 0.77\n"
)

COUNTS = """\
| Shape | Library, instructions | Original, instructions | Ratio | Library with slots | Ratio |
|---|---|---|---|---|---|
| deep nesting | 3560322 | 2775908 | 1.28 | 3600000 | 1.30 |
"""

KEPT = {
    "commit": "abc",
    "date": "2026-11-16",
    "processors": 2,
    "load": 1.19,
    "said": {"converters": BENCH, "constant tables": BENCH, "small bundles": SPEED, "compile call": SPEED, "instructions": COUNTS},
}


class CheckTimes(unittest.TestCase):
    def test_a_row_for_each_crate(self):
        lines = check_times.table(LOG).splitlines()
        self.assertEqual(
            lines[0],
            "`bash .ci/run` on commit abc1234, 2026-11-16, on 2 processors: '5 passed, 0 failed' after 32.3 minutes; "
            "every proof and must-fail edit was done in this run.",
        )
        self.assertEqual(lines[4:], ["| `words` | 21 | 2 |  |", "| `tree` | kept |  |  |", "| `listing` | 44 |  | 60 |"])

    def test_a_log_of_a_gate_that_failed_is_refused(self):
        for log in ("", LOG.replace("0 failed", "1 failed"), LOG.replace("gate: 1938 s\n", "")):
            with self.assertRaises(SystemExit):
                check_times.table(log)


class Benchmarks(unittest.TestCase):
    def test_rates_become_nanoseconds_a_record(self):
        rows = benchmarks.races(BENCH)
        self.assertEqual(rows[0], ["shape check", "1000000", "16.0", "0.56"] + [""] * 7)
        self.assertEqual(rows[1], ["column file to records", "1000000", "40.0", "0.77"] + [""] * 7)

    def test_shapes_have_their_ratios_and_their_instructions_once(self):
        rows = benchmarks.shapes(SPEED, benchmarks.counted(COUNTS))
        self.assertEqual(rows[0], ["compile: deep nesting", "10237", "20.9", "1.03", "1.07", "1.08", "1.28", "21.0", "", "1.04", "1.30"])
        self.assertEqual(rows[1][3:], ["0.86", "1.01", "0.87", "", "22.3", "1.06", "0.85", ""])
        self.assertEqual(rows[2][2:], ["not run", "", "", "", "", "31.0", "1.10", "0.40", ""])
        self.assertEqual(rows[3][2:], ["not run", "", "", "", "", "not run", "", "", ""])

    def test_output_without_figures_is_refused(self):
        for read in (benchmarks.races, lambda said: benchmarks.shapes(said, {})):
            with self.assertRaises(SystemExit):
                read("nothing\n")

    def test_the_table_has_command_commit_and_date(self):
        lines = benchmarks.table(KEPT).splitlines()
        self.assertEqual(lines[0], "`tools/benchmarks run`, commit abc, 2026-11-16, 2 processors with a load of 1.2:")
        self.assertEqual(len([line for line in lines if line.startswith("| ")]), 1 + 2 + 2 + 4 + 4)
        self.assertTrue(lines[-2].endswith("of the shapes where nothing is searched: 0.70."))
        self.assertEqual(lines[-1], "Median of the ratios with slots: 0.68; of the shapes where nothing is searched: 0.71.")
        self.assertTrue(all(line.count("|") == lines[2].count("|") for line in lines if line.startswith("|")))


class Pages(unittest.TestCase):
    def test_a_part_is_replaced_and_the_rest_stays(self):
        page = "a\n<!-- t: x writes this -->\nold\n<!-- end of t -->\nb\n"
        self.assertEqual(marked.replaced(page, "t", "new"), "a\n<!-- t: x writes this -->\n\nnew\n\n<!-- end of t -->\nb\n")
        with self.assertRaises(SystemExit):
            marked.replaced(page, "other", "new")

    def test_the_pages_have_their_parts(self):
        page = (ROOT / "docs" / "BENCHMARKS.md").read_text()
        self.assertIn("new", marked.replaced(page, benchmarks.PART, "new"))
        self.assertIn("new", marked.replaced((ROOT / "docs" / "CHECK-TIMES.md").read_text(), "check times", "new"))


if __name__ == "__main__":
    unittest.main()
