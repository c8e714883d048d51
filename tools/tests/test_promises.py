"""tools/promises: what it says of promises that leave something open, and that this repository's public routines have none."""
import contextlib
import io
import os
import pathlib
import sys
import unittest

sys.path.insert(0, str(pathlib.Path(__file__).resolve().parent))
from test_flattener import ROOT, module  # noqa: E402

tool = module("promises", ROOT / "tools" / "promises")
KNOWN = {"Answers": [["result ≡ answer", "(σ : State) → Represents σ → words ≡ σ.words"]], "Relates": [["(σ : State) → Represents σ → words ≡ σ.words"]]}


def said(signature):
    return list(tool.faults(signature, KNOWN))


class Faults(unittest.TestCase):
    def test_an_equation_of_the_reply_is_taken(self):
        self.assertEqual(said("pub fn f(a: &[u64]) -> u64 ensures { result ≡ first a.now } {"), [])

    def test_an_equation_of_a_lent_slice_is_taken(self):
        self.assertEqual(said("pub fn f(a: &mut [u64]) ensures { a.new ≡ cleared a.old } {"), [])

    def test_a_record_with_an_equation_is_taken(self):
        self.assertEqual(said("pub fn f(a: &mut [u64]) -> u64 ensures { Answers a.old a.new result } {"), [])

    def test_nothing_promised(self):
        self.assertEqual(said("pub fn f(a: &[u64]) -> u64 {"), ["promises nothing"])

    def test_something_asked(self):
        self.assertIn("asks something of its caller", said("pub fn f(a: u64) -> u64 requires { a < 5 } ensures { result ≡ a } {"))

    def test_a_lent_slice_left_out(self):
        self.assertIn("says nothing of a at exit", said("pub fn f(a: &mut [u64]) -> u64 ensures { result ≡ first a.old } {"))

    def test_a_lent_self_left_out(self):
        self.assertEqual(said("pub fn f(&mut self) ensures { held self.old ≡ held self.old } {"), ["says nothing of self at exit"])
        self.assertEqual(said("pub fn f(&mut self) ensures { self.new ≡ held self.old } {"), [])

    def test_a_lent_slice_left_out_beside_self(self):
        self.assertEqual(said("pub fn f(&mut self, a: &mut [u64]) ensures { self.new ≡ held self.old a.old } {"), ["says nothing of a at exit"])

    def test_what_a_new_value_keeps_is_apart(self):
        self.assertEqual(said("pub fn new(a: &'a mut [u64]) -> W<'a> ensures { result ≡ begun a.entry } {"), [])
        self.assertIn("says nothing of a at exit", said("pub fn new(a: &mut [u64]) -> usize ensures { result ≡ first a.old } {"))

    def test_a_reply_left_out(self):
        self.assertIn("equates something else than its reply", said("pub fn f(a: &mut [u64]) -> u64 ensures { a.new ≡ a.old } {"))

    def test_a_bound_is_no_equation(self):
        self.assertEqual(said("pub fn f(a: u64) -> u64 ensures { result ≤ a } {"), ["is no equation: result ≤ a"])

    def test_a_relation_equates_nothing(self):
        self.assertEqual(len(said("pub fn f(a: &mut [u64]) ensures { Relates a.old a.new } {")), 1)


class Conversions(unittest.TestCase):
    def test_a_conversion_promises(self):
        told = "impl From<u64> for K {\n    ghost from_gives = { λ n k. k ≡ of n };\n\n    fn from(n: u64) -> K {\n        K\n    }\n}\n"
        self.assertEqual(list(tool.conversions(told)), [])
        untold = "// K\nimpl TryFrom<u64> for K {\n    type Error = E;\n\n    fn try_from(n: u64) -> Result<K, E> {\n        Ok(K)\n    }\n}\n" + told
        self.assertEqual(list(tool.conversions(untold)), [(2, "impl TryFrom<u64> for K {")])


class Repository(unittest.TestCase):
    def test_no_row_and_every_library_is_read(self):
        before = os.getcwd()
        os.chdir(ROOT)
        try:
            with contextlib.redirect_stdout(io.StringIO()) as out:
                status = tool.main()
            found = sum(len(list(tool.signatures(source.read_text(encoding="utf-8")))) for source in ROOT.glob("crates/*/src/**/*.rt"))
            written = sum(source.read_text(encoding="utf-8").count("pub fn ") for source in ROOT.glob("crates/*/src/**/*.rt"))
        finally:
            os.chdir(before)
        self.assertEqual((status, out.getvalue().splitlines()[-1]), (0, "0 rows"))
        self.assertGreater(found, 150)
        self.assertGreaterEqual(found, written)


if __name__ == "__main__":
    unittest.main()
