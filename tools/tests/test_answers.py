"""tools/answers: its parts on texts of the forms that they read, and the whole tool over a checker that answers from a script.

The checker here is no prover: it says what the real one says of a small function, so that the way from `Proof.answers` to `Proof.antt` can be tested in
a second. Whether a proof is right is the prover's to judge, in the gate."""
import contextlib
import io
import os
import pathlib
import stat
import sys
import tempfile
import types
import unittest

sys.path.insert(0, str(pathlib.Path(__file__).resolve().parent))
from test_flattener import ROOT, module  # noqa: E402

tool = module("answers", ROOT / "tools" / "answers")

SOURCE = """\
// A crate.
pub fn find(list: &[u64], wanted: u64) -> usize
    requires { wanted > 0 }
    ensures { λ r. ⌜ r ≡ 0 ⌝ }
{
    let word = first(list, 0);
    skip(list, wanted);
    skip(list, inner::first(list, 1))
}

fn fill(from: &[u64], out: &mut [u64], rest: &'a mut [u8], at: usize) {
    put(from, &mut out, at);
}
"""


class Source(unittest.TestCase):
    def read(self, text):
        with tempfile.TemporaryDirectory() as folder:
            (pathlib.Path(folder) / "src").mkdir()
            (pathlib.Path(folder) / "src" / "lib.rt").write_text(text)
            return tool.read_source(pathlib.Path(folder))

    def test_functions_with_head_and_body(self):
        functions, shared = self.read(SOURCE)
        self.assertEqual(sorted(functions), ["fill", "find"])
        (find,), (fill,) = functions["find"], functions["fill"]
        self.assertTrue(find.requires and not fill.requires)
        self.assertTrue(fill.lends and not find.lends)
        self.assertEqual(find.parameters, ["list", "wanted"])
        self.assertEqual(fill.parameters, ["from", "out", "rest", "at"])
        self.assertEqual(fill.lent, ["out", "rest"])
        self.assertNotIn("skip", shared)
        self.assertIn("ensures", shared)

    def test_calls_are_numbered_by_callee(self):
        calls = self.read(SOURCE)[0]["find"][0].calls()
        self.assertEqual(calls["skip"], ("skip", ["list", "wanted"]))
        self.assertEqual(calls["skip2"], ("skip", ["list", "inner::first(list, 1)"]))
        self.assertEqual(calls["first"], ("first", ["list", "0"]))
        self.assertEqual(calls["first2"], ("first", ["list", "1"]))

    def test_a_function_in_another_layout_keeps_its_body_in_the_shared_text(self):
        functions, shared = self.read("fn odd() { one(); }\n")
        self.assertEqual(functions["odd"][0].body, "")
        self.assertIn("one()", shared)


class Names(unittest.TestCase):
    FOLDER = "+expressions-compile_block+statements-compile_for"

    def test_a_member_of_a_cycle_over_two_modules(self):
        self.assertEqual(tool.cycle_of(self.FOLDER), ["expressions-compile_block", "statements-compile_for"])
        self.assertEqual(tool.members_of(self.FOLDER), ["compile_block", "compile_for"])
        self.assertEqual(tool.dashed("statements-compile_for"), "statements·compile-for")
        self.assertEqual(tool.plain_name("statements·compile-for"), "compile-for")

    def test_a_member_of_a_cycle_of_one_module(self):
        self.assertEqual(tool.members_of("scan/+find+skip_all"), ["find", "skip_all"])
        self.assertEqual(tool.dashed("skip_all"), "skip-all")


RECORDS = """\
pub record Args : Type 0 where
    pub list : List ℕ

pub record Start : Type 0 where
    pub args : Args
    pub pre : Pre

pub record After : Type 0 where
    pub before : Start
    pub first : first·own

pub record Later : Type 0 where
    pub before : After
    pub if1 : If1

pub record If1 : Type 0 where
    pub taken : Bool

pub record Elsewhere : Type 0 where
    pub args : Args

Need-returns = (c : Later) → c
Need-first-requires = (c : Start) → c
"""


class Scope(unittest.TestCase):
    def test_things_from_the_nearest_on(self):
        places = tool.Places.read(RECORDS)
        self.assertEqual(places.needs, {"returns": "Later", "first-requires": "Start"})
        self.assertNotIn("Elsewhere", places.records)
        things = [("if1", 0, ["taken"]), ("first", 1, tool.CALL_FIELDS), ("args", 2, ["list"]), ("pre", 2, [])]
        self.assertEqual(places.things("returns"), things)
        self.assertEqual(places.things("unknown"), [])


LINES = """\
use Rattle·c·proofs.proofs.find.Statement.{statement}
use Rattle·c·proofs.proofs.find.Tie as tie
use Rattle·c·proofs.proofs.find.Lts as lts

-- src/lib.rt:6:5
first-requires : tie.Need-first-requires
first-requires c = ?

-- src/lib.rt:2:1
returns : tie.Need-returns
returns c = ?

pub find-spec : {M : Type 1} → statement M
find-spec = tie.close (tie.spec first-requires returns)
"""


class Lines(unittest.TestCase):
    def test_the_checkers_lines_are_taken_apart(self):
        skeleton = tool.Skeleton(LINES)
        self.assertEqual([d.name for d in skeleton.open()], ["first-requires", "returns"])
        self.assertEqual(skeleton.modules, {"tie": "Rattle·c·proofs.proofs.find.Tie", "lts": "Rattle·c·proofs.proofs.find.Lts"})
        self.assertEqual((skeleton.declarations[1].need, skeleton.declarations[1].place), ("returns", "src/lib.rt:2:1"))
        self.assertEqual((skeleton.by_hand, skeleton.members, skeleton.spec.name), (False, {}, "find-spec"))

    def test_lines_of_another_form_are_refused(self):
        with self.assertRaises(tool.Failure):
            tool.Declaration("returns : tie.Need-returns\nsomething else")

    def test_use_lines_are_joined_and_merged(self):
        self.assertEqual(tool.join_uses(["use a.{", "  b,", "  c,", "}"]), ["use a.{b, c}"])
        merged = tool.merge_uses(["use a.{b}", "use d as e", "use a.{c, b}", "use d as e"])
        self.assertEqual(merged, ["use a.{b, c}", "use d as e"])


class File(unittest.TestCase):
    def read(self, text):
        with tempfile.TemporaryDirectory() as folder:
            path = pathlib.Path(folder) / tool.ANSWERS
            path.write_text(text)
            return tool.Answers(path)

    def test_header_uses_answers_patterns_and_declarations(self):
        answers = self.read(
            "-- What is shown.\nuse a.{b}\n\n-- why\nreturns unfolding f g := one\n    two\n\n*-same-length* := kept\ndeclare\n    helper : ℕ\n    helper = 0\n"
        )
        self.assertEqual((answers.header, answers.uses), (["-- What is shown."], ["use a.{b}"]))
        returns = answers.answers["returns"]
        self.assertEqual((returns.text, returns.unfolding, returns.comment, returns.line), ("one\n    two", "f g", ["-- why"], 5))
        self.assertTrue(answers.patterns[0].fits("first-same-length-2"))
        self.assertEqual([line.strip() for line in answers.above[0]], ["helper : ℕ", "helper = 0"])

    def test_faults_are_told_by_line(self):
        for text, part in (("returns := a\nreturns := b\n", ":2: `returns` is answered twice, first at line 1"), ("x y\n", ":1: expected `NAME := answer`")):
            with self.assertRaisesRegex(tool.Failure, part):
                self.read(text)

    def test_an_answer_to_nothing_is_refused_with_a_hint(self):
        answers = self.read("retruns := a\n")
        with self.assertRaisesRegex(tool.Failure, r"no need `retruns` \(did you mean `returns`\?\)"):
            answers.check(tool.Skeleton(LINES).open())


class Text(unittest.TestCase):
    def proof(self):
        functions = {"first": [tool.Function("first", "fn first()", "")]}
        found = tool.Places.read(RECORDS)
        kept = {"lines": LINES, "places": {"tie": {"records": found.records, "needs": found.needs}}, "source": {}, "bound": {"tie": {"first": "word"}}}
        return tool.Proof(types.SimpleNamespace(functions=functions), "find", kept)

    def expanded(self, answer, need="returns"):
        proof = self.proof()
        declared = next(d for d in proof.skeleton.declarations if d.name == need)
        return proof.expand(declared, answer, "file:1")

    def test_things_become_paths(self):
        self.assertEqual(self.expanded("f @first .ensures x"), "f (c .before .first .ensures) x")
        self.assertEqual(self.expanded("@first .ensures"), "c .before .first .ensures")
        self.assertEqual(self.expanded("omega (arith, @if1)"), "omega (arith, c .if1)")
        self.assertEqual(self.expanded("f @word .ensures"), "f (c .before .first .ensures)")

    def test_lists_take_every_thing_of_a_name(self):
        self.assertEqual(self.expanded("omega (arith, @first* .ensures, @none*)"), "omega (arith, c .before .first .ensures)")

    def test_what_is_not_in_scope_is_refused(self):
        with self.assertRaisesRegex(tool.Failure, "there is no `@if1` at `first-requires`; there are: args, pre"):
            self.expanded("@if1", "first-requires")

    def test_needs_that_are_left_to_the_tool(self):
        proof = self.proof()
        defaults = [proof.default(d) for d in proof.skeleton.declarations]
        self.assertEqual(defaults, ["?", "?"])

    def test_long_lines_are_broken(self):
        line = "x = f " + " ".join(f"(argument{n} of some length)" for n in range(9))
        parts = tool.wrapped(line).split("\n")
        self.assertTrue(len(parts) > 1 and all(len(part) <= tool.WIDTH for part in parts))
        self.assertEqual(" ".join(part.strip() for part in parts), line)

    def test_small_parts(self):
        self.assertEqual(tool.plain("( a,\n  b,\n )"), "(a, b)")
        self.assertEqual(tool.dedent(["    a", "      b", ""]), ["a", "  b"])
        self.assertEqual(tool.named("f m.spec (a (b)) c", "m.spec", "g"), "f m.spec (g t) c")
        self.assertEqual(tool.holes_in("a c = ?\nb = x\n"), ", holes: a")
        self.assertEqual(tool.members_of("dir/+one+two"), ["one", "two"])


# what the checker's stand-in does: `version`, `fmt`, and `dev` with the lines for a function that has no proof
CHECKER = '''\
import pathlib, sys
words = sys.argv[1:]
lines = pathlib.Path(__file__).with_name("lines").read_text()
records = pathlib.Path(__file__).with_name("records").read_text()
with open(pathlib.Path(__file__).with_name("asked"), "a") as log:
    print(*words, file=log)
if words[0] == "version":
    print("a kit")
elif words[0] == "dev":
    here = pathlib.Path.cwd() / "crates" / "c" / "proofs" / "find" / "Proof.antt"
    print("fn c::find: no proof")
    if not here.exists():
        print(f"help: write {here} with these lines, and check again")
        print("".join("    " + line + "\\n" for line in lines.splitlines()), end="")
    if "--generated" in words:
        out = pathlib.Path(words[words.index("--generated") + 1]) / "Rattle·c·proofs" / "proofs" / "find" / "Lts.antt"
        out.parent.mkdir(parents=True)
        out.write_text(records)
'''


class Whole(unittest.TestCase):
    """`make` over the stand-in, in a repository of one crate."""

    def setUp(self):
        self.folder = tempfile.TemporaryDirectory()
        self.root = pathlib.Path(self.folder.name)
        self.proofs = self.root / "crates" / "c" / "proofs" / "find"
        self.proofs.mkdir(parents=True)
        (self.root / "crates" / "c" / "src").mkdir()
        (self.root / "crates.txt").write_text("c:\n")
        (self.root / "crates" / "c" / "src" / "lib.rt").write_text(SOURCE)
        (self.proofs / "Proof.answers").write_text("-- `find` meets its contract. Assumes nothing.\n\nfirst-requires := tt\nreturns := f @word .ensures\n")
        (self.root / "checker.py").write_text(CHECKER)
        (self.root / "lines").write_text(LINES)
        (self.root / "records").write_text(RECORDS)
        self.rt = self.root / "rt"
        self.rt.write_text(f'#!/bin/sh\nexec "{sys.executable}" "{self.root}/checker.py" "$@"\n')
        self.rt.chmod(self.rt.stat().st_mode | stat.S_IXUSR)
        self.before = os.getcwd()
        os.chdir(self.root)

    def tearDown(self):
        os.chdir(self.before)
        self.folder.cleanup()

    def run_tool(self, *words):
        said = io.StringIO()
        old, sys.argv = sys.argv, ["answers", *words, "--rt", str(self.rt)]
        try:
            with contextlib.redirect_stdout(said), contextlib.redirect_stderr(said):
                return tool.main(), said.getvalue()
        finally:
            sys.argv = old

    def asked(self):
        return (self.root / "asked").read_text().splitlines()

    def test_a_proof_is_written_and_is_then_current(self):
        status, said = self.run_tool("make", "c")
        self.assertEqual((status, said.splitlines()[-1]), (0, "crates/c/proofs/find/Proof.antt: written"))
        proof = (self.proofs / "Proof.antt").read_text()
        self.assertIn("returns c = f (c .before .first .ensures)\n", proof)
        self.assertIn("tie.close (tie.spec (λ c. tt) returns)\n", proof)
        self.assertTrue(proof.startswith("-- `find` meets its contract. Assumes nothing.\n" + tool.MADE))
        self.assertEqual(self.run_tool("make", "c", "--check")[0], 0)

    def test_the_checker_is_asked_again_only_when_something_changed(self):
        self.run_tool("make", "c")
        asked = len(self.asked())
        self.run_tool("make", "c")
        self.assertFalse([words for words in self.asked()[asked:] if words.startswith("dev")])
        source = self.root / "crates" / "c" / "src" / "lib.rt"
        source.write_text(SOURCE.replace("first(list, 0)", "first(list, 2)"))
        asked = len(self.asked())
        self.run_tool("make", "c")
        self.assertTrue([words for words in self.asked()[asked:] if words.startswith("dev")])

    def test_check_sees_a_proof_that_was_edited(self):
        self.run_tool("make", "c")
        (self.proofs / "Proof.antt").write_text((self.proofs / "Proof.antt").read_text() + "-- mine\n")
        status, said = self.run_tool("make", "c", "--check")
        self.assertEqual((status, said), (1, "crates/c/proofs/find/Proof.antt: not what `answers make` writes\n"))

    def test_a_proof_by_hand_is_not_written_over(self):
        (self.proofs / "Proof.antt").write_text("-- mine\n")
        status, said = self.run_tool("make", "c")
        self.assertEqual(status, 1)
        self.assertIn("was not made by this tool: --replace writes over it", said)
        self.assertEqual((self.proofs / "Proof.antt").read_text(), "-- mine\n")
        self.assertEqual(self.run_tool("make", "c", "--replace")[0], 0)
        self.assertEqual((self.root / "target/answers/c/replaced/find/Proof.antt").read_text(), "-- mine\n")

    def test_wrong_answers_and_wrong_names_are_told(self):
        (self.proofs / "Proof.answers").write_text("returns := @nothing\n")
        status, said = self.run_tool("make", "c")
        self.assertEqual(status, 1)
        self.assertIn("Proof.answers:1: there is no `@nothing` at `returns`", said)
        self.assertEqual(self.run_tool("make", "other")[0], 2)
        self.assertEqual(self.run_tool("make", "c", "nowhere")[0], 1)

    def test_new_starts_a_file_with_what_is_asked(self):
        (self.proofs / "Proof.answers").unlink()
        status, _ = self.run_tool("new", "c", "find")
        self.assertEqual(status, 0)
        lines = (self.proofs / "Proof.answers").read_text().splitlines()
        self.assertEqual(lines, ["-- `c::find` meets its contract. Assumes nothing.", "", "first-requires := ?", "returns := ?"])


if __name__ == "__main__":
    unittest.main()
