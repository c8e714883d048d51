"""tools/flattener.py, which was written from docs/FORMAT.md, gives the column file and the texts of an example."""
import importlib.machinery
import importlib.util
import pathlib
import unittest

ROOT = pathlib.Path(__file__).resolve().parents[2]


def module(name, path):
    loader = importlib.machinery.SourceFileLoader(name, str(path))
    spec = importlib.util.spec_from_loader(name, loader)
    made = importlib.util.module_from_spec(spec)
    loader.exec_module(made)
    return made


class Flattener(unittest.TestCase):
    def test_an_example_comes_out_as_it_is_stored(self):
        flattener = module("flattener", ROOT / "tools" / "flattener.py")
        source = (ROOT / "examples" / "snow.clover").read_text()
        columns, texts = flattener.flatten(source, "snow.clover")
        self.assertEqual(columns, (ROOT / "examples" / "snow.col").read_text())
        self.assertEqual(texts, (ROOT / "examples" / "snow.texts").read_text())

    def test_what_it_does_not_know_is_refused(self):
        flattener = module("flattener", ROOT / "tools" / "flattener.py")
        for source in ("model M end", "function f( end", "local x = ?"):
            with self.assertRaises(SystemExit):
                flattener.flatten(source, "x.clover")


if __name__ == "__main__":
    unittest.main()
