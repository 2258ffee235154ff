"""Repeated statements are found: with renamed variables, in modules, under another name, and in the library."""
import contextlib
import io
import os
import pathlib
import sys
import tempfile
import unittest
import unittest.mock

from support import ROOT

from gate import check_statements

FILES = {
    "low/proofs/One.antt": "use Rattle.std.specs.Prelude.{Bool, true}\n"
                           "both : (a b : Bool) → (a && b) ≡ true → (a ≡ true) × (b ≡ true)\nboth true b e = (refl, "
                           "e)\n"
                           "alone : (a : Bool) → a ≡ a\nalone a = refl\n",
    "high/proofs/Two.antt": "use Rattle.low.specs.Trees.{tree as a_tree}\n"
                            "module _ (x y : Bool) where\n  -- the same, over two lines\n"
                            "  pub parts : (x && y) ≡ true\n      → (x ≡ true) × (y ≡ true)\n  parts e = both x y e\n"
                            "module _ (n : ℕ) (small : n < 5) where\n  less : n < 6\n",
    "high/proofs/Three.antt": "use Rattle.low.specs.Trees.{tree}\nmodule _ (n : ℕ) (large : n < 9) where\n  less : n "
                              "< 6\n",
    "low/specs/Is.antt": "is_one : ℕ → Bool\nis_one (suc n) = eqb n 0\nis_one zero = false\n",
    "high/specs/Is.antt": "abbrev pub single : ℕ → Bool\nsingle (suc k) = eqb k 0\nsingle zero = false\n",
}
PAGE = """# Bool

Import with `use Rattle.std.proofs.lemmas.Bool.{NAME}`.

```text
pub and_parts : (x y : Bool) → (x && y) ≡ true → (x ≡ true) × (y ≡ true)
```
"""


class StatementsTest(unittest.TestCase):
    def checked(self, *options):
        """The status, and what is written, of a check of the files."""
        with tempfile.TemporaryDirectory() as folder:
            for name, text in FILES.items():
                path = pathlib.Path(folder, "crates", name)
                path.parent.mkdir(parents=True, exist_ok=True)
                path.write_text(text)
            pages = pathlib.Path(folder, "lemmas")
            pages.mkdir()
            (pages / "Bool.md").write_text(PAGE)
            os.chdir(folder)
            said = io.StringIO()
            words = ["check_statements.py", "--library", str(pages), *options]
            with contextlib.redirect_stdout(said), unittest.mock.patch.object(sys, "argv", words):
                status = check_statements.main()
            os.chdir(ROOT)
        return status, said.getvalue()

    def test_found(self):
        status, said = self.checked()
        self.assertEqual(status, 0)
        self.assertIn("2 times: (x : Bool) (y : Bool) → (x && y) ≡ true → (x ≡ true) × (y ≡ true)\n", said)
        self.assertIn("the library: use Rattle.std.proofs.lemmas.Bool.{and_parts}", said)
        self.assertIn("parts  high/proofs/Two.antt:4", said)
        self.assertIn("both  low/proofs/One.antt:2", said)
        self.assertNotIn("less  ", said)
        self.assertIn("single  high/specs/Is.antt:1", said)
        self.assertIn("1 stand more than once, 1 too many; the library has 1 of them, which are proved 2 times; 1 def",
                      said)

    def test_limits(self):
        self.assertEqual(self.checked("--most", "0", "--brief")[0], 1)
        self.assertEqual(self.checked("--most-definitions", "0", "--brief")[0], 1)
        status, said = self.checked("--most", "1", "--most-definitions", "1", "--brief")
        self.assertEqual((status, said.count("\n")), (0, 1))


if __name__ == "__main__":
    unittest.main()
