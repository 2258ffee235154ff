"""Re-exports of whole crates: the check finds contracts that need them, and re-exports that none needs."""
import os
import pathlib
import tempfile
import unittest

from support import ROOT

from gate import check_imports

FILES = {
    "low/specs/Lib.antt": "pub mod Trees\n",
    "low/specs/Trees.antt": "-- Trees.\n",
    "low/proofs/Lib.antt": "pub mod Laws\n",
    "low/proofs/Laws.antt": "use Rattle.low.specs.Trees.{tree}\n",
    "middle/specs/Lib.antt": "pub use Rattle.low.specs as trees\n",
    "middle/proofs/Lib.antt": "pub mod Steps\npub use Rattle.low.proofs as of_trees\n",
    "middle/proofs/Steps.antt": "use Rattle.middle.specs.trees.Trees.{tree}\nuse "
                                "Rattle.middle.proofs.of_trees.Laws.{law}\n",
    "high/specs/Lib.antt": "pub mod Lawful\n",
    "high/specs/Lawful.antt": "use Rattle.middle.proofs.Steps.{step}\n",
    "high/src/lib.rt": "ghost use Rattle.high.specs.Lawful.{is_lawful};\n\npub use middle as events;\n",
}


class Imports(unittest.TestCase):
    def found(self, files):
        here = os.getcwd()
        with tempfile.TemporaryDirectory() as folder:
            for name, text in files.items():
                path = pathlib.Path(folder, "crates", name)
                path.parent.mkdir(parents=True, exist_ok=True)
                path.write_text(text)
            os.chdir(folder)
            try:
                imports = check_imports.Imports()
                ways = [[str(it.relative_to("crates")) for it in way] for way in check_imports.leading(imports)]
                return ways, list(check_imports.unused(imports))
            finally:
                os.chdir(here)

    def test_a_contract_that_leads_to_what_is_handed_on_whole(self):
        ways, unused = self.found(FILES)
        self.assertEqual(ways, [["high/specs/Lawful.antt", "middle/proofs/Steps.antt"],
                                ["high/src/lib.rt", "high/specs/Lawful.antt", "middle/proofs/Steps.antt"]])
        self.assertEqual(unused, ["high::events"])

    def test_a_lemma_that_comes_from_its_own_crate(self):
        named = FILES["middle/proofs/Steps.antt"].replace("middle.proofs.of_trees", "low.proofs")
        ways, unused = self.found({**FILES, "middle/proofs/Steps.antt": named})
        self.assertEqual(ways, [])
        self.assertEqual(unused, ["Rattle.middle.proofs.of_trees", "high::events"])

    def test_this_repository(self):
        here = os.getcwd()
        os.chdir(ROOT)
        try:
            imports = check_imports.Imports()
            self.assertEqual((list(check_imports.leading(imports)), list(check_imports.unused(imports))), ([], []))
        finally:
            os.chdir(here)


if __name__ == "__main__":
    unittest.main()
