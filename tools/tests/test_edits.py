"""Every wrong program of the crates says what it is and how it is refused, and can be applied as it stands."""
import tempfile
import unittest
from pathlib import Path

import trying  # the path to the tools
from edits import TOP, Change, Edit, Unfit, changed, crates, files, read

HEAD = """# a root a unit up
# refused: `returns`: `omega`
"""
BODY = """file: src/root.rt
old:     q
new:     q + 1
file: specs/Root.antt
old: gone
new:
"""
CRATE = {"src/root.rt": "a\n    q\n", "specs/Root.antt": "gone, kept, kept\n", "proofs/Roots.antt": "q\n"}


class Crates(unittest.TestCase):
    def test_edits_fit(self):
        for crate in crates():
            for path in files(crate):
                with self.subTest(str(path.relative_to(TOP))):
                    edit = read(path)
                    self.assertTrue(edit.what and edit.refused, "it has no head of two lines")
                    changed(edit, TOP / "crates" / crate)

    def test_names_are_unique(self):
        for crate in crates():
            names = [path.stem for path in files(crate)]
            self.assertEqual(sorted(set(names)), sorted(names), crate)


class Edits(unittest.TestCase):
    def setUp(self):
        made = tempfile.TemporaryDirectory()
        self.addCleanup(made.cleanup)
        self.folder = Path(made.name)
        for name, text in CRATE.items():
            (self.folder / name).parent.mkdir()
            (self.folder / name).write_text(text)

    def read(self, text):
        path = self.folder / "root_one_up.edit"
        path.write_text(text)
        return read(path)

    def assert_unfit(self, said, *changes):
        with self.assertRaisesRegex(Unfit, said):
            changed(Edit("wrong", "", "", [Change(*change) for change in changes]), self.folder)

    def test_reads(self):
        edit = self.read(HEAD + BODY)
        self.assertEqual(edit[:3], ("root_one_up", "a root a unit up", "`returns`: `omega`"))
        self.assertEqual(edit.changes, [("src/root.rt", "    q", "    q + 1"), ("specs/Root.antt", "gone", "")])

    def test_reads_without_a_head(self):
        self.assertEqual(self.read(BODY)[1:3], ("", ""))

    def test_refuses_a_second_program(self):
        with self.assertRaisesRegex(Unfit, "another"):
            self.read(HEAD + BODY + "# another\n")

    def test_changes(self):
        texts = {"src/root.rt": "a\n    q + 1\n", "specs/Root.antt": ", kept, kept\n"}
        self.assertEqual(changed(self.read(HEAD + BODY), self.folder), texts)

    def test_no_pair_relies_on_another(self):
        file = "src/root.rt"
        both = Edit("", "", "", [Change(file, "    q", "    (a)"), Change(file, "a\n", "q\n")])
        self.assertEqual(changed(both, self.folder), {file: "q\n    (a)\n"})
        self.assert_unfit("does not have this once: '    r'", (file, "    q", "    r"), (file, "    r", "    s"))
        self.assert_unfit("does not have this once: 'a'", (file, "    q", "    a"), (file, "a", "s"))

    def test_refuses_what_is_not_there_once(self):
        self.assert_unfit("does not have this once", ("specs/Root.antt", "kept", "gone"))
        self.assert_unfit("does not have this once", ("src/root.rt", "", "gone"))
        self.assert_unfit("changes nothing")

    def test_refuses_other_files(self):
        for file in ("proofs/Roots.antt", "src/../proofs/Roots.antt", "src/none.rt", ""):
            self.assert_unfit("is no file of src/ or specs/", (file, "q", "r"))


if __name__ == "__main__":
    unittest.main()
