"""How tools/edits reads an edit, its record and what the prover said."""
import unittest

from scripts import script

edits = script("edits")
FILES = {"src/lib.rt": "if a < b {\n    return 10;\n}\nreturn 0;\n", "specs/M.antt": "x = y\n"}


class Edits(unittest.TestCase):
    def refused(self, text, why):
        with self.assertRaisesRegex(edits.Wrong, why):
            edits.edited(text, FILES)

    def test_one_pair(self):
        self.assertEqual(edits.edited("# why\nfile: src/lib.rt\nold: a < b\nnew: a <= b\n", FILES)["src/lib.rt"], FILES["src/lib.rt"].replace("<", "<="))

    def test_pairs_in_two_files_each_after_the_one_before(self):
        text = "file: specs/M.antt\nold: y\nnew: z: old\nold: z: old\nnew: w\nfile: src/lib.rt\nold: 10\nnew: 11\n"
        made = edits.edited(text, FILES)
        self.assertEqual((made["specs/M.antt"], made["src/lib.rt"].count("11")), ("x = w\n", 1))

    def test_a_text_may_be_taken_out(self):
        self.assertEqual(edits.edited("file: src/lib.rt\nold: return 0;\nnew:\n", FILES)["src/lib.rt"], "if a < b {\n    return 10;\n}\n\n")

    def test_two_old_lines(self):
        self.refused("file: src/lib.rt\nold: a < b\nold: 10\nnew: 11\n", "line 3: an `old:` without its `new:`")

    def test_a_text_of_more_than_one_line(self):
        self.refused("file: src/lib.rt\nold: if a < b {\n    return 10;\nnew: x\n", "line 3: it is none of")

    def test_what_is_missing(self):
        self.refused("file: src/lib.rt\nnew: x\n", "without its `old:`")
        self.refused("old: x\nnew: y\n", "without its `file:`")
        self.refused("# why\nfile: src/lib.rt\n", "no `old:` and `new:` pair")
        self.refused("file: src/lib.rt\nold: a\nnew: c\nold: b\n", "last `old:`")
        self.refused("file: src/gone.rt\nold: x\nnew: y\n", "no src/gone.rt")

    def test_an_old_text_stands_once(self):
        self.refused("file: src/lib.rt\nold: c < d\nnew: x\n", "stands 0 times")
        self.refused("file: src/lib.rt\nold: return\nnew: x\n", "stands 2 times")

    def test_an_edit_changes_something(self):
        self.refused("file: src/lib.rt\nold: a < b\nnew: a < b\n", "both its old text and its new one")


class Record(unittest.TestCase):
    def test_rows(self):
        text = edits.HEAD + "| a/one | specs/M.antt:3 | `x` is no `y / z` | 0123 |\n"
        self.assertEqual(edits.recorded(text), {"a/one": ["a/one", "specs/M.antt:3", "`x` is no `y / z`", "0123"]})

    def test_a_kit_may_stand_before_the_sum(self):
        row = ["a/one", "specs/M.antt:3:1", "`x`", "rattle-kit-13f 0123"]
        self.assertEqual(edits.recorded("| " + " | ".join(row) + " |\n"), {"a/one": row})

    def test_the_first_error(self):
        log = "rt: must-fail a/on.edit: refused, as it must be: src/x.rt:1:1: error: no\n"
        log += "rt: must-fail a/one.edit: refused, as it must be: proofs/M.antt:7:3: error: this is  left: x ≡ y | z\nrt: more\n"
        self.assertEqual(edits.said("a/one", log), ("proofs/M.antt:7:3", "this is left: x ≡ y / z"))

    def test_without_an_error_that_has_a_place(self):
        log = "rt: must-fail a/one.edit: refused, as it must be: 9\n"
        self.assertEqual(edits.said("a/one", log), ("", "refused, as it must be: 9"))

    def test_what_is_refused_for_another_reason_than_a_fact(self):
        for why in ("only by a limit of the prover", "only because a proof file names what the edit took away"):
            self.assertIsNone(edits.said("a/one", f"rt: must-fail a/one.edit: refused, as it must be ({why}): 9\n"))

    def test_what_is_not_refused(self):
        for ended in ("NOT REFUSED: the crate is still proved", "BAD EDIT: it changes nothing", "NOT TRIED: its check was killed"):
            self.assertIsNone(edits.said("a/one", f"rt: must-fail a/one.edit: {ended}\n"))


if __name__ == "__main__":
    unittest.main()
