"""What tools/links finds in a text, in a small repository."""
import os, tempfile, unittest

from scripts import script

links = script("links")


class Links(unittest.TestCase):
    def wrong(self, text):
        with tempfile.TemporaryDirectory() as root:
            os.makedirs(os.path.join(root, "crates", "one", "specs"))
            with open(os.path.join(root, "crates", "one", "specs", "A.antt"), "w") as file:
                file.write("-- of a list\nabbrev pub size : ℕ\nsize = 1\n")
            return links.wrong(text, "", root)

    def test_a_file_that_is_there_from_the_top_from_crates_or_from_a_crate_on(self):
        self.assertEqual(self.wrong("crates/one/specs/A.antt, one/specs/A.antt and specs/A.antt"), [])

    def test_a_file_that_is_not_there(self):
        self.assertEqual(self.wrong("| x | one/specs/B.antt |"), ["there is no one/specs/B.antt"])

    def test_names_after_a_file(self):
        self.assertEqual(self.wrong("one/specs/A.antt `size`, `length`; `other`"), ["one/specs/A.antt has no length"])

    def test_a_word_of_a_comment_is_no_name(self):
        self.assertEqual(self.wrong("one/specs/A.antt `list`"), ["one/specs/A.antt has no list"])

    def test_a_name_over_the_end_of_a_line(self):
        self.assertEqual(self.wrong("one/specs/A.antt\n`length`"), ["one/specs/A.antt has no length"])

    def test_a_file_beside_the_one_before(self):
        self.assertEqual(self.wrong("one/specs/A.antt `size`, then A.antt `length`"), ["A.antt has no length"])

    def test_what_stands_for_many_or_is_of_the_rust(self):
        self.assertEqual(self.wrong("crates/NAME/cases.txt, docs/contracts/CRATE.md, celt/rate.rs `bits1`, rate.rs `bits2`"), [])
