"""crates.txt: how tools/crates.py reads it, tools/layers draws it, and tools/needed shortens it."""
import unittest

import crates
from scripts import script

layers, needed = script("layers"), script("needed")

TEXT = """# a: comment, with a colon
leaf:
middle: leaf   # why: it is above
  beside : leaf io
top: middle beside libc
"""


class Crates(unittest.TestCase):
    def test_comments_and_blanks(self):
        self.assertEqual(crates.parse(TEXT), {"leaf": [], "middle": ["leaf"], "beside": ["leaf", "io"], "top": ["middle", "beside", "libc"]})

    def test_what_a_crate_is_stands_after_its_name(self):
        self.assertEqual(crates.parse("a staticlib: b\nb:\nc status=2: b\n"), {"a": ["b"], "b": [], "c": ["b"]})

    def test_libraries_of_the_kit_are_not_of_this_repository(self):
        self.assertEqual(crates.here(crates.parse(TEXT))["top"], ["middle", "beside"])

    def test_reached_once_each_and_itself_first(self):
        self.assertEqual(crates.reached(crates.parse(TEXT), "top"), ["top", "middle", "beside", "leaf"])

    def test_a_crate_that_is_not_listed_reaches_nothing(self):
        self.assertEqual(crates.reached(crates.parse(TEXT), "none"), [])


class Layers(unittest.TestCase):
    def test_what_is_reached_through_another_is_not_drawn(self):
        lines = {"leaf": [], "middle": ["leaf"], "top": ["leaf", "middle"]}
        drawn = layers.picture(lines, ["top"], [("all", "these", ["leaf", "middle", "top"])])
        self.assertEqual(drawn, "all: these\n  3  (top)             middle\n  2  middle            leaf\n  1  leaf")

    def test_layers_count_within_a_group_and_the_last_group_comes_first(self):
        text = "# group: low: below\nleaf:\n# group: high: above\nmiddle: leaf\ntop: middle # why\n"
        drawn = layers.picture(crates.here(crates.parse(text)), [], crates.grouped(text))
        self.assertEqual(drawn, "high: above\n  2  top               middle\n  1  middle            leaf\n\nlow: below\n  1  leaf")

    def test_a_crate_that_depends_on_a_later_group_is_refused(self):
        text = "# group: low: below\ntop: leaf\n# group: high: above\nleaf:\n"
        with self.assertRaises(SystemExit):
            layers.picture(crates.parse(text), [], crates.grouped(text))


class Needed(unittest.TestCase):
    def kept(self, lines, **texts):
        """texts: CRATE_PART="..", each the file lib or M."""
        files = {}
        for name, text in texts.items():
            crate, part = name.split("_")
            files[crate, part, "lib" if part == "src" else "M"] = text
        return needed.needed(files, lines)

    def test_a_name_in_a_comment_is_no_need(self):
        kept = self.kept({"a": [], "b": ["a"]}, b_src="// as a::f does\npub fn g() {\n}\n", b_specs="-- Rattle.a.specs.M has it\n")
        self.assertEqual(kept["b"], [])

    def test_a_call_a_contract_and_a_proof_are_needs(self):
        lines = {"a": [], "b": [], "c": [], "d": ["a", "b", "c"]}
        src = "ghost use Rattle.b.specs.M.{x};\npub fn g() {\n    a::f()\n}\n"
        self.assertEqual(self.kept(lines, d_src=src, d_proofs="use Rattle.c.proofs.M.{y}\n")["d"], ["a", "b", "c"])

    def test_the_type_within_what_a_call_answers_is_a_need(self):
        lines = {"sink": [], "writer": ["sink"], "user": ["sink", "writer"], "idle": ["sink", "writer"]}
        writer = "use sink::Sink;\npub struct Writer {\n    pub sink: Sink,\n}\npub fn new() -> Writer {\n}\npub fn count() -> u32 {\n}\n"
        kept = self.kept(
            lines,
            sink_src="pub struct Sink {\n    pub end: u32,\n}\n",
            writer_src=writer,
            user_src="pub fn g() {\n    let w = writer::new();\n}\n",
            idle_src="pub fn g() {\n    let n = writer::count();\n}\n",
        )
        self.assertEqual((kept["user"], kept["idle"]), (["sink", "writer"], ["writer"]))

    def test_comments_of_the_list_stay(self):
        self.assertEqual(needed.rewritten("# a: b\na: b c  # why\nb:\n", {"a": ["c"], "b": []}), "# a: b\na: c  # why\nb:\n")
        self.assertEqual(needed.rewritten("a staticlib: b c\nb:\n", {"a": ["c"], "b": []}), "a staticlib: c\nb:\n")


if __name__ == "__main__":
    unittest.main()
