"""Where tools/style finds its rules broken."""
import unittest

from scripts import script

style = script("style")


def found(path, text):
    return sorted(style.broken(path, text))


def lines(path, text):
    return [line for line, _ in found(path, text)]


LONG = "x" * 161


class Lengths(unittest.TestCase):
    def test_lines_and_rows(self):
        row = f"| {'x' * 147}|"
        self.assertEqual(lines("docs/contracts/a.md", f"{'≡' * 160}\n{LONG}\n{row}\n{row}x\n"), [2, 4])
        self.assertEqual(lines("README.md", f"{LONG}\n{row}x\n"), [1])
        self.assertEqual(lines("tools/a", f"# {LONG}\n{'x' * 155}\n"), [1])

    def test_what_is_written_by_tools_and_data(self):
        for path in ("crates/decided/proofs/A.antt", "docs/EDITS.md", "docs/contracts/WORKERS.md", "bindings/c/a.c"):
            self.assertEqual(lines(path, LONG + "\n"), [], path)
        self.assertEqual(lines("crates/a/cases.txt", f"{LONG}\n# {LONG}\n"), [2])
        self.assertTrue(all(style.is_data(p) for p in ("crates/a/stdin", "crates/a/stdout", "tools/b_traffic.txt")))


class Comments(unittest.TestCase):
    def test_declarations(self):
        text = "use A.{x}\n\n-- a size\nabbrev pub size : N\nsize = x\n\npub record Pair : Type 0 where\n  pub left : N\n\nhelp : N\nhelp = x\n"
        text += "module _ (n : N) where\n  -- said\n  pub one : N\n  one = n\n\n  pub two : N\n  two = n\n"
        self.assertEqual(lines("crates/a/specs/A.antt", text), [7, 17])

    def test_the_first_of_a_module_may_have_it_above_the_head(self):
        text = "-- both\nmodule _ (n : N)\n    (m : N) where\n  pub one : N\n  one = n\n\n  pub two : N\n  two = n\n\n"
        text += "module _ where\n  pub three : N\n  three = x\n"
        self.assertEqual(lines("crates/a/specs/A.antt", text), [7, 11])

    def test_a_fixity_may_stand_between(self):
        self.assertEqual(lines("crates/a/specs/A.antt", "-- and\ninfixr 20 ◌&◌\npub ◌&◌ : N\n◌&◌ = x\n"), [])

    def test_what_is_opened_may_stand_between(self):
        text = "module _ (l : L) where\n  -- one\n  open l use {H}\n\n  pub one : N\n  one = x\n\n  pub two : N\n  two = x\n"
        self.assertEqual(lines("crates/a/proofs/A.antt", text), [8])

    def test_sources(self):
        text = "// One.\n#[unsafe(no_mangle)]\npub extern \"C\" fn one() {}\n\npub fn two() {}\nfn three() {}\n\n"
        text += "// A kind.\npub enum Kind {\n    A,\n}\nimpl Kind {\n    pub fn four() {}\n}\n"
        self.assertEqual(lines("crates/a/src/lib.rt", text), [5, 13])


class Proofs(unittest.TestCase):
    PATH = "crates/a/proofs/gate/refusal/Answers.antt"

    def test_the_first_line(self):
        for said in ("`a::gate::refusal`: by cases of the length. Assumes nothing.", "`gate::refusal`: meets its contract: by cases.", "`refusal`: a fold."):
            self.assertEqual(found(self.PATH, f"-- {said}\n"), [], said)

    def test_no_idea(self):
        for first in ("use A.{x}", "-- by cases", "-- `a::gate::other`: by cases.", "-- `gate::refusal` meets its contract: by cases.",
                      "-- `a::gate::refusal`: meets its contract. Assumes nothing."):
            self.assertEqual(lines(self.PATH, first + "\n"), [1], first)

    def test_which_files(self):
        self.assertEqual(lines("crates/a/proofs/gate/refusal/Invariants.antt", "abbrev pub invariant-loop-i : goal.invariant-loop-i\n"), [1])
        self.assertEqual(lines("crates/a/proofs/Answers.antt", "-- one\npub one : A\n"), [])


class Paths(unittest.TestCase):
    def long(self, text):
        return [line for line, _ in style.long_paths(text)]

    def test_a_name_at_the_head_of_an_equation(self):
        path = ".before" * 8
        self.assertEqual(self.long(f"one c =\n    let start = c{path} in\n    let at-two = start{path}.two in\n    f start\n"), [])

    def test_a_name_at_the_head_of_a_type(self):
        path = ".before" * 8
        self.assertEqual(self.long(f"one : (c : C) → let p = c{path} in let q = p{path} in\n    p.x ≡ q.x\n"), [])

    def test_elsewhere(self):
        path = ".before" * 7
        self.assertEqual(self.long(f"one c = f (c{path}.before.args)\n"), [1])
        self.assertEqual(self.long(f"one c =\n    f (let s = c{path}\n        .before in s)\n"), [2])
        self.assertEqual(self.long(f"one c = f (c{path}.args)\n-- c{path}.before\n"), [])


class Words(unittest.TestCase):
    def test_documents_and_comments(self):
        self.assertEqual(lines("docs/A.md", "fields parted by tabs\nit leans\non them\ndeparted\n"), [1, 2])
        self.assertEqual(lines("crates/a/src/lib.rt", "fn parted() {} // f\n// by chance\n"), [2])
        self.assertEqual(lines("crates/a/specs/A.antt", "-- what shuts out\nparted : N\nparted = x\n"), [1])
        self.assertEqual(lines("tools/a", 'x = "parted"\n# parted\n"""by chance"""\n'), [2, 3])


if __name__ == "__main__":
    unittest.main()
