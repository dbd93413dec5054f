"""How tools/rattle.py reads definitions, proofs and sources."""
import unittest

import rattle


def names(text):
    return [w.name for w in rattle.words(text)[1]]


class Text(unittest.TestCase):
    def test_comments_of_definitions(self):
        self.assertEqual(rattle.without_comments("x : A -- why (x)\n-- all\na--b : B").split("\n"), ["x : A           ", "      ", "a--b : B"])

    def test_comments_and_quotes_of_sources(self):
        self.assertEqual(rattle.code_only('f("a // b", b\'\\n\', \'x\') // g(').split(), ["f(", ",", ",", ")"])

    def test_a_lifetime_is_no_quote(self):
        self.assertEqual(rattle.code_only("fn f<'a>(x: &'a [u8]) {}"), "fn f<'a>(x: &'a [u8]) {}")

    def test_lines_are_kept(self):
        self.assertEqual(rattle.code_only('let s = "a\nb";\nc').count("\n"), 2)

    def test_a_bracket_that_is_not_closed(self):
        self.assertRaises(ValueError, rattle.closing, "(a (b)", 0)


class Words(unittest.TestCase):
    def test_primes_digits_below_and_dashes_are_letters(self):
        self.assertEqual(names("same′ z₀ both-le′ «end_offs» μ-loop"), ["same′", "z₀", "both-le′", "«end_offs»", "μ-loop"])

    def test_dots(self):
        of = {w.name: w.of for w in rattle.words("m.x (r .y) (f z).w λ a. b c .0")[1]}
        self.assertEqual(of, {"m": None, "x": "m", "r": None, "y": "", "f": None, "z": None, "w": "", "a": None, "b": None, "c": None, "0": ""})

    def bound(self, text):
        tokens, _ = rattle.words(text)
        return sorted({tokens[i] for i in rattle.bound(tokens)} - {"(", ")"})

    def test_binders(self):
        self.assertEqual(self.bound("(x y : A) {z : B} → f x"), ["x", "y", "z"])
        self.assertEqual(self.bound("λ x y. f x"), ["x", "y"])
        self.assertEqual(self.bound("λ (x : A) y. f x"), ["x", "y"])
        self.assertEqual(self.bound("let e : a ≡ b = c in e"), ["e"])

    def test_fields_and_named_arguments_are_no_uses(self):
        self.assertEqual(self.bound("record { code = no; rec = r } {n₂ = 44}"), ["code", "n₂", "rec"])

    def test_brackets_without_a_colon_bind_nothing(self):
        self.assertEqual(self.bound("f (g x) (h y)"), [])

    def test_operators_are_seen_by_their_signs(self):
        self.assertTrue(rattle.is_seen("◌≡◌", {"≡"}))
        self.assertTrue(rattle.is_seen("◌≡◌", {"◌≡◌"}))
        self.assertFalse(rattle.is_seen("◌∙◌", {"≡"}))
        self.assertTrue(rattle.is_seen("step_in", {"step_in"}))


class Uses(unittest.TestCase):
    def test_over_several_lines(self):
        found, rest = rattle.uses("use A.B.{x,\n    y as z,\n    ◌+◌}\nuse C as m\nw : A\n")
        taken = [("A.B", "x", "x", 1), ("A.B", "y", "z", 2), ("A.B", "◌+◌", "◌+◌", 3), ("C", None, "m", 4)]
        self.assertEqual([(u.place, u.there, u.name, u.line) for u in found], taken)
        self.assertEqual(rest.split(), ["w", ":", "A"])

    def test_of_contracts(self):
        found, _ = rattle.uses("ghost use Rattle.a.specs.M.{x, y};\nuse entdec::Reader;\nghost use Rattle.b.specs.N as n;\n", ghost=True)
        self.assertEqual([(u.place, u.name) for u in found], [("Rattle.a.specs.M", "x"), ("Rattle.a.specs.M", "y"), ("Rattle.b.specs.N", "n")])

    def test_places(self):
        self.assertEqual(rattle.place_of("Rattle.rate_spec.specs.Types"), ("rate_spec", "specs", ["Types"]))
        self.assertEqual(rattle.place_of("Rattle.entcode.specs.Said.Said"), ("entcode", "specs", ["Said", "Said"]))
        self.assertIsNone(rattle.place_of("mathlib.Core.Path"))


class Declarations(unittest.TestCase):
    TEXT = """
abbrev pub T : Type 0
T = (a : A) → B a

pub lemma
    : A
    ≡ B
unfolding T
lemma = go
  where
    go : A
    go = lemma

pub record R (x : A) : Type 0 where
  pub left : A

module _ (a : A)
    (b : B) where
  pub inner : C a
  inner = lemma
  module _ (c : D) where
    deep : E
    deep = inner

last : F
last = T
"""

    def setUp(self):
        self.found = rattle.declarations(self.TEXT)

    def test_names_and_lines(self):
        there = [("T", 2, True), ("lemma", 5, True), ("R", 14, True), ("inner", 19, True), ("deep", 22, False), ("last", 25, False)]
        self.assertEqual([(d.name, d.line, d.public) for d in self.found], there)

    def test_kinds(self):
        self.assertEqual([d.name for d in self.found if d.is_type], ["R"])
        self.assertEqual([d.name for d in self.found if d.reducible], ["T"])

    def test_a_clause_and_its_unfolding_belong_to_the_declaration(self):
        self.assertIn("unfolding T", self.found[1].text())
        self.assertIn("where", self.found[1].text())

    def test_the_heads_of_modules_are_of_all_within(self):
        self.assertIn("(b : B)", self.found[3].text())
        self.assertIn("(c : D)", self.found[4].text())
        self.assertNotIn("(c : D)", self.found[5].text())

    def test_variables_patterns_and_helpers_are_its_own(self):
        d = rattle.declarations("f : (n : A) → B\nf (suc m) = go m\n  where\n    go : A → B\n    go k = λ x. g k x\n")[0]
        self.assertEqual(d.own_names() & {"n", "m", "k", "x", "go", "g"}, {"n", "m", "k", "x", "go"})


class Sources(unittest.TestCase):
    TEXT = '''ghost use Rattle.a.specs.M.{x};
use b::{gate, Word};
use super::near;
// fn commented(
pub struct S {
    pub a: u32,
}
impl S {
    pub fn get(
        &mut self,
        at: usize,
    ) -> u32
        requires { x at }
        ensures* { λ r. ⌜ r ≡ at ⌝ }
        ensures equal { (result ≡ x { y } at) }
    {
        gate::inner(at)
    }
}
#[unsafe(no_mangle)]
pub extern "C" fn out() -> Word {
    let s = S::get(1);
    near()
}
fn plain() {}
'''

    def setUp(self):
        self.source = rattle.Source("a", "way/work", self.TEXT)

    def test_functions(self):
        there = [("S::get", 9, False, True), ("way::work::out", 21, True, False), ("way::work::plain", 25, False, False)]
        self.assertEqual([(f.full(), f.line, f.exported, f.is_method()) for f in self.source.found], there)

    def test_methods_of_traits(self):
        source = rattle.Source("a", "way", """pub trait T {
    ghost m: { x };

    fn get(&self) -> u32;
}
impl<'a> T for S<'a> {
    ghost m = { λ s. y { z } };

    fn get(&self) -> u32 {
        1
    }
}
impl<C> W<C> {
    fn put(&self) {}
}
""")
        self.assertEqual([(f.full(), f.trait) for f in source.found], [("T::get", ""), ("S::get", "T"), ("W::put", "")])
        self.assertEqual(source.members, ["{ x }", "{ λ s. y { z } }"])
        tree = rattle.Tree({("a", "src", "way"): "impl T for S {\n    fn get(&self) {}\n}\n", ("a", "proofs", "way/ST/get/Answers"): "x : A\n"})
        self.assertEqual([m.inside for m in tree.proof_of(tree.sources[0].found[0])], ["way.ST.get.Answers"])

    def test_a_list_of_parameters_over_several_lines(self):
        self.assertEqual(self.source.found[0].parameters(), {"self", "at"})
        self.assertEqual(self.source.found[0].answered.strip(), "u32")

    def test_clauses_with_braces_within(self):
        self.assertEqual([" ".join(c.split()) for c in self.source.found[0].clauses()], ["{ x at }", "{ λ r. ⌜ r ≡ at ⌝ }", "{ (result ≡ x { y } at) }"])
        self.assertEqual(len(self.source.found[0].clauses("requires")), 1)

    def test_calls(self):
        tree = rattle.Tree({
            ("a", "src", "way/work"): self.TEXT,
            ("a", "src", "way/mod"): "pub fn near() {}\npub fn plain() {}\n",
            ("b", "src", "gate"): "pub fn inner(at: usize) {}\npub fn other() {}\n",
        })
        source = next(s for s in tree.sources if s.module == ["way", "work"])
        self.assertEqual([f.full() for f in tree.called(source, source.found[0].text.split("{", 5)[-1])], ["gate::inner"])
        self.assertEqual([f.full() for f in tree.called(source, source.found[1].text)], ["way::work::out", "S::get", "way::near"])
        self.assertEqual([f.source.module for f in tree.called(source, " plain()")], [["way", "work"]])

    def test_what_is_handed_on_and_what_converts(self):
        tree = rattle.Tree({
            ("a", "src", "lib"): "pub use way::{S, near};\n",
            ("a", "src", "way"): "pub fn near() {}\nimpl From<S> for u32 {\n    fn from(s: S) -> u32 {}\n}\n",
            ("b", "src", "lib"): "use a::near;\nfn plain() {}\n",
        })
        source = next(s for s in tree.sources if s.crate == "b")
        for text in (" a::near()", " near()"):
            self.assertEqual([f.source.file for f in tree.called(source, text)], ["crates/a/src/way.rt"])
        for text in (" u32::from(s)", " s.into()"):
            self.assertEqual([f.full() for f in tree.called(source, text)], ["u32::from"])


if __name__ == "__main__":
    unittest.main()
