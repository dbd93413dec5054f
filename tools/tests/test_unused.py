"""What tools/unused takes for needed, and for used."""
import unittest

import rattle
from scripts import script

unused = script("unused")


def found(files, public=None, documents=()):
    """What is not needed among some files, by name."""
    tree = rattle.Tree(files)
    live = unused.needed(tree, public or {}, unused.documented(documents))
    return [why.split("`")[1] for _, _, why in unused.unneeded(tree, live)]


def idle(files):
    return [(line, why.split("`")[1]) for _, line, why in unused.idle_uses(rattle.Tree(files))]


SPECS = ("a", "specs", "M")
LAWS = ("a", "proofs", "Laws")
STATED = "abbrev pub Stated : Type 0\nStated = (n : ℕ) → size n ≡ n\n\nabbrev pub size : ℕ → ℕ\nsize n = n\n"


class Needed(unittest.TestCase):
    def test_a_proved_statement_and_what_it_cites(self):
        laws = "use Rattle.a.specs.M.{Stated, size}\n\nhelp : size 0 ≡ 0\nhelp = refl\n\n"
        laws += "pub stated : Stated\nstated n = help\n\npub idle : size 1 ≡ 1\nidle = refl\n"
        self.assertEqual(found({SPECS: STATED, LAWS: laws}), ["idle"])

    def test_an_equation_over_a_definition_is_no_statement(self):
        laws = "use Rattle.a.specs.M.{size}\n\npub first : size 0 ≡ 0\nfirst = refl\n"
        self.assertEqual(found({SPECS: STATED, LAWS: laws}), ["Stated", "size", "first"])

    def test_what_only_something_unneeded_cites(self):
        laws = "pub top : A\ntop = below\n\npub below : A\nbelow = below\n"
        self.assertEqual(found({LAWS: laws}), ["top", "below"])

    def test_a_variable_of_the_same_name_is_no_citation(self):
        laws = "use Rattle.a.specs.M.{Stated}\n\npub rest : A\nrest = a\n\npub stated : Stated\nstated rest = λ x. f rest x\n"
        self.assertIn("rest", found({SPECS: STATED, LAWS: laws}))

    def test_the_same_name_in_another_module_is_another(self):
        other = "use Rattle.a.specs.M.{Stated}\nuse Rattle.a.proofs.Laws as laws\n\npub stated : Stated\nstated = laws.one\n"
        laws = "pub one : A\none = a\n\npub two : A\ntwo = a\n"
        self.assertEqual(found({SPECS: STATED, LAWS: laws, ("b", "proofs", "Laws"): "pub one : A\none = a\n", ("b", "proofs", "Other"): other}), ["two", "one"])

    def test_what_a_ghost_field_cites(self):
        code = "ghost use Rattle.a.specs.M.{Stated};\n\npub struct Part {\n    pub n: u32,\n    pub ghost kept: { Stated },\n}\n"
        self.assertEqual(found({SPECS: STATED, ("a", "src", "lib"): code}), [])
        self.assertEqual(idle({SPECS: STATED, ("a", "src", "lib"): code}), [])

    def test_documents(self):
        laws = "pub one : A\none = a\n\npub two : A\ntwo = a\n"
        self.assertEqual(found({LAWS: laws}, documents=["`Laws.one` says it, and crate a has `two : A`.\n"]), [])
        self.assertEqual(found({LAWS: laws}, documents=["## a: title\n\nIt is `one`.\n\n## b: title\n\nIt is `two`.\n"]), ["two"])
        self.assertEqual(found({LAWS: laws}, documents=["Of a, `f one` and two.\n"]), ["one", "two"])

    def test_the_title_of_a_document_names_a_crate(self):
        laws = "pub one : A\none = a\n\npub two : A\ntwo = a\n"
        self.assertEqual(found({LAWS: laws}, documents=["# a: title\n\n## Theorems\n\nIt is `one`.\n", "# b: a\n\nIt is `two`.\n"]), ["two"])

    def test_lists_of_calls_name_no_lemmas(self):
        table = "# a: title\n\n| call | equals |\n|---|---|\n| `one` | `two` |\n"
        self.assertEqual(found({LAWS: "pub one : A\none = a\n\npub two : A\ntwo = a\n"}, documents=[table]), ["one"])

    def test_functions(self):
        src = "ghost use Rattle.a.specs.M.{size};\n\npub fn call(n: u32) -> u32\n    ensures { result ≡ size n }\n{\n    worker(n)\n}\n"
        src += "fn worker(n: u32) -> u32 {\n    n\n}\nfn idle() {\n    worker(1)\n}\n"
        proof = "use Rattle.a.proofs.Laws.{one}\nuse Rattle.a.proofs.idle.Goals as goal\n\nhelp : A\nhelp = one\n\nspare : A\nspare = one\n\n"
        proof += "pub returns : goal.returns\nreturns c = help\n"
        measure = "abbrev pub decreases-loop-i : goal.decreases-loop-i\ndecreases-loop-i l = l.i\n"
        files = {("a", "src", "lib"): src, SPECS: STATED, LAWS: "pub one : A\none = a\n"}
        files |= {("a", "proofs", "idle/Answers"): proof, ("a", "proofs", "idle/Invariants"): measure}
        self.assertEqual(found(files, {"a": ["call"]}), ["Stated", "one", "help", "spare", "returns", "decreases-loop-i", "idle"])
        self.assertEqual(found(files, {"a": ["call", "idle"]}), ["Stated", "spare"])

    def test_what_a_type_has_by_a_trait(self):
        code = "pub trait Held {\n    fn load() -> Self;\n    fn rest();\n}\n\nimpl Held for Part {\n    fn load() -> Part {\n        by::<true>()\n    }\n}\n"
        code += "\nfn by<const B: bool>() -> Part {\n}\n\npub fn top() -> Part {\n    Part::load()\n}\n"
        self.assertEqual(found({("a", "src", "lib"): code}, {"a": ["top"]}), ["Held::rest"])

    def test_what_a_type_parameter_has_by_a_trait(self):
        code = "pub trait Held {\n    fn load() -> Self;\n    fn rest();\n}\n\nimpl Held for Part {\n    fn load() -> Part {\n        by()\n    }\n}\n"
        code += "\nfn by() -> Part {\n}\n\npub fn top<T: Held>() -> T {\n    T::load()\n}\n"
        self.assertEqual(found({("a", "src", "lib"): code}, {"a": ["top"]}), ["Held::rest"])

    def test_a_function_that_is_handed_on_by_its_name(self):
        code = "fn one(x: u32) {\n}\n\nfn two(x: u32) {\n}\n\nfn each(f: F) {\n}\n\npub fn top(two: u32) {\n    each(one);\n    each(two);\n}\n"
        self.assertEqual(found({("a", "src", "lib"): code}, {"a": ["top"]}), ["two"])

    def test_what_attributes_hand_to_tactics(self):
        laws = "".join(f"pub {n} : A\n{n} = a\n\n" for n in ("one", "two", "three", "four"))
        handed = lambda name: f"#[tactic(auto, using(crate::proofs::Laws::{name}), unfolding(crate::specs::M::size))]\n"
        src = handed("one") + "// Why.\npub fn f() {\n    " + handed("two") + "    g();\n}\n" + handed("three") + "fn idle() {}\nfn g() {}\n"
        files = {("a", "src", "lib"): src, LAWS: laws, SPECS: STATED}
        self.assertEqual(found(files, {"a": ["f"]}), ["three", "four", "Stated", "idle"])
        files["a", "src", "lib"] = handed("four").replace("#[", "#![") + src
        self.assertEqual(found(files, {"a": ["f"]}), ["three", "Stated", "idle"])

    def test_main_and_what_is_exported(self):
        self.assertEqual(found({("p", "src", "main"): "fn main() {\n    x.step()\n}\nimpl X {\n    fn step(self) {}\n    fn idle(self) {}\n}\n"}), ["X::idle"])
        self.assertEqual(found({("p", "src", "lib"): 'pub extern "C" fn out() {}\n'}), [])


class Idle(unittest.TestCase):
    def test_names_that_are_taken_and_not_used(self):
        text = "use A.{x,\n    y as z, ◌+◌, ◌∷◌}\nuse B as m\nuse C as n\n\nlemma : x + 1 ≡ n.w\nlemma = a -- z, m.q and a ∷ b\n"
        self.assertEqual(idle({LAWS: text}), [(2, "z"), (2, "◌∷◌"), (3, "m")])

    def test_a_field_and_a_binder_of_the_same_name_are_no_uses(self):
        text = "use A.{now, code}\n\nlemma : (now : A) → B\nlemma r = record { code = r.now }\n"
        self.assertEqual([name for _, name in idle({LAWS: text})], ["now", "code"])

    def test_a_constructor_in_a_pattern_is_used(self):
        self.assertEqual(idle({LAWS: "use A.{zero, suc}\n\nf : N → N\nf zero = f\nf (suc n) = n\n"}), [])

    def test_sources(self):
        src = "ghost use A.{x, y};\nuse b::{Word, gate};\n// gate::f()\npub fn f(w: Word)\n    ensures { x }\n{\n    let y = 1;\n}\n"
        self.assertEqual([name for _, name in idle({("a", "src", "lib"): src})], ["y", "gate"])

    def test_a_trait_is_used_by_its_methods(self):
        held = "pub trait Held {\n    fn store(self);\n}\n"
        files = {("a", "src", "lib"): held, ("b", "src", "lib"): "use a::Held;\n\nfn f(x: u8) {\n    x.store();\n}\n"}
        files["b", "src", "other"] = "use a::Held;\n\nfn g(x: u8) {\n    x.restore();\n}\n"
        self.assertEqual(idle(files), [(1, "Held")])

    def test_a_trait_of_std_is_used_without_its_name(self):
        src = "use std::io::{Read, Stdin, Stdout};\nuse b::Write;\npub fn f(i: Stdin) {\n    i.read();\n}\n"
        self.assertEqual([name for _, name in idle({("a", "src", "lib"): src})], ["Stdout", "Write"])


if __name__ == "__main__":
    unittest.main()
