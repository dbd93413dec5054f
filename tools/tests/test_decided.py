"""How tools/decided reads terms and contracts."""
import unittest

from scripts import script

decided = script("decided")


class Terms(unittest.TestCase):
    def test_cut_at_a_mark_outside_brackets(self):
        self.assertEqual(decided.apart("(a × b) × c × f (d × e)", "×"), ["(a × b)", "c", "f (d × e)"])

    def test_brackets_around_all_of_it(self):
        self.assertEqual(decided.bare("((a) (b))"), "(a) (b)")
        self.assertEqual(decided.bare("(a) (b)"), "(a) (b)")

    def test_terms(self):
        self.assertEqual(decided.term("f (g x) (y, h z)"), ["f", ["g", "x"], ("y", ["h", "z"])])
        self.assertEqual(decided.term("(x)"), "x")

    def test_titles(self):
        self.assertEqual(decided.title("quant_bands"), "QuantBands")


class Contracts(unittest.TestCase):
    def call(self, text, kind=None):
        return decided.Call("a", "f", kind, text, 0)

    def test_parameters_over_several_lines(self):
        asked = "(\n    mut self,\n    s: &mut [u8],\n    n: u32,\n) -> rate::Answer"
        call = self.call(f"pub fn f{asked}\n    ensures {{ say result\n        ≡ x {{ y }} }}\n{{\n    g()\n}}\n", "Reader")
        self.assertEqual(call.params, [("self", "Reader"), ("s", "&mut [u8]"), ("n", "u32")])
        self.assertEqual((call.result, call.r, call.said.strip()), ("rate::Answer", "r", "say r ≡ x { y }"))

    def test_two_clauses_are_two_facts(self):
        clauses = "    ensures same { m.result result ≡ n }\n    ensures held { (s.new ≡ n) × result.x ≤ n }\n"
        self.assertEqual(self.call(f"pub fn f(n: u32) -> u32\n{clauses}{{\n}}\n").said, "(m.result r ≡ n) × ((s.new ≡ n) × r.x ≤ n)")

    def test_a_starred_clause(self):
        self.assertEqual(self.call("pub fn f(n: u32) -> u32\n    ensures* { λ a. ⌜ result a ≡ n ⌝ }\n{\n}\n").said, "result r ≡ n")
        with self.assertRaises(SystemExit):
            self.call("pub fn f(n: u32) -> u32\n    ensures* { λ a. p a ∗ ⌜ a ≡ n ⌝ }\n{\n}\n")

    def test_what_stops_it(self):
        for text in ("pub fn f(n: u32) -> u32\n{\n}\n", "pub fn f(r: u32) -> u32\n    ensures { result ≡ r }\n{\n}\n"):
            with self.assertRaises(SystemExit):
                self.call(text)

    def test_a_lent_list_becomes_a_result(self):
        text = "pub fn f(s: &mut [u8], t: &[u8], n: u32) -> u32\n    ensures { told result s.new ≡ told n s.old t.now }\n{\n}\n"
        source = decided.Source.__new__(decided.Source)
        source.crate, source.types = "a", {}
        said, inputs, results = source.plain(self.call(text), {})
        self.assertEqual(said.strip(), "told r s_after ≡ told n s t")
        self.assertEqual((inputs, results), ([("s", "List ℕ"), ("t", "List ℕ"), ("n", "ℕ")], [("r", "ℕ"), ("s_after", "List ℕ")]))

    def test_a_reference_that_the_contract_speaks_of(self):
        source = decided.Source.__new__(decided.Source)
        source.crate, source.types = "a", {}
        said, inputs, _ = source.plain(self.call("pub fn f(s: &[u8]) -> u32\n    ensures { result ≡ told s.entry }\n{\n}\n"), {})
        self.assertEqual((said, inputs), ("r ≡ told s", [("s", "Bor (List ℕ)")]))

    def test_types(self):
        source = decided.Source.__new__(decided.Source)
        source.crate, source.types, needs = "a", {"Reader": "entdec"}, {}
        self.assertEqual([source.denotes(t, needs) for t in ("&'a [i32; 4]", "Reader", "crate::Word", "f32")], ["List ℤ", "Reader", "Word", "Float"])
        self.assertEqual(needs, {"Reader": "Rattle.entdec.specs.declared.Reader", "Word": "Rattle.a.specs.declared.Word"})


if __name__ == "__main__":
    unittest.main()
