"""How tools/contracts reads sources, docs/CONTRACTS.md and the files of docs/contracts, and writes the list of workers."""
import os, tempfile, unittest

import rattle
from scripts import script

contracts = script("contracts")


class Functions(unittest.TestCase):
    def test_paths_and_requirements(self):
        lib = '''// pub fn commented(x: u32)
impl Reader {
    pub fn take(
        self,
        // requires nothing
        n: u32,
    ) -> Reader
        requires {
            ⌜ n ≤ 8 ⌝
        }
        ensures { λ r. ⌜ r ≡ taken self n ⌝ }
    {
        if n == 0 {
            return self;
        }
        self
    }
}
pub extern "C" fn out(n: u32) -> u32 {
    n
}
fn private() {}
'''
        gate = 'pub fn refusal() -> u32\n    ensures { λ r. ⌜ r ≡ "requires {" ⌝ }\n{\n    0\n}\n'
        self.assertEqual(contracts.functions({"lib": lib, "gate": gate}), {"Reader::take": True, "out": False, "gate::refusal": False})
        handed = "pub use gate::{\n    Refusal, refusal,\n};\n" + lib
        self.assertEqual(contracts.functions({"lib": handed, "gate": gate}), {"Reader::take": True, "out": False, "refusal": False})
        self.assertEqual(contracts.handed_on("mod gate;\npub use gate::refusal;\nuse other::{a, b};\n"), {"gate::refusal": "refusal"})


class Lists(unittest.TestCase):
    ONE = """# one: a title

| call | equals | refusals |
|---|---|---|
| `Reader::new(s)`, `order(..)` | `begun s` | 2 |

| of | wrong answer | edit that shows it |
|---|---|---|
| `order` | a gap | gap_is_taken, other/no_gap |
| `order`, `Reader::new` | a late one | other/late |
"""
    INDEX = """# Contracts

| crate | what its calls do | file |
|---|---|---|
| one | nothing | docs/contracts/one.md |

| what holds | edit that breaks it |
|---|---|
| all | two/all_breaks |
"""

    def test_lists(self):
        public, edits, shown = contracts.listed({None: self.INDEX, "one": self.ONE})
        self.assertEqual(public, {"one": ["Reader::new", "order"]})
        self.assertEqual(edits, {"one/gap_is_taken", "other/no_gap", "other/late", "two/all_breaks"})
        self.assertEqual(shown, {("one", "order"): {"one/gap_is_taken", "other/no_gap", "other/late"}, ("one", "Reader::new"): {"other/late"}})

    def test_every_call(self):
        self.assertEqual(contracts.meant("every call", ["a", "b::c"]), ["a", "b::c"])
        self.assertEqual(contracts.meant("every call but `b::c`", ["a", "b::c"]), ["a"])
        self.assertEqual(contracts.meant("`a`, `d`", ["a", "b::c"]), ["a", "d"])

    def test_the_file_of_a_crate_is_named_after_it(self):
        with tempfile.TemporaryDirectory() as root:
            os.makedirs(os.path.join(root, "docs", "contracts"))
            for name, text in (("CONTRACTS.md", "a"), ("contracts/one.md", "b"), ("contracts/WORKERS.md", "c")):
                with open(os.path.join(root, "docs", name), "w", encoding="utf-8") as file:
                    file.write(text)
            self.assertEqual(contracts.documents(root), {None: "a", "one": "b"})


class Workers(unittest.TestCase):
    def test_by_crate_and_by_what_they_require(self):
        text = contracts.workers({"one": {"gate::refusal": False, "work::read": True}, "none": {}, "two": {"put": True}})
        self.assertTrue(text.startswith("# Workers\n"))
        self.assertTrue(text.endswith("\n## one\n\nWith a `requires`: `work::read`.\n\nWithout: `gate::refusal`.\n\n## two\n\nWith a `requires`: `put`.\n"))

    def test_no_line_is_longer_than_a_row(self):
        text = contracts.workers({"one": {f"module::function_{n}": n % 2 == 0 for n in range(60)}})
        self.assertLessEqual(max(len(line) for line in text.split("\n")), 150)
        self.assertEqual(text.count("`module::"), 60)


class Names(unittest.TestCase):
    FILES = {
        ("a", "specs", "M"): "use B.{length as long}\n\npub record Pair : Type 0 where\n  pub left right : N\n\nabbrev pub size : N → N\nsize n = n\n",
        ("a", "proofs", "Laws"): "pub never-less : size 0 ≡ 0\nnever-less = refl\n",
        ("a", "src", "gate"): "pub enum Answer {\n    Done(u32),\n    Refused(u32),\n}\n\npub fn refusal(logp: u32) -> u32 {\n    0\n}\n",
    }

    def wrong(self, text):
        known = contracts.names_of(rattle.Tree(self.FILES))
        return [(line, word) for _, line, word in contracts.unknown({"a": text}, known)]

    def test_names_of_sources(self):
        self.assertEqual(self.wrong("`a`: `Pair` has `left`, `size n ≡ long 2^31`, `gate::refusal(logp)`, `Answer`, `Done`; `never-less` (`specs/M`)\n"), [])

    def test_names_that_no_source_has(self):
        self.assertEqual(self.wrong("`size n`\n`sized n`, `Laws.never-more`\nsized\n"), [(2, "sized"), (2, "never-more")])


if __name__ == "__main__":
    unittest.main()
