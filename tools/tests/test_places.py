"""What tools/places counts in a source."""
import collections, unittest

from scripts import script

places = script("places")


def found(code, crate="a"):
    """The places of a source, by kind."""
    kinds = collections.defaultdict(list)
    places.of_file(kinds, crate, "a/lib.rt", code)
    return dict(kinds)


class Places(unittest.TestCase):
    def test_an_enum_of_an_answer(self):
        seen = found("pub enum Answer {\n    Done(u8),\n    Refused(u32),\n}\n")
        self.assertEqual((seen["1 answer"], seen["1 held"]), (["a/lib.rt: Answer"], ["a/lib.rt: Answer::Refused(u32)"]))
        self.assertEqual(found("pub enum Kind {\n    One,\n    Two,\n}\n").get("1 answer"), None)

    def test_the_number_of_a_refusal_and_one_for_c(self):
        code = "fn refusal_of(x: u8) -> u32 {\n    0\n}\n"
        self.assertEqual(found(code)["1 number"], ["a/lib.rt: refusal_of"])
        self.assertEqual(found(code, "gurthapen")["1 number"], ["a/lib.rt: refusal_of (for C)"])

    def test_a_loop_that_counts_and_one_that_does_not(self):
        code = "fn f(n: usize) {\n    while i < n {\n        i += 1;\n    }\n    while low < high {\n        low = mid(low, high);\n    }\n}\n"
        self.assertEqual(found(code)["3 while"], ["a/lib.rt: f: i < n", "a/lib.rt: f: low < high"])
        self.assertEqual(found(code)["3 counted"], ["a/lib.rt: f: i < n"])

    def test_a_place_in_bytes_that_are_lent(self):
        self.assertEqual(found("fn put(buf: &mut [u8], at: usize) -> usize {\n    at\n}\n")["6 place"], ["a/lib.rt: put"])


if __name__ == "__main__":
    unittest.main()
