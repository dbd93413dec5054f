"""How tools/assumptions reads a program, and the sources of a tool."""
import struct, unittest

from scripts import script

assumptions = script("assumptions")


def program(symbols):
    """An ELF program whose loader's table has these symbols: a name, and whether it is the program's own."""
    names, table = b"\0", b""
    for name, own in symbols:
        table += struct.pack("<IBBHQQ", len(names), 18, 0, int(own), 0, 0)
        names += name.encode() + b"\0"
    body = 64 + len(table) + len(names)
    head = bytearray(64)
    head[:6] = b"\x7fELF\x02\x01"
    struct.pack_into("<Q", head, 40, body)
    struct.pack_into("<HH", head, 58, 64, 2)
    section = lambda kind, at, size, link: struct.pack("<IIQQQQIIQQ", 0, kind, 0, 0, at, size, link, 0, 0, 0)
    return bytes(head) + table + names + section(11, 64, len(table), 1) + section(3, 64 + len(table), len(names), 0)


class Programs(unittest.TestCase):
    def test_what_the_loader_gives(self):
        elf = program([("write", False), ("read", False), ("main", True), ("__libc_start_main", False), ("_ITM_deregisterTMCloneTable", False)])
        self.assertEqual(assumptions.linked(elf), ["read", "write"])

    def test_what_is_no_program(self):
        with self.assertRaises(ValueError):
            assumptions.linked(b"#!/bin/sh\n")


MAIN = 'fn main(rt: HostRuntime) {\n    let i = tool_io::stdin(&rt); // stdin\n    tool_io::say(&rt, b"stdout");\n}\n'


class Rules(unittest.TestCase):
    def wrong(self, names, below="", **files):
        found = []
        assumptions.rules("tool", names, {f"crates/tool/src/{n}.rt": text for n, text in files.items()}, {"crates/b/src/lib.rt": below}, found)
        return found

    def test_a_tool_as_it_should_be(self):
        self.assertEqual(self.wrong(["tool_io"], main=MAIN, work="fn run(i: Input) {}\n"), [])
        self.assertEqual(self.wrong(["tool_io"], main="use std::process::ExitCode;\n" + MAIN), [])

    def test_what_it_may_not(self):
        self.assertEqual(len(self.wrong(["tool_io", "libc"], main=MAIN)), 1)
        self.assertEqual(len(self.wrong([], main=MAIN.replace("stdin(&rt)", "stdin(&rt); tool_io::stdin(&rt)"))), 1)
        self.assertEqual(len(self.wrong([], main=MAIN, other="stdout();")), 1)
        self.assertEqual(len(self.wrong([], main=MAIN + "fn f() {\n    seen [0] = 1;\n}\n")), 1)

    def test_the_handle_goes_to_tool_io_alone(self):
        self.assertEqual(len(self.wrong([], main=MAIN.replace("tool_io::say", "work::say"))), 1)
        self.assertEqual(len(self.wrong([], main=MAIN.replace("tool_io::say(&rt", "println!(rt"))), 1)
        self.assertEqual(len(self.wrong([], main=MAIN, work="fn f(rt: &HostRuntime) {}\n")), 1)
        self.assertEqual(len(self.wrong([], main="use std::io::Write;\n" + MAIN)), 1)
        self.assertEqual(len(self.wrong([], main="use std::process::Command;\n" + MAIN)), 1)
        self.assertEqual(len(self.wrong([], main=MAIN + "fn f(x: &HostRuntime) {}\n")), 1)
        self.assertEqual(len(self.wrong([], main=MAIN, below="use std::fs::File;\n")), 1)


if __name__ == "__main__":
    unittest.main()
