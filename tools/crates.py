#!/usr/bin/env python3
"""tools/crates.py --below NAME | --lines NAME | --programs: what crates.txt says, for the scripts in Python that take it from here and for those of the shell.

--below NAME: the crates of this repository that NAME reaches, without itself, one a line.
--lines NAME: of NAME and of each of those what its line says, `NAME: ALL THAT IT NAMES`, in the order of crates.txt.
--programs: the crates that are programs, one a line.
Exit 0; 1: there is no such crate; 2: it was called wrongly.
"""
import glob, os, re, sys

ROOT = os.path.dirname(os.path.dirname(os.path.abspath(__file__)))


def parse(text):
    """The crates of a text like crates.txt, in its order, each with all that its line names. After a crate's name may stand what it is, as `staticlib`."""
    lines = [line.split("#")[0] for line in text.split("\n")]
    return {line.split(":")[0].split()[0]: line.split(":")[1].split() for line in lines if ":" in line}


def named(root=ROOT):
    """The crates of crates.txt, in its order, each with all that its line names, libraries of the kit too."""
    with open(os.path.join(root, "crates.txt"), encoding="utf-8") as file:
        return parse(file.read())


def static_libraries(root=ROOT):
    """The crates of crates.txt that are archives for other languages."""
    with open(os.path.join(root, "crates.txt"), encoding="utf-8") as file:
        return re.findall(r"^\s*(\w+) (?:[\w=]+ )*staticlib\b[^:#]*:", file.read(), re.M)


def grouped(text):
    """The groups of such a text, each opened by a line `# group: NAME: what it is`: name, what it is, its crates."""
    found = []
    for line in text.split("\n"):
        if line.startswith("# group: "):
            name, what = line[len("# group: ") :].split(": ", 1)
            found.append((name, what, []))
        else:
            for crate in parse(line):
                found[-1][2].append(crate)
    return found


def groups(root=ROOT):
    """The groups of crates.txt."""
    with open(os.path.join(root, "crates.txt"), encoding="utf-8") as file:
        return grouped(file.read())


def here(lines):
    """The same without the kit's libraries: what is no crate of the list itself is one of them."""
    return {crate: [d for d in names if d in lines] for crate, names in lines.items()}


def reached(lines, crate):
    """The crates of the list that a crate reaches, itself first, each once."""
    found, waiting = [], [crate]
    while waiting:
        c = waiting.pop(0)
        if c in lines and c not in found:
            found.append(c)
            waiting += lines[c]
    return found


def sources(crate, part, root=ROOT):
    """The files of a crate's src, specs or proofs, sorted."""
    suffix = "rt" if part == "src" else "antt"
    return sorted(glob.glob(os.path.join(root, "crates", crate, part, "**", f"*.{suffix}"), recursive=True))


def is_program(crate, root=ROOT):
    return os.path.exists(os.path.join(root, "crates", crate, "src", "main.rt"))


def programs(root=ROOT):
    return [crate for crate in named(root) if is_program(crate, root)]


def main(words):
    if words in (["-h"], ["--help"]):
        print(__doc__.strip())
        return 0
    if words == ["--programs"]:
        print("\n".join(programs()))
        return 0
    if len(words) != 2 or words[0] not in ("--below", "--lines"):
        print(__doc__.strip(), file=sys.stderr)
        return 2
    lines = named()
    if words[1] not in lines:
        print(f"crates: crates.txt has no crate {words[1]}", file=sys.stderr)
        return 1
    found = reached(lines, words[1])
    for crate in lines:
        if crate in found and words[0] == "--lines":
            print(f"{crate}: {' '.join(lines[crate])}".rstrip())
        elif crate in found and crate != words[1]:
            print(crate)
    return 0


if __name__ == "__main__":
    sys.exit(main(sys.argv[1:]))
