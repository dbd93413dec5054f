"""Reads the text of Rattle's files as far as the scripts of tools/ need it: definitions and proofs (.antt), and sources (.rt).

It is no parser of the language: it knows comments, `use`, declarations by their indentation, what a declaration binds, functions and calls.
"""
import os, re

import crates

# in .antt a name is whatever stands between blanks, brackets, commas, semicolons and dots; `λ` is always a word of its own
NAME = r"[^\s(){};,.λ]+"
TOKEN = re.compile(rf"{NAME}|[(){{}};,.λ]")
DECLARES = re.compile(rf"\s*(abbrev |unfoldable )?(pub )?({NAME})\s+:(?=\s|$)")
TYPE = re.compile(rf"(pub )?(record|data) ({NAME})")
HELPER = re.compile(rf"\s+({NAME}) :(?=\s|$)")
# the files in the folder of a function's proof
PROOF = ("Answers", "Invariants", "Proof")
CLAUSE = re.compile(rf"\s*({NAME})((?:[^=λ]|=(?=\S))*?) =(?=\s|$)")


def blank(match):
    """What is cut out leaves blanks, so that every place keeps its line and column."""
    return re.sub(r"[^\n]", " ", match.group(0))


def without_comments(text):
    """An .antt text without its comments. `--` begins one only where no name runs into it: `a--b` is a name."""
    return re.sub(r"(?m)(?:(?<=^)|(?<=[\s(){};,]))--.*$", blank, text)


def code_only(text):
    """An .rt text without its comments and what stands in quotes. A lifetime, as in &'a, is no quote."""
    return re.sub(r"//[^\n]*|\"(?:\\.|[^\"\\])*\"|b?'(?:\\[^\n']+|[^'\\\n])'", blank, text)


def closing(text, at, pair="()"):
    """The place after the bracket that closes the one at `at`."""
    depth = 0
    for i in range(at, len(text)):
        depth += (text[i] == pair[0]) - (text[i] == pair[1])
        if depth == 0:
            return i + 1
    raise ValueError("a bracket is not closed")


def line_of(text, at):
    return text.count("\n", 0, at) + 1


# ---- names


class Word:
    """A name in a text: what stands before its dot (`m` of `m.x`; "" of a field, ` .x`; None where there is no dot), and its place among the tokens."""

    def __init__(self, name, of, at):
        self.name, self.of, self.at = name, of, at


def words(text):
    """The tokens of an .antt text, and the names among them."""
    found = list(TOKEN.finditer(text))
    tokens, names = [m.group(0) for m in found], []
    for i, m in enumerate(found):
        if tokens[i] in "(){};,.λ":
            continue
        of = None
        if i > 0 and tokens[i - 1] == "." and found[i - 1].end() == m.start():
            before = i > 1 and found[i - 2].end() == found[i - 1].start() and tokens[i - 2] not in "(){};,.λ"
            of = tokens[i - 2] if before else ""
        names.append(Word(tokens[i], of, i))
    return tokens, names


def bound(tokens):
    """The places in a list of tokens where a name is bound and not used: (x y : T), {x : T}, λ x y., let x, and the left sides `x =` of a field or a
    named argument."""
    places = set()
    for i, token in enumerate(tokens):
        j = i + 1
        if token in ("(", "{"):
            while j < len(tokens) and tokens[j] not in "(){};,.λ:":
                j += 1
            if tokens[j : j + 1] == [":"]:
                places.update(range(i + 1, j))
        elif token == "λ":
            # up to its dot; what has a type stands in brackets, and is found there
            depth = 0
            while j < len(tokens) and (tokens[j] != "." or depth):
                depth += (tokens[j] in ("(", "{")) - (tokens[j] in (")", "}"))
                if not depth:
                    places.add(j)
                j += 1
        elif token == "let":
            while j < len(tokens) and tokens[j] not in ("=", ":"):
                places.add(j)
                j += 1
        elif token == "=" and i > 0 and (i == 1 or tokens[i - 2] in ("{", ";")):
            places.add(i - 1)
    return places


def parts_of(name):
    """The words by which a name is written: those between its arguments, for an operator, as `◌+◌`."""
    return [p for p in name.split("◌") if p] if "◌" in name else [name]


def is_seen(name, seen):
    return name in seen or all(p in seen for p in parts_of(name))


# ---- what a file takes from others


class Use:
    """One name that a file takes from a module, `use PLACE.{there as name}`; or a whole module, `use PLACE as name`, and there is None."""

    def __init__(self, place, there, name, line):
        self.place, self.there, self.name, self.line = place, there, name, line


def uses(text, ghost=False):
    """What a text takes from other modules, and the text without those lines. In .rt they begin with `ghost` and end with a semicolon."""
    head, end = (r"^ghost use ", r"\s*;") if ghost else (r"^(?:pub )?use ", r"[ \t]*$")
    found = []

    def take(m):
        place = m.group(1)
        if m.group(2) is None:
            found.append(Use(place, None, m.group(3) or place.split(".")[-1], line_of(text, m.start())))
        for part in re.finditer(r"[^\s,][^,]*", m.group(2) or ""):
            there, _, name = " ".join(part.group(0).split()).partition(" as ")
            found.append(Use(place, there, name or there, line_of(text, m.start(2) + part.start())))
        return blank(m)

    rest = re.sub(head + r"([^\s;{]+?)(?:\.\{([^}]*)\}|\s+as\s+([^\s;]+))?" + end, take, text, flags=re.M)
    return found, rest


# ---- definitions and proofs


class Declaration:
    """A definition, a lemma or a type: its name, the line where it begins, its type, and all its text with the heads of the modules around it."""

    def __init__(self, name, public, line, heads):
        self.name, self.public, self.line, self.heads, self.parts, self.signature = name, public, line, heads, [], ""
        self.is_type = self.reducible = False

    def text(self):
        return "\n".join(self.heads + self.parts)

    def own_names(self):
        """The names that it binds somewhere in itself, its patterns and the helpers of its `where` included: there they are no citations."""
        names, helpers = set(), set()
        for part in self.heads + self.parts:
            tokens, _ = words(part)
            names.update(tokens[i] for i in bound(tokens))
            for n, line in enumerate(part.split("\n")):
                helper, clause = n > 0 and HELPER.match(line), CLAUSE.match(line)
                if helper:
                    helpers.add(helper.group(1))
                # the patterns of a clause are what stands before its `=`
                if clause and (n == 0 and clause.group(1) == self.name or clause.group(1) in helpers):
                    names.update(w.name for w in words(clause.group(2))[1] if w.of is None)
        return names | helpers


def items(lines, first):
    """The parts of some lines that begin at their least indentation: the number of a line, and it with what is indented below it."""
    depth = min((len(l) - len(l.lstrip()) for l in lines if l.strip()), default=0)
    found = []
    for n, line in enumerate(lines, first):
        if line.strip() and len(line) - len(line.lstrip()) == depth:
            found.append((n, [line]))
        elif found:
            found[-1][1].append(line)
    return found


def declarations(text):
    """The declarations of an .antt text without comments and `use`. A clause belongs to the name that was declared last."""
    found = []

    def walk(lines, first, heads):
        for n, part in items(lines, first):
            whole, line = "\n".join(part), part[0].strip()
            if line.startswith("module "):
                end = re.search(r"\swhere[ \t]*$", whole, re.M)
                below = whole[: end.end()].count("\n") + 1
                walk(part[below:], n + below, heads + [whole[: end.start()]])
            elif re.match(r"(pub )?mod |infix", line):
                continue
            elif TYPE.match(line):
                m = TYPE.match(line)
                found.append(Declaration(m.group(3), bool(m.group(1)), n, heads))
                found[-1].is_type = True
            elif DECLARES.match(whole):
                m = DECLARES.match(whole)
                found.append(Declaration(m.group(3), bool(m.group(2)), n, heads))
                found[-1].reducible, found[-1].signature = bool(m.group(1)), whole[m.end() :]
            if found and not line.startswith("module "):
                found[-1].parts.append(whole)

    walk(text.split("\n"), 1, [])
    return found


class Module:
    """An .antt file: what it takes from others, and its declarations, also by name (one name may stand in several modules within)."""

    def __init__(self, crate, part, inside, text):
        self.crate, self.part, self.inside = crate, part, inside
        self.uses, rest = uses(without_comments(text))
        self.declared = declarations(rest)
        self.by_name = {}
        for d in self.declared:
            self.by_name.setdefault(d.name, []).append(d)

    def path(self):
        return f"crates/{self.crate}/{self.part}/{self.inside.replace('.', '/')}.antt"

    def is_proof(self):
        """Is it a file of a function's proof? What it declares for all to see has the name of a goal, of an invariant or of a measure, which the kit gives."""
        folder, _, name = self.inside.rpartition(".")
        return bool(folder) and name in PROOF


def place_of(place):
    """The crate, the part and the way below it of a path: `Rattle.a.specs.M.T` is crate a's specs, M, T. None for another library's."""
    m = re.match(r"Rattle\.(\w+)\.(specs|proofs)\.(.+)$", place)
    return m and (m.group(1), m.group(2), m.group(3).split("."))


# ---- sources


class Function:
    """A function of a source: its type where it stands in an `impl`, the trait where that is of one, its line, and its text with the contract. The type of
    what a trait declares is the trait."""

    def __init__(self, source, kind, trait, name, line, public, exported, text):
        self.source, self.kind, self.trait, self.name, self.line, self.public = source, kind, trait, name, line, public
        self.exported, self.text = exported, text
        # the paths of the lemmas and definitions that its attributes hand to tactics
        self.handed = []
        start = text.index("(")
        self.asked = text[start : closing(text, start)]
        answer = re.match(r"\s*->\s*([^\n{]+)", text[start + len(self.asked) :])
        self.answered = answer.group(1) if answer else ""

    def full(self):
        return "::".join(([self.kind] if self.kind else self.source.module) + [self.name])

    def is_method(self):
        return bool(re.match(r"\(\s*(?:&\s*(?:'\w+\s+)?)?(?:mut\s+)?self\b", self.asked))

    def clauses(self, kinds="requires|ensures"):
        """The texts of its `requires` and `ensures`, or of one kind of them."""
        heads = re.finditer(rf"\b(?:{kinds})\b\*?(?:\s+\w+)?\s*\{{", self.text)
        return [self.text[m.end() - 1 : closing(self.text, m.end() - 1, "{}")] for m in heads]

    def parameters(self):
        return set(re.findall(r"(\w+)\s*:", self.asked)) | {"self"}


class Source:
    """An .rt file: its place in its crate (`a/b` is src/a/b.rt), what it takes from others, its functions, and the texts of the ghost members of its traits
    and `impl`s."""

    def __init__(self, crate, inside, text):
        self.crate, self.file = crate, f"crates/{crate}/src/{inside}.rt"
        self.module = [w for w in inside.split("/") if w not in ("mod", "lib", "main")]
        self.ghost, rest = uses(code_only(text), ghost=True)
        # each name that is taken: its whole path, and the line; and those that are handed on, by `pub use`
        self.taken, self.passed = {}, set()
        for m in re.finditer(r"^(pub )?use ([\w:]+?)(?:::\{([^}]*)\})?;", rest, re.M):
            for name in re.findall(r"\w+", m.group(3)) if m.group(3) else [None]:
                full = m.group(2).split("::") + ([name] if name else [])
                self.taken[full[-1]] = (full, line_of(rest, m.start()))
                self.passed |= {full[-1]} if m.group(1) else set()
        self.code = re.sub(r"^(?:pub )?use [^;]*;", blank, rest, flags=re.M)
        # what its types keep: the clauses of their ghost fields and members
        kept = re.finditer(r"^ +(?:pub )?ghost \w+\s*[:=]\s*\{", self.code, re.M)
        self.members = [self.code[m.end() - 1 : closing(self.code, m.end() - 1, "{}")] for m in kept]
        self.found = []
        # where quotes stood there are blanks: `extern "C" fn` is `extern     fn`
        heads = list(re.finditer(r"^( *)(pub )?(extern +)?fn (\w+)", self.code, re.M))
        for m, after in zip(heads, heads[1:] + [None]):
            around = re.findall(r"^(?:impl(?:<[^>]*>)?(?: (\w+)(?:<[^>]*>)? for)?|(?:pub )?trait) (\w+)", self.code[: m.start()], re.M)
            trait, kind = around[-1] if m.group(1) else (None, None)
            text = self.code[m.start() : after.start() if after else len(self.code)]
            self.found.append(Function(self, kind, trait, m.group(4), line_of(self.code, m.start()), bool(m.group(2)), bool(m.group(3)), text))
        # what attributes hand to tactics: those right above a function, those in its body, and, for all functions, those before the first
        for m in re.finditer(r"#!?\[tactic\(.*?\)\]", self.code, re.S):
            paths = [path.split("::") for part in re.findall(r"\b(?:using|unfolding)\(([^()]*)\)", m.group(0)) for path in re.findall(r"[^\s,]+", part)]
            above = m.group(0)[1] == "[" and re.match(r"(?:\s|#\[[^\n]*\]\n)*(?:pub )?(?:extern +)?fn ", self.code[m.end() :])
            last = max((n for n, h in enumerate(heads) if h.start() < m.start()), default=None)
            for f in [self.found[0 if last is None else last + 1]] if above else self.found if last is None else [self.found[last]]:
                f.handed += paths

    def ways(self, path):
        """The paths, from a crate on, that a path of this file may stand for."""
        head, rest = path[0], path[1:]
        if head in ("crate", "self"):
            return [[self.crate, *(self.module if head == "self" else []), *rest]]
        if head == "super":
            above = self.module[:-1]
            while rest[:1] == ["super"]:
                above, rest = above[:-1], rest[1:]
            return [[self.crate, *above, *rest]]
        taken = [way + rest for way in self.ways(self.taken[head][0])] if head in self.taken and self.taken[head][0] != [head] else []
        return taken + [path, [self.crate, *self.module, *path]]


class Tree:
    """Files of crates: modules of definitions and proofs, sources, and what can be called."""

    def __init__(self, files):
        """files: a text for each crate, part and place within, as ("stream", "src", "gate")."""
        self.modules = {(c, p, i.replace("/", ".")): Module(c, p, i.replace("/", "."), text) for (c, p, i), text in files.items() if p != "src"}
        self.sources = [Source(c, i, text) for (c, p, i), text in files.items() if p == "src"]
        self.functions, self.methods, self.of_types, self.links = {}, {}, {}, {}
        self.traits = {name for s in self.sources for name in re.findall(r"^(?:pub )?trait (\w+)", s.code, re.M)}
        for f in (f for s in self.sources for f in s.found):
            if f.kind:
                self.of_types.setdefault((f.kind, f.name), []).append(f)
            else:
                self.functions[(f.source.crate, *f.source.module, f.name)] = f
            if f.is_method():
                self.methods.setdefault(f.name, []).append(f)
            # `x.into()` is a call of a `from`
            if f.trait == "From":
                self.methods.setdefault("into", []).append(f)
        for s in self.sources:
            for name in s.passed:
                ways = [tuple(way) for way in s.ways(s.taken[name][0]) if tuple(way) in self.functions]
                for way in ways[:1]:
                    self.functions[(s.crate, *s.module, name)] = self.functions[way]

    def found(self, place):
        """The module of a path, and what follows it in the path."""
        crate, part, way = place_of(place) or (None, None, [])
        for n in range(len(way), 0, -1):
            module = self.modules.get((crate, part, ".".join(way[:n])))
            if module:
                return module, way[n:]
        return None, []

    def linked(self, file):
        """What the names that a file takes stand for: declarations, and whole modules."""
        if file not in self.links:
            names, modules = {}, {}
            for u in file.ghost if isinstance(file, Source) else file.uses:
                target, rest = self.found(u.place)
                if target and u.there is None and not rest:
                    modules[u.name] = target
                elif target:
                    # the `use` of a constructor has its type on the way
                    names[u.name] = target.by_name.get(rest[0] if rest else u.there, [])
            if isinstance(file, Module):
                names.update(file.by_name)
            self.links[file] = names, modules
        return self.links[file]

    def cited(self, file, text, own):
        """The declarations that a text of a file cites; own are the names that it binds."""
        names, modules = self.linked(file)
        tokens, found = words(text)
        binding = bound(tokens)
        seen = {w.name for w in found if w.of is None and w.at not in binding} | {w.of for w in found if w.of}
        cited = [d for w in found if w.of in modules for d in modules[w.of].by_name.get(w.name, [])]
        for name, declared in names.items():
            if name not in own and is_seen(name, seen):
                cited += declared
        return cited

    def handed(self, f):
        """The declarations that a function's attributes hand to tactics, as `using(crate::proofs::M::lemma)`."""
        found = []
        for crate, *way in f.handed:
            module, rest = self.found(".".join(["Rattle", f.source.crate if crate == "crate" else crate, *way]))
            found += module.by_name.get(rest[0], []) if module and rest else []
        return found

    def called(self, source, text):
        """The functions that a text of a source calls. Of a call by a dot the type is not known: every method of that name."""
        found = []
        for m in re.finditer(r"(\.)?\b((?:\w+::)*)(\w+)(?=(?:::<[^<>]*>)?\s*\()", text):
            path = m.group(2).split("::")[:-1] + [m.group(3)]
            if m.group(1):
                found += self.methods.get(path[-1], [])
            elif len(path) > 1 and (path[-2][0].isupper() or tuple(path[-2:]) in self.of_types):
                typed = self.of_types.get((path[-2], path[-1]), [])
                # of a type parameter, which is one letter, the type is not known: what any type has by a trait
                if not typed and len(path[-2]) == 1:
                    typed = [f for (_, name), known in self.of_types.items() if name == path[-1] for f in known if f.trait]
                # what a type has by a trait, the trait declares
                found += typed + [g for f in typed if f.trait for g in self.of_types.get((f.trait, f.name), [])]
            else:
                found += [self.functions[tuple(way)] for way in source.ways(path) if tuple(way) in self.functions][:1]
        # a function that is handed on by its name, where the text has no variable of that name
        for m in re.finditer(r"[(,]\s*((?:[a-z_]\w*::)*)([a-z_]\w*)(?=,?\s*\))", text):
            if not re.search(rf"\b(?:let (?:mut )?|for &?){m.group(2)}\b|\b{m.group(2)}:[^:]|\|[\w\s,:&]*\b{m.group(2)}\b[\w\s,:&]*\|", text):
                path = m.group(1).split("::")[:-1] + [m.group(2)]
                found += [self.functions[tuple(way)] for way in source.ways(path) if tuple(way) in self.functions][:1]
        return found

    def proof_of(self, f):
        """The files of a function's proof: their folder has the function's name, and a `+` before it where the function calls itself."""
        # the folder of a method of a trait is named by the type, with its arguments, and the trait together
        kind = rf"{f.kind}\w*{f.trait}" if f.trait else f.kind or ""
        within = [f.source.module + [kind], [kind]] if f.kind else [f.source.module]
        ways = [r"\.".join([*inside, rf"\+?{f.name}", rf"(?:{'|'.join(PROOF)})"]) for inside in within]
        return [m for (c, p, w), m in self.modules.items() if (c, p) == (f.source.crate, "proofs") and any(re.fullmatch(way, w) for way in ways)]


def repository(root=crates.ROOT):
    """The files of all that crates.txt lists."""
    files = {}
    for crate in crates.named(root):
        for part in ("src", "specs", "proofs"):
            for path in crates.sources(crate, part, root):
                inside = os.path.relpath(path, os.path.join(root, "crates", crate, part)).rpartition(".")[0]
                with open(path, encoding="utf-8") as file:
                    files[crate, part, inside.replace(os.sep, "/")] = file.read()
    return files
