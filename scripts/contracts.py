"""Reads the contracts of public calls from the sources, and the definitions that they cite from the specs."""

import os
import re
import zlib

FN = re.compile(r"^\s*(pub(?:\(\w+\))? )?(?:const |unsafe |extern \"C\" )*fn (\w+)")
CLAUSE = re.compile(r"^\s*(requires|ensures)\*?(?: (\w+))? *\{")
IMPL = re.compile(r"^(?:unsafe )?impl(?:<[^>]*>)? (?:(\w+(?:<.*>)?) for )?(\w+)(?:<.*>)? .*\{")
FACT = re.compile(r"^    ghost (\w+_gives|remaining|output|eq) = \{")
TYPE = re.compile(r"^pub (?:struct|enum|trait|union) (\w+)")
USE = re.compile(r"^ghost use Rattle\.([\w.]+)\.\{(.*?)\};", re.S | re.M)
TRAIT = re.compile(r"^pub trait ()(\w+)")
WORD = re.compile(r"[^\W\d][\w']*")


class Clause:
    """A clause of a contract: its name, its text, and the comment that stands above it and its neighbours."""

    def __init__(self, kind, name, text, said):
        self.kind, self.name, self.text, self.said = kind, name, text, said


class Call:
    """A function with a contract: its name, whether a caller can name it, its file and line, its docs, its clauses."""

    def __init__(self, name, is_public, place, docs, clauses):
        self.name, self.is_public, self.docs, self.clauses = name, is_public, docs, clauses
        self.file, self.line = place

    def ensured(self):
        """The clauses that promise something."""
        return [clause for clause in self.clauses if clause.kind == "ensures"]

    def of_trait(self):
        """The name of the trait's function that this one implements, if it does."""
        found = re.match(r"<\w+ as (\w+).*>(::\w+)$", self.name)
        return found[1] + found[2] if found else ""

    def checksum(self):
        """A checksum of all clauses, by which a change of the contract is known."""
        text = "\n".join(f"{clause.kind} {clause.name} {clause.text}" for clause in self.clauses)
        return f"{zlib.crc32(text.encode()):08x}"


def lines_of(path):
    """The lines of a file."""
    with open(path, encoding="utf-8") as file:
        return file.read().split("\n")


def sources(crate):
    """The source files of a crate, from its folder on."""
    top = f"crates/{crate}"
    for folder, _, names in sorted(os.walk(f"{top}/src")):
        yield from (os.path.relpath(f"{folder}/{name}", top) for name in sorted(names) if name.endswith(".rt"))


def module_of(file):
    """The path of the module that a source file is."""
    parts = file[len("src/") : -len(".rt")].split("/")
    return [] if parts in (["lib"], ["main"]) else parts


def public_names(crate):
    """The modules that are public, and the types and functions that a root file hands out."""
    public, handed = {()}, set()
    for file in sorted(sources(crate), key=lambda file: (len(module_of(file)), file)):
        text, here = "\n".join(lines_of(f"crates/{crate}/{file}")), module_of(file)
        if tuple(here) in public:
            public |= {(*here, name) for name in re.findall(r"^pub mod (\w+);", text, re.M)}
            for names in re.findall(r"^pub use ([^;]+);", text, re.M):
                handed |= set(WORD.findall(names))
    return public, handed


def public_types(crate, public, handed):
    """The types that a caller can name."""
    types = set()
    for file in sources(crate):
        names = [found[1] for found in map(TYPE.match, lines_of(f"crates/{crate}/{file}")) if found]
        types |= {name for name in names if tuple(module_of(file)) in public or name in handed}
    return types


def closed(lines, at):
    """The text between the braces that open on this line, the line behind it, and whether a `;` ends it."""
    text, depth = "", 0
    while True:
        line = lines[at].strip()
        begin = 0 if text else line.index("{")
        for end, letter in enumerate(line[begin:], begin):
            depth += {"{": 1, "}": -1}.get(letter, 0)
            if depth == 0 and letter == "}":
                return f"{text} {line[begin:end]}".strip()[1:].strip(), at + 1, line.endswith(";")
        text = f"{text} {line[begin:]}"
        at += 1


def clauses_from(lines, at):
    """The clauses of a function that begins on this line, up to its body."""
    found, said, goes_on, is_over = [], [], False, False
    while not is_over:
        line, clause = lines[at].strip(), CLAUSE.match(lines[at])
        if clause:
            text, at, is_over = closed(lines, at)
            found.append(Clause(clause[1], clause[2] or "", text, " ".join(said)))
            goes_on = False
            continue
        if line.startswith("//"):
            said, goes_on = [*(said if goes_on else []), line.lstrip("/ ")], True
        elif not line:
            said, goes_on = [], False
        is_over = line in ("{", "{}") or not line.startswith("//") and line.endswith((" {", " {}", ";"))
        at += 1
    return found


def facts_from(lines, at):
    """What an implementation says of its trait's functions, from the line of its `impl` on."""
    found = []
    while not lines[at].startswith("}"):
        fact = FACT.match(lines[at])
        if fact:
            text, after, _ = closed(lines, at)
            found.append(Clause("ensures", fact[1], text, ""))
            at = after
        else:
            at += 1
    return found


def docs_above(lines, at):
    """The first paragraph of the doc comment above a line."""
    docs = []
    while at > 0 and lines[at - 1].strip().startswith(("///", "#[", "//")):
        at -= 1
        if lines[at].strip().startswith("///"):
            docs.insert(0, lines[at].strip()[3:].strip())
    return " ".join(docs[: docs.index("")] if "" in docs else docs)


def calls_of(crate):
    """The functions of a crate that have a contract, in the order of their files."""
    public, handed = public_names(crate)
    types = public_types(crate, public, handed) | handed
    for file in sources(crate):
        lines, here, block, facts = lines_of(f"crates/{crate}/{file}"), module_of(file), None, []
        for at, line in enumerate(lines):
            if line.startswith("}"):
                block, facts = None, []
            if IMPL.match(line) or TRAIT.match(line):
                block = IMPL.match(line) or TRAIT.match(line)
                facts = facts_from(lines, at) if block[1] else []
            function = FN.match(line)
            clauses = [*clauses_from(lines, at), *facts] if function else []
            if any(clause.kind == "ensures" for clause in clauses):
                is_seen = is_public(function, block, types, tuple(here) in public or function[2] in handed)
                yield Call(named(function, block, here), is_seen, (file, at + 1), docs_above(lines, at), clauses)


# The fact of an implementation that a clause of its trait in the standard library is about.
OF_TRAITS = {"writes": "output", "steps": "next_gives", "goes": "remaining"}


def clause_of(goal, call):
    """The clause of the call that a goal of the prover names, or None: '' is a clause without a name."""
    told = re.search(r"clause-(\w+?)(?:-\d+)?(?:\.\.)?$", goal)
    names = [clause.name for clause in call.ensured()]
    if told:
        return next((name for name in (told[1], OF_TRAITS.get(told[1])) if name in names), None)
    return names[0] if len(names) == 1 and goal.startswith(("returns", "loop")) else None


def named(function, block, here):
    """The name of a function, with its type or its modules."""
    if not block:
        return "::".join([*here, function[2]])
    return f"<{block[2]} as {block[1]}>::{function[2]}" if block[1] else f"{block[2]}::{function[2]}"


def symbol_of(name):
    """The end of what the prover calls a function, without signs."""
    of_trait = re.match(r"<(\w+) as (\w+)(?:<([\w:]+).*>)?>::(\w+)$", name)
    if not of_trait:
        return "::".join(name.split("::")[-2:])
    argument = "".join(part[:1].upper() + part[1:] for part in (of_trait[3] or "").split("::"))
    return f"{of_trait[1]}{of_trait[2]}{argument}::{of_trait[4]}"


def homes_of(crate):
    """The path of the module in which each struct or enum of a crate is."""
    homes = {}
    for file in sources(crate):
        for line in lines_of(f"crates/{crate}/{file}"):
            found = TYPE.match(line)
            if found:
                homes[found[1]] = module_of(file)
    return homes


def without_bodies(text, here, kept, homes):
    """A source text without the bodies of functions that are not kept, and the paths of these functions. A function of a
    type is in the module of the type, also if it is in another file."""
    lines, paths, block, margin, path, skips = [], [], None, "", None, False
    for line in text.split("\n"):
        skips = skips and line != margin + "}"
        if skips:
            continue
        lines.append(line)
        block = IMPL.match(line) or TRAIT.match(line) or (None if line.startswith("}") else block)
        begins = FN.match(line)
        if begins and (not block or block.re is IMPL):
            is_kept = symbol_of(named(begins, block, here)) in kept
            home = homes.get(block[2], here) if block and not block[1] else here
            margin, path = margin_of(line), None if is_kept else "::".join([*home, symbol_of(named(begins, block, []))])
        if path and line.endswith(("{", "{}")) and margin_of(line) == margin:
            paths.append(path)
            path, skips = None, line.endswith("{")
            lines += [f"{margin}    unreachable!()"] * skips
    return "\n".join(lines), paths


def margin_of(line):
    """The blanks before the first word of a line."""
    return line[: len(line) - len(line.lstrip())]


def is_public(function, block, types, is_handed):
    """Whether a caller can name the function."""
    is_pub = function[1] == "pub "
    if not block:
        return is_pub and is_handed
    return block[2] in types and bool(block[1] or is_pub or block.re is TRAIT)
