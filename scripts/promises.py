#!/usr/bin/env python3
"""Makes the tables of docs/PROMISES.md from the code: what each public call of the library promises.

    scripts/promises.py                   prints the tables; scripts/documents.py writes them into the page

A call has a row: the first sentence of its documentation, the clauses of its contract by their names (one without a name
as it stands there, unless it is long), and its error with what the documentation says of it; one that may wait for another
thread is marked. The types of errors have a table of their own, with what each variant means.
"""
import collections
import os
import re
import sys

sys.dont_write_bytecode = True
import programs

# the crates of the library, from the values up
CRATES = ["cube_core", "cube_files", "cube_feed", "cube_values", "cube_cells", "cube_ledger", "cube_rings", "cube_build", "cube_console", "cube_lines",
          "cube_text", "cube_tool", "cube_page", "cube_live", "cube_merge", "cube_library", "cube_store", "cube_store_commands"]
# (the longest clause that stands in a table, in characters)
LONGEST = 120
PLACE = re.compile(r"(<!-- promises -->\n).*?(<!-- end of promises -->)", re.DOTALL)

OWNER = re.compile(r"(impl|pub trait|trait)(?:<.*?>)? (\w+)")
FUNCTION = re.compile(r'( *)(pub )?(?:const |unsafe |extern "C" )*fn (\w+)')
CLAUSE = re.compile(r" *(requires|ensures)(?: (\w+))? \{")
TYPE = re.compile(r"pub (enum|struct) (\w+)")
VARIANT = re.compile(r"    (\w+)\b.*,$")
USE = re.compile(r"pub use ([\w:]+?)(?:::\{(.*?)\})?;", re.DOTALL)
OF_ERRORS = re.compile(r"\b(errors?|faults?|failures?|memory|refused|wanting|gives? it back|given back)\b")


# A clause of a contract: `requires` or `ensures`, its name or None, and what it says.
Clause = collections.namedtuple("Clause", "kind name text")


class Call:
    """A function: its names, documentation, the clauses of its contract, and the type of its error or ''."""

    def __init__(self, owner, name, doc, head):
        self.owner, self.name, self.doc = owner, name, doc
        starts = [at for at, line in enumerate(head) if CLAUSE.match(line)] + [len(head)]
        clauses = [clause_of(head[at:end]) for at, end in zip(starts, starts[1:])]
        self.asks = [it for it in clauses if it.kind == "requires"]
        self.promises = [it for it in clauses if it.kind == "ensures"]
        signature = " ".join(line.strip() for line in head[: starts[0]])
        self.error, self.waits = error_of(signature), re.search(r"\bWait\b", signature) is not None


class Module:
    """What a file has: its calls, its types with their variants, what it re-exports, and its public modules."""

    def __init__(self, path):
        self.text = programs.text_at(path)
        about = "\n".join(it[3:].strip() for it in self.text.splitlines() if it.startswith("//!"))
        self.about = text_of(about.split("\n\n")[0].splitlines())
        self.calls, self.types = [], {}
        self.modules = re.findall(r"^pub mod (\w+);", self.text, re.M)
        self.uses = [(front, re.findall(r"\w+", names)) if names else one_of(front) for front, names in USE.findall(self.text)]
        self.read(self.text.splitlines())

    def read(self, lines):
        owner, doc, within = None, [], None
        for at, line in enumerate(lines):
            if line.strip().startswith("///"):
                doc.append(line.strip()[3:].strip())
                continue
            if line.strip().startswith("#["):
                continue
            if line == "}":
                owner = within = None
            elif opened := OWNER.match(line):
                owner = (opened[2], opened[1].endswith("trait")) if " for " not in line else ("", False)
                if opened[1] == "pub trait":
                    self.types[opened[2]] = (text_of(doc), {})
            elif opened := TYPE.match(line):
                within = opened[2] if opened[1] == "enum" else None
                self.types[opened[2]] = (text_of(doc), {})
            elif opened := FUNCTION.match(line):
                self.add(owner, opened, doc, lines[at:])
            elif within and (variant := VARIANT.match(line)) and doc:
                self.types[within][1][variant[1]] = text_of(doc)
            doc = []

    def add(self, owner, opened, doc, lines):
        name, is_trait = owner or (None, False)
        if name == "" or not opened[2] and not is_trait:
            return
        ends = {opened[1] + "{", opened[1] + "{}"}
        head = []
        for line in lines:
            if line in ends:
                break
            head.append(line)
            if line.endswith(";") and is_trait or not CLAUSE.match(line) and line.endswith(" {"):
                break
        self.calls.append(Call(name, opened[3], text_of(doc), head))


def clause_of(lines):
    """The clause that stands in these lines."""
    found = CLAUSE.match(lines[0])
    whole = " ".join(line.strip() for line in lines)
    return Clause(found[1], found[2], whole[whole.index("{") + 1 : whole.rindex("}")].strip())


def one_of(path):
    """What `pub use a::b` re-exports, as a path and a name."""
    front, _, name = path.rpartition("::")
    return front, [name]


def text_of(doc):
    """Documentation as one text, its links as plain names."""
    return re.sub(r"\[(`[^`]*`)\](\([^)]*\))?", r"\1", " ".join(it for it in doc if it))


def sentences(text):
    return re.split(r"(?<=[.]) (?=[A-Z`])", text) if text else []


def error_of(signature):
    """The type of a signature's error, or ''."""
    found = re.search(r"-> Result<(.*)>", signature)
    if not found:
        return ""
    depth = 0
    for at, sign in reversed(list(enumerate(found[1]))):
        depth += (sign in ">)]") - (sign in "<([")
        if sign == "," and depth == 0:
            return found[1][at + 1:].strip()
    return ""


class Crate:
    """A crate: its modules by their paths, and what of them is public."""

    def __init__(self, name):
        self.name, self.source = name, f"{programs.ROOT}/crates/{name}/src"
        self.modules = {}
        for folder, _, files in os.walk(self.source):
            for file in files:
                if file.endswith(".rt"):
                    path = os.path.relpath(f"{folder}/{file}", self.source)[:-3].replace("/", "::")
                    self.modules["" if path == "lib" else path] = Module(f"{folder}/{file}")
        self.calls, self.types, self.given_on = [], {}, {}
        self.show("", "")

    def show(self, path, shown):
        """Takes in what a public module has and re-exports; `shown` is its path as callers say it."""
        module = self.modules[path]
        self.take(module, shown, [it.name for it in module.calls if not it.owner], list(module.types))
        for front, names in module.uses:
            inner = self.found(path, front)
            if inner is None:
                self.given_on.setdefault(front.split("::")[0], []).extend(names)
            else:
                self.follow(inner, shown, names)
        for name in module.modules:
            self.show(f"{path}::{name}".lstrip(":"), f"{shown}{name}::")

    def follow(self, path, shown, names):
        """Takes in the named things of a module, or of the modules that it has them from."""
        module = self.modules[path]
        self.take(module, shown, names, names)
        for front, further in module.uses:
            inner, both = self.found(path, front), [it for it in further if it in names]
            if inner is not None and both:
                self.follow(inner, shown, both)

    def found(self, path, front):
        """The path of a module that is named in another one, or None where it is another crate's."""
        inner = f"{path}::{front}".lstrip(":")
        return inner if inner in self.modules else None

    def take(self, module, shown, names, types):
        """Takes in the functions and the types of these names, the types with what they can be asked."""
        self.calls += [(shown + it.name, it) for it in module.calls if not it.owner and it.name in names]
        for name in filter(module.types.get, types):
            self.types[name] = module.types[name]
            for other in self.modules.values():
                self.calls += [(f"{shown}{name}::{it.name}", it) for it in other.calls if it.owner == name]


def cell(text):
    return text.replace("|", "\\|")


def clauses_told(clauses):
    """Clauses by their names; those without one as they stand, except for long ones, which are counted."""
    told = [f"`{it.name or it.text}`" for it in clauses if it.name or len(it.text) <= LONGEST]
    others = len(clauses) - len(told)
    return ", ".join(told + ([f"{others} unnamed" if told else "one clause"] if others else []))


def error_told(call):
    """A call's error, with the sentences of its documentation, but the first, that speak of it."""
    if not call.error:
        return ""
    told = [it for it in sentences(call.doc)[1:] if OF_ERRORS.search(it) and "takes no memory" not in it]
    return f"`{call.error}`" + (f": {' '.join(told)}" if told else "")


def tables_of(crate):
    """The tables of a crate."""
    made = [f"## `{crate.name}`", "", sentences(crate.modules[""].about)[0], ""]
    if crate.calls:
        made += ["| Call | What it does | Asks | Promises | Error |", "|---|---|---|---|---|"]
    for name, call in crate.calls:
        if not call.doc:
            sys.exit(f"{crate.name}: {name} has no documentation")
        named = f"`{name}`" + " (waits)" * call.waits
        cells = [named, sentences(call.doc)[0], clauses_told(call.asks), clauses_told(call.promises), error_told(call)]
        made.append("| " + " | ".join(map(cell, cells)) + " |")
    if crate.calls:
        made.append("")
    for other, names in crate.given_on.items():
        made += [f"It re-exports from `{other}`: " + ", ".join(f"`{it}`" for it in names) + ".", ""]
    errors = {it for _, call in crate.calls for it in [call.error]}
    faults = {name: it for name, it in crate.types.items() if name in errors or name.endswith("Fault")}
    if faults:
        made += ["| Error | What it means |", "|---|---|"]
        for name, (doc, variants) in faults.items():
            rows = [(f"{name}::{it}", text) for it, text in variants.items()] or [(name, sentences(doc)[0])]
            made += [f"| `{it}` | {cell(text)} |" for it, text in rows]
        made.append("")
    return made


def tables():
    """All tables."""
    return "\n".join(line for name in CRATES for line in tables_of(Crate(name)))


def page_with(text):
    """The text of docs/PROMISES.md with its tables made anew."""
    if not PLACE.search(text):
        sys.exit("docs/PROMISES.md has no place for the tables")
    return PLACE.sub(lambda it: it[1] + "\n" + tables() + "\n" + it[2], text)


if __name__ == "__main__":
    print(tables())
