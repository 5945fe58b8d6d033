#!/usr/bin/env python3
"""Makes what documents and completions say of codes and of the command line from what the program says, what
docs/PROMISES.md says of calls from the code, what docs/ARCHITECTURE.md says that crates stand on from crates.txt, and what
README.md and docs/DEFINITIONS.md say of the bounds of a schema from its definition.

    scripts/documents.py [--program PATH]            writes docs/datacube.1, the tables of codes in docs/FORMATS.md, the
                                                     completions for shells (completions/), the tables of calls in
                                                     docs/PROMISES.md (scripts/promises.py), the last column of the
                                                     crates in docs/ARCHITECTURE.md and their map, docs/crates.svg, and
                                                     the bounds in README.md and docs/DEFINITIONS.md
    scripts/documents.py --check [--program PATH]    says what of them isn't what the program or the code says, which
                                                     functions docs/ARCHITECTURE.md names that aren't there, and which
                                                     words of contracts README.md and docs/PROMISES.md do; the last line
                                                     is `N passed, M failed`, and it fails where something isn't

The program is the one at PATH, else the one that `./datacube` would run. In docs/FORMATS.md a table stands between
`<!-- codes: ABOUT -->` and `<!-- end of codes -->`; ABOUT is what the program's notes say that a code is about. The table
of what is said where a command failed is made of the code of cube_why.
"""
import glob
import json
import os
import re
import subprocess
import sys

sys.dont_write_bytecode = True
import completions
import crate_map
import programs
import promises
from programs import text_at

ROOT = programs.ROOT
ARCHITECTURE = f"{ROOT}/docs/ARCHITECTURE.md"
FORMATS = f"{ROOT}/docs/FORMATS.md"
PROMISES = f"{ROOT}/docs/PROMISES.md"
DEFINITIONS = f"{ROOT}/docs/DEFINITIONS.md"
README = f"{ROOT}/README.md"
MANUAL = f"{ROOT}/docs/datacube.1"
MAP = f"{ROOT}/docs/crates.svg"
# a crate's row in docs/ARCHITECTURE.md, and a function of one
ROW = re.compile(r"^(\| `(\w+)` \| [^|]* \| )[^|]* \|$", re.MULTILINE)
FUNCTION = re.compile(r"`(\w+)::(?:\w+::)*(\w+)`")
# a clause, a law or another word of the code, as documents name it, and the sections that say what is proved
NAMED = re.compile(r"`(?:\w+::)*([A-Za-z]\w+)`")
PROVED = re.compile(r"^## What is proved\n(.*?)^## ", re.DOTALL | re.MULTILINE)
# where it stands what there is to do at each code, an entry there, and what FORMATS calls the kinds of files and of headers
ADVICE_CODE = f"{ROOT}/crates/cube_why/src/advice.rt"
ADVICE = re.compile(r'    Advice \{\n        code: "(.*?)",\n        lines: &\[(.*?)\],\n    \},', re.DOTALL)
KINDS = {
    "gzip": "a file that begins with 1F 8B",
    "archive": r"a file that begins with `PK\x03\x04`",
    "UTF-16": "a file that begins with FF FE or FE FF",
    "folder": "a folder",
    "by names": "a header that would do by names",
    "semicolon": "semicolons",
    "tab": "tabs",
    "bar": "bars",
}
# where the bounds of a schema and of a run stand, and how documents say them
BOUND = re.compile(r"pub (\w+)_at_most : length \S+(?: \+ length s\.text_places)? ≤ (\d+)")
SHARDS = re.compile(r"pub at_most : shard\.count ≤ (\d+)")
BOUNDED = {
    DEFINITIONS: [
        "1 to {dimensions} dimensions, 1 to {measures} measures, 1 to {aggregates} aggregates of these measures",
        "a lawful shard (`IsShard`: its place, counted from 0, is below the number of shards, which is at most {shards})",
    ],
    README: ["at most {dimensions} dimensions, {measures} measures and {sources} feeds"],
}
# how many lines of README.md a newcomer surely reads, and what these have to say
FIRST_LINES = 20
FIRST_SAID = ["whole numbers of 64 bits", "decimals", "dimensions", "status 4", "Licence: none has been chosen yet"]


class Program:
    """The program that is asked."""

    def __init__(self, path):
        self.path = path

    def said(self, *words, folder=ROOT, given=os.devnull):
        """What it prints in a folder, with a file on standard input."""
        with open(given, "rb") as file:
            ran = subprocess.run([self.path, *words], cwd=folder, stdin=file, stdout=subprocess.PIPE)
        if ran.returncode not in (0, 4):
            sys.exit(f"{self.path} {' '.join(words)}: status {ran.returncode}")
        return ran.stdout.decode()


def read_notes(program):
    """The notes of `explain`: for each code what it is about, what it means, how to mend it, and an example or ''."""
    notes = []
    for line in program.said("explain").splitlines():
        if line.startswith("  "):
            part, _, text = line[2:].partition(": ")
            notes[-1][part] = text
        else:
            code, _, about = line.rpartition(": ")
            notes.append({"code": code, "about": about, "example": ""})
    return notes


def table_of(notes, about):
    rows = ["", "| Code | What it means | How to mend it |", "|---|---|---|"]
    for note in notes:
        if note["about"] == about:
            rows.append("| `{code}` | {means} | {mend} |".format(**note))
    if len(rows) == 3:
        sys.exit(f"docs/FORMATS.md: no code is about {about}")
    return "\n".join([*rows, "", ""])


def formats_with(notes, text):
    """The text of docs/FORMATS.md with its tables made anew."""
    pattern = re.compile(r"(<!-- codes: (.*?) -->\n).*?(<!-- end of codes -->)", re.DOTALL)
    named = {it[1] for it in pattern.findall(text)}
    missing = sorted({it["about"] for it in notes} - named)
    if missing:
        sys.exit(f"docs/FORMATS.md has no table of the codes about: {', '.join(missing)}")
    return pattern.sub(lambda it: it[1] + table_of(notes, it[2]) + it[3], text)


def advice_rows():
    """A row for each advice of the crate cube_why: the code, or the kind of a file or a header, and the lines that are said."""
    rows = []
    for code, lines in ADVICE.findall(text_at(ADVICE_CODE)):
        said = [json.loads(f'"{it}"') for it in re.findall(r'"((?:[^"\\]|\\.)*)"', lines)]
        if not said:
            continue
        rows.append(f"| {KINDS.get(code, f'`{code}`')} | {'<br>'.join(said).replace('|', chr(92) + '|')} |")
    return rows


def advised(text):
    """The text of docs/FORMATS.md with its table of advice made anew."""
    begin = "| At | What follows the lines of the cause |\n|---|---|\n"
    head, _, rest = text.partition(begin)
    return head + begin + "".join(f"{it}\n" for it in advice_rows()) + rest[rest.index("\n\n") + 1 :]


def architecture_with(text):
    """docs/ARCHITECTURE.md with what crates.txt says that each crate stands on."""
    below = programs.crates()
    lacking = below.keys() - {row[1] for row in ROW.findall(text)}
    if lacking:
        sys.exit(f"docs/ARCHITECTURE.md has no row for {', '.join(sorted(lacking))}")
    named = lambda name: ", ".join(f"`{it}`" for it in below[name]) or "the standard library alone"
    return ROW.sub(lambda row: f"{row[1]}{named(row[2])} |" if row[2] in below else row[0], text)


def lost_functions(text):
    """The functions that a text names as `crate::function` or `crate::Type::function`, and that the crate hasn't."""
    crates = programs.crates()
    named = sorted({it for it in FUNCTION.findall(text) if it[0] in crates})
    return [f"{crate}::{name}" for crate, name in named if not re.search(rf"\b(fn|mod) {name}\b", code_of(crate))]


def code_of(crate):
    """The text of all files of a crate's code."""
    return "".join(text_at(path) for path in sorted(glob.glob(f"{ROOT}/crates/{crate}/src/**/*.rt", recursive=True)))


def lost_words(paths):
    """The words of contracts and of definitions that documents name where they say what is proved, and that aren't there."""
    named = {(path, word) for path in paths for word in NAMED.findall(PROVED.search(text_at(path))[1])}
    files = (it for kind in ("src/**/*.rt", "specs/**/*.antt") for it in glob.glob(f"{ROOT}/crates/*/{kind}", recursive=True))
    words = {word for path in files for word in re.findall(r"\w+", text_at(path))} | set(programs.crates())
    return [f"{os.path.relpath(path, ROOT)} names {word}" for path, word in sorted(named) if word not in words]


def bounds():
    """The most parts that a schema has, the most sources of a ledger, and the most shards, as their definitions say."""
    said = lambda crate, name: text_at(f"{ROOT}/crates/{crate}/specs/{name}.antt")
    found = dict(BOUND.findall(said("cube_core", "Layout") + said("cube_ledger", "Ledger")))
    return {**found, "shards": SHARDS.search(said("cube_core", "Shard"))[1]}


def bounded(path):
    """A document's text with the bounds that the definitions say."""
    text, most = text_at(path), bounds()
    for said in BOUNDED[path]:
        pattern = re.sub(r"\\\{\w+\\\}", r"\\d+", re.escape(said))
        text, count = re.subn(pattern, said.format(**most), text)
        if count != 1:
            sys.exit(f"{os.path.relpath(path, ROOT)} doesn't say, once: {said.format(**most)}")
    return text


def readme():
    """README.md with its bounds; its first lines say what a newcomer has to know."""
    text = bounded(README)
    head = "\n".join(text.split("\n")[:FIRST_LINES])
    lacking = [it for it in FIRST_SAID if it not in head]
    if lacking:
        sys.exit(f"the first {FIRST_LINES} lines of README.md don't say: {', '.join(lacking)}")
    return text


def roff(text):
    """A text as roff shows it."""
    lines = text.replace("\\", "\\e").replace("-", "\\-").replace("'", "\\(aq").split("\n")
    return "\n".join("\\&" + it if it[:1] == "." else it for it in lines)


def literal(text):
    return f".nf\n{roff(text.rstrip())}\n.fi\n"


def example(text):
    """An example of several lines, set in."""
    return f".PP\n.RS 4\n{literal(text)}.RE\n"


def run_on(text):
    """A text of Markdown in one paragraph, as roff shows it: code and what is strong in bold, of links the words alone."""
    bold = lambda it: f"\\fB{roff(it[1] or it[2])}\\fR".replace("\n", " ")
    plain, made, at = re.sub(r"\[([^]]*)\]\([^)]*\)", r"\1", text), "", 0
    for found in re.finditer(r"`([^`]+)`|\*\*([^*]+)\*\*", plain):
        made, at = made + roff(plain[at : found.start()]) + bold(found), found.end()
    made += roff(plain[at:])
    return made if made[:1] != "." else "\\&" + made


def cells_of(row):
    """The cells of a row of a table of Markdown."""
    return [it.strip().replace("\\|", "|") for it in re.split(r"(?<!\\)\|", row)[1:-1]]


def from_markdown(text):
    """Paragraphs, lists, tables and examples of Markdown as roff: a table is a list of its first cells with what the others say."""
    made = ""
    for part in re.findall(r"```.*?\n.*?```|(?:(?!```)[^\n]+\n?)+", text, re.DOTALL):
        lines = part.strip("\n").split("\n")
        if part.startswith("```"):
            made += example("\n".join(lines[1:-1]))
        elif part.startswith("|"):
            for first, *rest in map(cells_of, lines[2:]):
                made += f".TP\n{run_on(first)}\n{run_on(': '.join(it for it in rest if it))}\n"
        elif part.startswith("- "):
            made += "".join(f".IP \\(bu 2\n{run_on(it[2:])}\n" for it in lines)
        else:
            made += f".PP\n{run_on(' '.join(lines))}\n"
    return made


def section_of(text, title):
    """A section of docs/FORMATS.md up to its first heading below, without the tables of codes and what leads to them, and the
    marks of blocks (scripts/pages.py)."""
    found = re.search(rf"^##+ {title}\n(.*?)(?=^##)", text + "\n##", re.DOTALL | re.MULTILINE)[1]
    found = re.sub(r"[^\n]*\n\n<!-- codes: .*?<!-- end of codes -->", "", found, flags=re.DOTALL)
    return re.sub(r"^<!-- \w+: .* -->\n(?=<!--|```)", "", found, flags=re.MULTILINE)


def formats_in_manual(program, text):
    """The sections of the manual page on schemas, feeds, printed cubes and facts of interest, with examples, and on statuses,
    from the text of docs/FORMATS.md."""
    shop = f"{ROOT}/examples/shop"
    feed = f"{ROOT}/examples/first/feed.csv"
    named = ["schema.toml", "market.csv", "street.csv", "online.csv"]
    ask = lambda *words: example(f"$ datacube {' '.join(words)}\n{program.said(*(it.strip(chr(39)) for it in words), folder=shop)}")
    page = ".SH SCHEMAS\n" + from_markdown(section_of(text, "The schema"))
    page += ".PP\nCODES below has the faults of a schema, S1 to S13.\n"
    page += ".SS Without writing one\n" + from_markdown(section_of(text, "A schema without writing one"))
    page += ".SH FEEDS\n" + from_markdown(section_of(text, "A feed"))
    page += ".PP\nA feed under the sample schema, which inserts three facts:\n" + example(text_at(feed))
    page += ".SS Feeds by names\n" + from_markdown(section_of(text, "A feed by names"))
    page += ".PP\nCODES has the faults of lines, L1 to L6, by which a line is refused, and those of a whole feed, F1 to F6.\n"
    page += ".SH THE PRINTED CUBE\n" + from_markdown(section_of(text, "The printed cube"))
    page += ".PP\nOf the feed above, in a file feed.csv:\n" + example(f"$ datacube < feed.csv\n{program.said(given=feed)}")
    page += ".SS Facts of interest\n" + from_markdown(section_of(text, "Facts of interest"))
    page += ".SH EXAMPLES\n.PP\nThe schema of a shop's sales, examples/shop/schema.toml:\n" + example(text_at(f"{shop}/schema.toml"))
    page += ".PP\nThe feed of one of its sources, street.csv, whose last line is refused:\n" + example(text_at(f"{shop}/street.csv"))
    page += ".PP\nWhat was sold in each city, over all products and payments, by the feeds of three sources:\n"
    page += ask("slice", named[0], "'?,\\A,\\A'", *named[1:])
    page += ".PP\nOne step below Leeds, along the products:\n" + ask("drill", named[0], "'=Leeds,\\A,\\A'", "product", *named[1:])
    page += ".PP\nThe lines that were refused, each with its source, its number and a code:\n" + ask("refusals", *named)
    statuses = text[text.index("| Status | Meaning |") :]
    page += ".SH EXIT STATUS\n" + from_markdown(statuses.partition("\n\n")[0])
    return page + ".SH WHY IT FAILED\n" + from_markdown(section_of(text, "Why it failed").replace("<br>", " "))


def commands_of(program):
    """The names of the commands."""
    return [name for name, _ in completions.commands_of(program.said("--help"))]


def manual_of(program, notes, formats):
    """The manual page, with what the text of docs/FORMATS.md says."""
    help_text = program.said("--help")
    usage = re.search(r"Usage: (.*?)\n\n", help_text, re.DOTALL)[1]
    about = help_text.split("\n\nUsage: ")[0]
    after = help_text.split("\n\n", 4)[-1]
    version = program.said("--version").strip()
    page = f'.TH DATACUBE 1 "" "{version}"\n.SH NAME\ndatacube \\- a data cube of feeds of facts\n.SH SYNOPSIS\n'
    page += literal(re.sub(r"^ +", "", usage, flags=re.MULTILINE))
    page += ".SH DESCRIPTION\n" + roff(about) + "\n.PP\n" + literal(after)
    page += ".SH COMMANDS\n"
    for name in commands_of(program):
        page += f".SS {name}\n" + literal(program.said(name, "--help"))
    page += formats_in_manual(program, formats)
    page += ".SH CODES\n"
    for note in notes:
        page += f'.TP\n.B "{roff(note["code"])}"\n({roff(note["about"])}) {roff(note["means"])} {roff(note["mend"])}\n'
        if note["example"]:
            page += ".br\n" + roff(note["example"]) + "\n"
    files = "the whole of the formats, options and codes, in the repository, and below share/doc/datacube where it is installed"
    return page + f".SH FILES\n.TP\ndocs/FORMATS.md\n{files}\n.TP\nexamples/shop\nthe examples, likewise\n"


def wanted(program):
    """What the documents should be, by their paths."""
    notes = read_notes(program)
    line = completions.CommandLine(
        program.said("--help"),
        {name: program.said(name, "--help") for name in commands_of(program)},
        list(dict.fromkeys(note["code"] for note in notes)),
    )
    formats = advised(formats_with(notes, text_at(FORMATS)))
    made = {
        ARCHITECTURE: architecture_with(text_at(ARCHITECTURE)),
        FORMATS: formats,
        PROMISES: promises.page_with(text_at(PROMISES)),
        DEFINITIONS: bounded(DEFINITIONS),
        README: readme(),
        MANUAL: manual_of(program, notes, formats),
        MAP: crate_map.picture(programs.crates()),
    }
    return {**made, **{f"{ROOT}/completions/{name}": text for name, text in completions.made_of(line).items()}}


def main():
    given = programs.words_of(__doc__, check=False, program=None)
    documents = wanted(Program(given.program))
    if given.check:
        stale = [path for path, text in documents.items() if not os.path.exists(path) or text_at(path) != text]
        for path in stale:
            print(f"FAILED: {os.path.relpath(path, ROOT)} isn't what the program or the code says: scripts/documents.py writes it anew")
        lost = [[f"docs/ARCHITECTURE.md names {it}" for it in lost_functions(text_at(ARCHITECTURE))], lost_words([README, PROMISES])]
        for name in sum(lost, []):
            print(f"FAILED: {name}, which isn't there")
        failed = len(stale) + len(sum(lost, []))
        print(f"{len(documents) + len(lost) - len(stale) - sum(map(bool, lost))} passed, {failed} failed")
        return 1 if failed else 0
    for path, text in documents.items():
        os.makedirs(os.path.dirname(path), exist_ok=True)
        programs.write(path, text)
    return 0


if __name__ == "__main__":
    sys.exit(main())
