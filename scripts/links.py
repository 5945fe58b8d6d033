"""The links of all documents, for scripts/pages.py: to files and titles, by Markdown's links, by files of this repository that
code in a line names, as `docs/FORMATS.md`, and by titles that are named, as `FILE.md`, "TITLE" or "TITLE" below."""
import glob
import os
import re

import programs

ROOT = programs.ROOT
DOCUMENTS = ("*.md", "docs/*.md", "examples/*/*.md", "python/*.md")
FENCED = re.compile(r"^```.*?^```$", re.MULTILINE | re.DOTALL)
TITLE = re.compile(r"^#+ (.*)$", re.MULTILINE)
LINK = re.compile(r"\]\(([^)#\s]*)(?:#([^)\s]*))?\)")
CODED = re.compile(r"`([^`\n]+)`")
PATH = re.compile(r"[\w*.-]+(?:/[\w*.-]+)*/?")
NAMED_TITLE = re.compile(r'(?:`?([\w/]+)(?:\.md`)?, )?"([A-Z][^"\n]*)"(?: (below|above))?')
# (what stands in a path for any name)
ANY = re.compile(r"\b(?:NAME|CRATE|FILE|X)\b")
# What a path of this repository begins with; documents name those of crates from there, too.
TOPS, CRATES = set(os.listdir(ROOT)) - {"out"}, set(os.listdir(f"{ROOT}/crates"))
# A document each of whose lines has a link that leads nowhere.
WRONG, WRONG_TEXT = "docs/wrong.md", """[a file](NONE.md)
[a title](STORE.md#none)
[a title here](#none)
`docs/NONE.md`
`scripts/none.py`
`STORE.md`, "None"
"None" below
"""


def lost():
    """For each document the links that lead nowhere, and so for one that has some of each kind."""
    texts = {WRONG: WRONG_TEXT, **texts_below(ROOT)}
    finds = (lost_links, lost_documents, lost_files, lost_titles)
    return {name: [it for find in finds for it in find(name, texts)] for name in texts}


def lost_where_installed(root):
    """The links of the documents below a folder that is laid out as the repository, and the documents that they name, which
    aren't there."""
    texts = texts_below(root)
    return [f"{name}: {it}" for name in texts for find in (lost_links, lost_documents) for it in find(name, texts, root)]


def texts_below(root):
    """The documents below the repository, or below what is laid out as it is, without their blocks."""
    texts = {}
    for path in sorted(it for pattern in DOCUMENTS for it in glob.glob(f"{root}/{pattern}")):
        texts[os.path.relpath(path, root)] = FENCED.sub("", programs.text_at(path))
    return texts


def titles_of(text):
    """The titles of a document, without the signs of code in them."""
    return {it[1].replace("`", "") for it in TITLE.finditer(text)}


def anchor_of(title):
    """The name under which a title is found: its words in small letters, with hyphens between them."""
    return re.sub(r"[^\w -]", "", title.lower()).replace(" ", "-")


def lost_links(name, texts, root=ROOT):
    """The links of a document to files and titles that aren't there."""
    for path, anchor in LINK.findall(CODED.sub("", texts[name])):
        if "://" in path:
            continue
        to = os.path.normpath(os.path.join(os.path.dirname(name), path)) if path else name
        if path and not os.path.exists(f"{root}/{to}"):
            yield f"there is no {to}"
        elif anchor and anchor not in map(anchor_of, titles_of(texts.get(to, ""))):
            yield f"{to} has no title #{anchor}"


def paths_in(text):
    """The paths that code in a document's lines names."""
    return sorted({word for code in CODED.findall(text) for word in PATH.findall(code)})


def lost_documents(name, texts, root=ROOT):
    """The documents that code in a document's lines names, and that aren't there. One in a folder that isn't installed is
    named by its place in the repository."""
    for path in (it for it in paths_in(texts[name]) if it.endswith(".md")):
        folder = path.partition("/")[0]
        if folder in TOPS and not os.path.exists(f"{root}/{folder}"):
            continue
        if not any(glob.glob(os.path.join(root, it, ANY.sub("*", path))) for it in (os.path.dirname(name), "", "docs")):
            yield f"there is no {path}"


def lost_files(name, texts):
    """The other files of the repository that code in a document's lines names, and that aren't there."""
    for path in paths_in(texts[name]):
        folder, below, _ = path.partition("/")
        if path.endswith(".md") or not below or folder not in TOPS | CRATES:
            continue
        named = f"{ROOT}/{'crates/' if folder in CRATES else ''}{ANY.sub('*', path)}"
        # (a file of definitions may be named without its ending)
        if not glob.glob(named) and not glob.glob(f"{named}.antt"):
            yield f"there is no {path}"


def lost_titles(name, texts):
    """The titles, of a document that is named or of this one, that aren't there."""
    for document, title, way in NAMED_TITLE.findall(texts[name]):
        named = [it for it in (f"docs/{document}.md", f"{document}.md") if it in texts]
        place = named[0] if named else name
        if (named or way) and title not in titles_of(texts[place]):
            yield f"{place} has no title {title}"
