#!/usr/bin/env python3
"""Puts D3, which draws the explorer's charts, into explorer/index.html: the modules of explorer/d3/, as Debian's packages have them.

    scripts/d3.py                writes the page with the modules, and with the text of their licences
    scripts/d3.py check          sees that the modules are those that explorer/d3/MODULES.txt names, that LICENCES names each of
                                 them, and that the page has them and can ask nothing by them; the last line is
                                 `N passed, M failed`
    scripts/d3.py take FOLDER    takes the modules of the packages in a folder, where `apt-get download` left them, and notes of
                                 each the source package, the version and the SHA-256

A change of the page is one of explorer/datacube.html, which scripts/page.py makes.
"""
import glob
import hashlib
import io
import os
import re
import subprocess
import sys
import tarfile

sys.dont_write_bytecode = True
import programs
from programs import text_at, write

PAGE, FOLDER = (f"{programs.ROOT}/explorer/{it}" for it in ("index.html", "d3"))
NOTED, LICENCES = f"{FOLDER}/MODULES.txt", f"{FOLDER}/LICENCES"
# the modules, each behind those that it needs: d3-interpolate's colours, d3-scale's times and what they need are left out
PACKAGES = {"d3-array": "node-d3-array", "d3-collection": "node-d3-collection", "d3-interpolate": "node-d3-interpolate",
            "d3-format": "libjs-d3-format", "d3-scale": "node-d3-scale", "d3-path": "node-d3-path", "d3-shape": "node-d3-shape",
            "d3-selection": "node-d3-selection", "d3-axis": "node-d3-axis"}
BEGIN, END = "<!-- D3, by scripts/d3.py: what follows is of explorer/d3/. -->\n", "<!-- D3 ends. -->\n"
# what would let a script ask something of somebody, or make code of a text, and what would end it
FORBIDDEN = re.compile(r"\b(eval|Function|fetch|XMLHttpRequest|WebSocket|EventSource|sendBeacon|importScripts|import)\s*\(|</script|<!--|<script")
HEAD = "# A file, the source package of Debian that it is of, the version of that, and the SHA-256 of the file (scripts/d3.py take).\n"


def modules():
    """The text of each module, by its name."""
    return {name: text_at(f"{FOLDER}/{name}.min.js") for name in PACKAGES}


def digest(text):
    return hashlib.sha256(text.encode()).hexdigest()


def page_with(text):
    """The page's text with the modules in a script of their own, before all others."""
    start, begin, rest = text.partition(BEGIN)
    _, end, behind = rest.partition(END)
    if not begin or not end:
        sys.exit(f"{PAGE} has no place for D3")
    library = "\n".join(it.strip("\n") for it in modules().values())
    return f"{start}{BEGIN}<script>\n/*\n{text_at(LICENCES)}*/\n{library}\n</script>\n{END}{behind}"


def noted():
    """What is noted of each file."""
    lines = [it.split() for it in text_at(NOTED).splitlines() if not it.startswith("#")]
    return {file: sum256 for file, _, _, sum256 in lines}


def checks():
    """What is looked at: whether it is so, and what is said where it isn't."""
    found, licences, sums = modules(), text_at(LICENCES), noted()
    yield sorted(sums) == sorted(f"{it}.min.js" for it in found), "explorer/d3/MODULES.txt names other modules"
    for name, text in found.items():
        yield sums.get(f"{name}.min.js") == digest(text), f"explorer/d3/{name}.min.js isn't the file that MODULES.txt names"
        yield re.search(rf"^{name} ", licences, flags=re.M), f"explorer/d3/LICENCES doesn't name {name}"
        yield not FORBIDDEN.search(text), f"{name} has a call or an end that no part of the page may have"
    page = text_at(PAGE)
    yield page == page_with(page), "explorer/index.html isn't what explorer/d3/ gives: run scripts/d3.py, and then scripts/page.py page"


def check():
    """Says what isn't so; gives the status."""
    tally = programs.Tally()
    for is_right, what in checks():
        tally.count(is_right)
        if not is_right:
            print(f"FAILED: {what}")
    return tally.end()


def take(folder):
    """Takes the modules of packages, and notes where they are from."""
    lines = []
    for name, package in PACKAGES.items():
        found = glob.glob(f"{folder}/{package}_*.deb")
        if len(found) != 1:
            sys.exit(f"{folder} has {len(found)} packages {package}, and not one")
        text = module_in(found[0], f"{name}.min.js")
        write(f"{FOLDER}/{name}.min.js", text)
        lines.append(f"{name}.min.js {field(found[0], 'Source').split(' ')[0] or package} {field(found[0], 'Version')} {digest(text)}\n")
    write(NOTED, HEAD + "".join(lines))


def field(package, name):
    ran = subprocess.run(["dpkg-deb", "-f", package, name], stdout=subprocess.PIPE, text=True, check=True)
    return ran.stdout.strip()


def module_in(package, name):
    """A file of a package, of which there is one."""
    ran = subprocess.run(["dpkg-deb", "--fsys-tarfile", package], stdout=subprocess.PIPE, check=True)
    with tarfile.open(fileobj=io.BytesIO(ran.stdout)) as files:
        found = [it for it in files if it.isfile() and os.path.basename(it.name) == name]
        if len(found) != 1:
            sys.exit(f"{package} has {len(found)} files {name}, and not one")
        return files.extractfile(found[0]).read().decode()


def main():
    given = programs.words_of(__doc__, step={"nargs": "?", "choices": ["check", "take"]}, folder={"nargs": "?"})
    if (given.step == "take") != (given.folder is not None):
        given.error("take has a folder, and no other step has one")
    if given.step == "check":
        return check()
    if given.step == "take":
        take(given.folder)
    else:
        write(PAGE, page_with(text_at(PAGE)))
    return 0


if __name__ == "__main__":
    sys.exit(main())
