#!/usr/bin/env python3
"""Makes explorer/datacube.html: the explorer, what explorer/own/ adds to it, and the proved cube as WebAssembly, in one file.

    scripts/page.py ir RLIBS CRATE OUT.bc           proves the crate in the folder CRATE over the proved libraries in the folder
                                                    RLIBS (NAME.rlib each; or crates/, as `rt` leaves them there), and keeps
                                                    what the compiler hands to LLVM
    scripts/page.py module IN.bc OUT64.wasm OUT32.wasm
                                                    makes the module of it, with a memory of 64 bits and with one of 32
    scripts/page.py page [MODULE64 MODULE32] [OUT.html]
                                                    writes the page; without modules it keeps those that it has
    scripts/page.py modules OUT64.wasm OUT32.wasm   writes the modules that the page has
    scripts/page.py check [MODULE64 MODULE32]       sees that the page is what its parts give, and has these modules: status 1
                                                    with a line for each fault where it isn't

`ir` and `module` need the kit (`rt`); `module` needs `wasm-opt` of Debian's package binaryen, too. Each step gives the same bytes
again from the same files.
"""
import base64
import glob
import gzip
import hashlib
import os
import re
import shutil
import subprocess
import sys
import tempfile

sys.dont_write_bytecode = True
import programs
from edits import kit
from programs import read, text_at, write

ROOT = programs.ROOT
EXPLORER, OWN, PAGE = (f"{ROOT}/explorer/{it}" for it in ("index.html", "own", "datacube.html"))
TARGET = "wasm64-unknown-unknown"
LAYOUT = "e-m:e-p:64:64-p10:8:8-p20:8:8-i64:64-i128:128-n32:64-S128-ni:1:10:20"
# what every engine has that has WebAssembly's memory at all (LLVM's name for it), and no calls for what a processor can't do
FLAGS = [f"--target={TARGET}", "-mcpu=lime1", "-mllvm", "-expand-div-rem-bits=64", "-mllvm", "-expand-fp-convert-bits=64",
         "-ffunction-sections", "-fdata-sections", "--no-default-config", "-no-canonical-prefixes", "-O3"]
FEATURES = ["--enable-memory64", "--enable-bulk-memory", "--enable-multivalue", "--enable-sign-ext", "--enable-mutable-globals",
            "--enable-nontrapping-float-to-int"]
EXPORTS = ["page_schema", "page_run", "page_explain"]
CUSTOM, TABLE = 0, 4  # kinds of sections of a module


# The module.


def keep_ir(rlibs, crate, out):
    """Builds a crate as a static library with a toolchain whose clang keeps what it is handed."""
    home, name = kit(), os.path.basename(os.path.realpath(crate))
    out = os.path.realpath(out)
    with tempfile.TemporaryDirectory(prefix="datacube-page-") as room:
        toolchain = f"{room}/toolchain"
        keeping_toolchain(home, toolchain, f"{room}/kept.bc")
        rlibs = libraries_in(os.path.realpath(rlibs), room)
        words = [f"{home}/bin/rattle", "build", "--crate-name", name, "src/lib.rt"]
        for library in ("std", "core"):
            words += ["--extern", f"{library}={home}/rlibs/{library}.rlib"]
        for library in programs.crates()[name]:
            folder = rlibs if os.path.exists(f"{rlibs}/{library}.rlib") else f"{home}/rlibs"
            words += ["--extern", f"{library}={folder}/{library}.rlib"]
        words += ["-L", f"dependency={home}/rlibs", "-L", f"dependency={rlibs}",
                  "--antt-project", f"{home}/rattle/logic/antt-project.json", "--logic-built", f"{home}/logic_built",
                  "--incremental", f"{room}/incremental", "--crate-type", "staticlib", "--toolchain", toolchain,
                  "--jobs", "2", "--links", f"{name}=", "-o", f"{room}/library.a"]
        subprocess.run(words, cwd=crate, check=True)
        shutil.copyfile(f"{room}/kept.bc", out)


def libraries_in(folder, room):
    """A folder of proved libraries: this one, or where it has crates, one of links to theirs."""
    found = glob.glob(f"{folder}/*/out/rlib/*.rlib")
    if not found:
        return folder
    os.mkdir(f"{room}/rlibs")
    for path in found:
        os.symlink(path, f"{room}/rlibs/{os.path.basename(path)}")
    return f"{room}/rlibs"


def keeping_toolchain(home, folder, kept):
    """A toolchain as the kit's, but for its clang, which first copies the IR that it is handed."""
    os.makedirs(f"{folder}/bin")
    os.symlink(f"{home}/toolchain/lib", f"{folder}/lib")
    for tool in ("llvm-ar", "ld.lld", "rattle-x64"):
        os.symlink(f"{home}/toolchain/bin/{tool}", f"{folder}/bin/{tool}")
    write(f"{folder}/bin/clang", '#!/bin/sh\nfor word in "$@"; do\n    case $word in *.bc) cp "$word" "%s" ;; esac\ndone\nexec "%s" "$@"\n'
          % (kept, f"{home}/toolchain/bin/clang"))
    os.chmod(f"{folder}/bin/clang", 0o755)


def make_module(kept, out64, out32):
    """Makes both modules of the IR of the proved crate and of the allocator."""
    home = kit()
    clang = f"{home}/toolchain/bin/clang"
    with tempfile.TemporaryDirectory(prefix="datacube-page-") as room:
        shutil.copyfile(kept, f"{room}/crate.bc")
        shutil.copyfile(f"{OWN}/heap.c", f"{room}/heap.c")
        run = lambda *words: subprocess.run(words, cwd=room, check=True, stderr=subprocess.PIPE)
        run(clang, "--no-default-config", "-x", "ir", "-S", "-emit-llvm", "-O0", "-Xclang", "-disable-llvm-passes", "crate.bc",
            "-o", "crate.ll")
        retarget(f"{room}/crate.ll")
        run(clang, *FLAGS, "-c", "-x", "ir", "crate.ll", "-o", "crate.o")
        run(clang, *FLAGS, "-ffreestanding", "-nostdinc", "-fno-builtin", "-c", "heap.c", "-o", "heap.o")
        run(f"{home}/toolchain/bin/llvm-ar", "rcs", "both.a", "crate.o", "heap.o")
        run(f"{home}/bin/rattle-link", "--target", TARGET, "--toolchain", f"{home}/toolchain", "-o", "linked.wasm", "both.a")
        write(f"{room}/plain.wasm", plain(read(f"{room}/linked.wasm")))
        run("wasm-opt", *FEATURES, "--memory64-lowering", "plain.wasm", "-o", "lowered.wasm")
        write(out64, read(f"{room}/plain.wasm"))
        write(out32, read(f"{room}/lowered.wasm"))


def retarget(path):
    """Turns IR for another processor into that for WebAssembly, with the page's calls as its exports. The IR has integers,
    pointers of 64 bits and no instruction of a processor, so nothing else in it depends on the target."""
    text = text_at(path)
    text = re.sub(r"^target triple = .*$", f'target triple = "{TARGET}"', text, flags=re.M)
    text = re.sub(r"^target datalayout = .*$", f'target datalayout = "{LAYOUT}"', text, flags=re.M)
    text = re.sub(r'"(target-cpu|target-features|tune-cpu)"="[^"]*"', "", text)
    for name in EXPORTS:
        text, count = re.subn(rf"^(define [^@\n]*@{name}\([^\n]*\)[^\n{{]*?)((?: #\d+)? \{{)$",
                              rf'\1 "wasm-export-name"="{name}"\2', text, flags=re.M)
        if count != 1:
            sys.exit(f"the IR has {count} functions {name}, and not one")
    write(path, text)


def plain(module):
    """A module without its sections of names, and without the empty table of 64 bits, which some engines refuse."""
    made, at = module[:8], 8
    while at < len(module):
        start, kind = at, module[at]
        size, at = number_at(module, at + 1)
        if kind not in (CUSTOM, TABLE):
            made += module[start : at + size]
        at += size
    return made


def number_at(module, at):
    """A number in LEB128, and the place behind it."""
    value = shift = 0
    while True:
        value |= (module[at] & 127) << shift
        shift, at = shift + 7, at + 1
        if module[at - 1] < 128:
            return value, at


# The page.


def page_of(packed64, packed32):
    """The page's text, with two modules that are packed."""
    part = lambda name: text_at(f"{OWN}/{name}")
    text = text_at(EXPLORER)
    if any("</script" in part(it) for it in ("own.js", "worker.js")):
        sys.exit("a script of explorer/own/ has the end of a script in it")
    head, body = part("style.css"), part("parts.html")
    for name, packed in (("64", packed64), ("32", packed32)):
        body += f'<script type="text/plain" id="own-module-{name}">{packed}</script>\n'
    body += f'<script type="text/plain" id="own-worker">\n{part("worker.js")}</script>\n<script>\n{part("own.js")}</script>\n'
    # (the head is closed before any script, and the body behind the last one: neither mark is in a script)
    text = put_before(text.partition("</head>"), f"<style>\n{head}</style>\n")
    text = put_before(text.rpartition("</body>"), body)
    return with_policy(text)


def put_before(parts, more):
    """A text, parted at a mark, with more of it before the mark."""
    start, mark, end = parts
    if not mark:
        sys.exit(f"{EXPLORER} has no end of its head or of its body")
    return start + more + mark + end


def with_policy(text):
    """The page with a policy under which it can't ask anything of anybody: scripts and styles are those whose hashes it has."""
    found = re.search(r'(<meta http-equiv="Content-Security-Policy"\s+content=")([^"]*)(">)', text)
    if not found:
        sys.exit(f"{EXPLORER} has no policy")
    rules = dict(it.strip().split(" ", 1) for it in found[2].split(";") if it.strip())
    rules["default-src"] = rules["connect-src"] = rules["form-action"] = rules["base-uri"] = "'none'"
    rules["script-src"] = " ".join([*hashes(text, "script"), "'wasm-unsafe-eval'"])
    rules["style-src"] = " ".join(hashes(text, "style"))
    rules["worker-src"] = "blob:"
    policy = "; ".join(f"{name} {rule}" for name, rule in rules.items())
    return text[: found.start(2)] + policy + text[found.end(2) :]


def hashes(text, name):
    """The hashes of the elements of a name that a browser runs, as a policy has them."""
    found = re.findall(rf"<{name}>(.*?)</{name}>", text, flags=re.S)
    return ["'sha256-" + base64.b64encode(hashlib.sha256(it.encode()).digest()).decode() + "'" for it in found]


def packed(module):
    """A module as the page has it: gzipped, in base64."""
    return base64.b64encode(gzip.compress(module, 9, mtime=0)).decode()


def packed_in(text):
    """The two modules of a page's text, packed."""
    found = dict(re.findall(r'<script type="text/plain" id="own-module-(64|32)">([^<]*)</script>', text))
    if len(found) != 2:
        sys.exit("the page has no modules")
    return found["64"], found["32"]


def unpacked(text):
    return gzip.decompress(base64.b64decode(text))


def faults(modules):
    """What is wrong with the page, a line each."""
    text = text_at(PAGE)
    kept = packed_in(text)
    found = [] if text == page_of(*kept) else ["explorer/datacube.html isn't what its parts give: run scripts/page.py page"]
    for module, own, name in zip(modules, kept, ("64", "32")):
        if read(module) != unpacked(own):
            found.append(f"the page has another module of {name} bits than {module}")
    return found


def main():
    counts = {"ir": [3], "module": [3], "page": [0, 1, 2, 3], "modules": [2], "check": [0, 2]}
    given = programs.words_of(__doc__, step={"choices": list(counts)}, paths={"nargs": "*"})
    if len(given.paths) not in counts[given.step]:
        given.error(f"{given.step} takes other paths")
    if given.step == "ir":
        keep_ir(*given.paths)
    elif given.step == "module":
        make_module(*given.paths)
    elif given.step == "page":
        modules, out = given.paths[: len(given.paths) // 2 * 2], given.paths[len(given.paths) // 2 * 2 :] or [PAGE]
        kept = [packed(read(it)) for it in modules] if modules else packed_in(text_at(PAGE))
        write(out[0], page_of(*kept))
    elif given.step == "modules":
        for path, module in zip(given.paths, packed_in(text_at(PAGE))):
            write(path, unpacked(module))
    else:
        found = faults(given.paths)
        print("\n".join(found) or "the page is what its parts give")
        return 1 if found else 0
    return 0


if __name__ == "__main__":
    sys.exit(main())
