"""The explorer over the served cube: one page, which asks where it comes from for the cube and for what is new."""
from __future__ import annotations

import base64
import hashlib
import html
import os
import re
from typing import List, NamedTuple

from .._show import END, page_text

HERE = os.path.dirname(os.path.abspath(__file__))
# (the page's own, for a page that is a file)
OWN_POLICY = re.compile(r'<meta http-equiv="Content-Security-Policy"\s+content="[^"]*">')
SCRIPTS, STYLES = re.compile(r"<script>(.*?)</script>", re.DOTALL), re.compile(r"<style>(.*?)</style>", re.DOTALL)
POLICY = (
    "default-src 'none'; script-src {scripts}; style-src {styles}; img-src data:; connect-src 'self'; base-uri 'none'; form-action 'none'; "
    "frame-ancestors 'none'"
)


class Page(NamedTuple):
    """A page, and the policy that lets its own scripts and styles run, each by its hash, and no other."""

    body: bytes
    policy: str


def page_of(name: str, is_escaped: bool) -> Page:
    """The explorer with the script that fetches a cube, which the page calls by a name, and keeps it fresh."""
    with open(os.path.join(HERE, "live.js"), encoding="utf-8") as file:
        script = file.read()
    said = f'<meta name="datacube-served" data-name="{html.escape(name)}" data-escaped="{int(is_escaped)}">'
    page, count = OWN_POLICY.subn(lambda _: said, page_text(), count=1)
    assert count == 1
    start, end = page.rsplit(END, 1)
    page = f"{start}<script>\n{script}</script>\n{END}{end}"
    return Page(page.encode("utf-8", "replace"), POLICY.format(scripts=hashes(SCRIPTS.findall(page)), styles=hashes(STYLES.findall(page))))


def hashes(texts: List[str]) -> str:
    digests = (hashlib.sha256(it.encode("utf-8")).digest() for it in texts)
    return " ".join(f"'sha256-{base64.b64encode(it).decode('ascii')}'" for it in digests)
