"""A cube in the explorer, the page that shows cubes in a browser."""
from __future__ import annotations

import json
import os
import tempfile

from ._errors import DatacubeError

HERE = os.path.dirname(os.path.abspath(__file__))
# (in a wheel, and in the repository)
PAGES = [os.path.join(HERE, "postgres", "explorer.html"), os.path.join(HERE, *[".."] * 3, "explorer", "index.html")]
END = "</body>"


def page_text() -> str:
    """The explorer, as it is for a cube that is opened by hand."""
    path = next((it for it in PAGES if os.path.exists(it)), None)
    if path is None:
        raise DatacubeError("the package has no page: install it from the repository")
    with open(path, encoding="utf-8") as file:
        return file.read()


def page_with(text: str, name: str, is_escaped: bool = False) -> str:
    """The explorer with a script at its end that opens a printed cube, which is a text in it and nothing else."""
    start, end = page_text().rsplit(END, 1)
    # (no letter of it ends the script, or begins a comment)
    quoted, called = (json.dumps(it).replace("<", "\\u003c") for it in (text, name))
    how = ", true" if is_escaped else ""
    return f'{start}<script>\nopen(new File([{quoted}], {called}, {{ type: "text/csv" }}){how});\n</script>\n{END}{end}'


def new_file() -> str:
    """The path of a new page, which its owner alone can read."""
    handle, path = tempfile.mkstemp(prefix="cube-", suffix=".html")
    os.close(handle)
    return path
