"""Reads the heads of scripts: the first paragraph of what they say about themselves."""
import ast
import glob
import os
import re

from tooling.crates import ROOT
from tooling.files import text_of

# The comment after the first line of a shell script, up to its first sentence's end or its last line.
SHELL_HEAD = re.compile(r"#!/bin/sh\n# ((?:.*\n# )*?.*?)[.:]?(?:\n(?!# )|[.:] )")


def first_paragraph(text: str) -> str:
    return " ".join(text.strip().split("\n\n")[0].split())


def head_of(path: str) -> str:
    """A script's head; "" if it has none."""
    text = text_of(path)
    if path.endswith(".py"):
        return first_paragraph(ast.get_docstring(ast.parse(text)) or "")
    found = SHELL_HEAD.match(text)
    return f"{first_paragraph(found[1].replace('# ', ''))}." if found else ""


def commands(folder: str) -> list[str]:
    """The paths of the commands in a folder at the top of the repository. Modules are in folders below it."""
    return [path for path in sorted(glob.glob(f"{ROOT}/{folder}/*")) if os.path.isfile(path) and os.access(path, os.X_OK)]
