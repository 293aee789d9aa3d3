"""Finds the functions of a Rattle file by the lines that the formatter gives them."""
import re

BEGIN = re.compile(r"( *)(?:pub(?:\([^)]*\))? )?(?:const |extern .C. )?fn (\w+)")
ABOVE = re.compile(r" *(?:#\[|///)")


class Function:
    """The place of a function: the line of its comment, the line that opens its body, and the line that closes it."""

    def __init__(self, name: str, start: int, body: int, end: int) -> None:
        self.name = name
        self.start = start
        self.body = body
        self.end = end

    def head(self, lines: list[str]) -> list[str]:
        return lines[self.start : self.body]

    def inner(self, lines: list[str]) -> list[str]:
        return lines[self.body : self.end + 1]


def functions_of(lines: list[str]) -> list[Function]:
    """The functions of a file that have a body, without functions inside another one."""
    found = []
    at = 0
    while at < len(lines):
        begin = BEGIN.match(lines[at])
        body, end = extent(lines, at, begin[1]) if begin else (None, at)
        if body is not None:
            found.append(Function(begin[2], top_of(lines, at), body, end))
        at = end + 1
    return found


def extent(lines: list[str], at: int, indent: str) -> tuple[int | None, int]:
    """The lines that open and close a body. If there is no body, the first is None and the second ends the declaration."""
    for body in range(at, len(lines)):
        line = lines[body]
        if line.endswith(";"):
            return None, body
        if line == f"{indent}{{" or line.endswith("{") and line[: len(indent) + 1].strip():
            return body, next(k for k in range(body, len(lines)) if lines[k] == f"{indent}}}")
        if line.endswith("}") and body == at:
            return body, body
    return None, len(lines) - 1


def top_of(lines: list[str], at: int) -> int:
    while at > 0 and ABOVE.match(lines[at - 1]):
        at -= 1
    return at
