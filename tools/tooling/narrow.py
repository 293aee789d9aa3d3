"""Breaks the wide lines of proofs where a reader would: at the outermost operator, import or argument."""
import re
from collections.abc import Iterator

OPENING, CLOSING = "([{", ")]}"
# The indentation of a continuation line, as in `rattle fmt`.
DEEPER = 4
# How loosely operators bind: a line is first broken at the loosest. It is broken after these words and before all others.
BEHIND = {"in": 0, "=": 1, "↦": 1}
BEFORE = {"|": 0, "→": 1, "∙": 2, "×": 3, "⊎": 3, "≡": 4, "||": 5, "&&": 5, "≤": 6, "<": 6, "∷": 7, "++": 7, "+": 7, "↦": 9, "=": 9}
ARGUMENT, NEVER = 8, 9
# A line is not broken after these.
TIED = {*BEFORE, "λ", ":", "rw", "pub", "record", "elim", "let", "_", "as", "("}
IMPORT = re.compile(r"((?:pub )?use [^{]*\.)\{(.*)\}$")


def breaks(body: str) -> Iterator[tuple[int, int, int]]:
    """Each place at which a line can be broken: its depth of brackets, how tightly its operator binds, and the index of
    the character after the break."""
    depth, quoted = 0, False
    for at, sign in enumerate(body):
        quoted ^= sign == '"'
        if quoted:
            continue
        if sign in OPENING:
            depth += 1
        elif sign in CLOSING:
            depth -= 1
        elif sign == " " and at > 0:
            behind, before = body[:at].rsplit(" ", 1)[-1].lstrip(OPENING), body[at + 1:].split(" ", 1)[0]
            bound = BEHIND.get(behind, BEFORE.get(before, NEVER if behind in TIED or not behind else ARGUMENT))
            yield depth, bound, at


def broken(body: str, room: int) -> tuple[str, str] | None:
    """The part of a line that fits and the rest; None if the line cannot be broken."""
    found = [(depth * 10 + bound, -at) for depth, bound, at in breaks(body) if at <= room and bound < NEVER]
    # A break that leaves little on the first line is used only if all the rest fits, or if there is no other.
    good = [it for it in found if -it[1] * 3 > room or len(body) + it[1] <= room - DEEPER]
    if not found:
        return None
    at = -min(good or found)[1]
    return body[:at], body[at + 1:]


def narrowed(line: str, columns: int) -> list[str]:
    """A line as the lines that it takes."""
    if len(line) <= columns:
        return [line]
    if imported := IMPORT.match(line):
        return imports(imported[1], imported[2].split(", "), columns)
    indent = len(line) - len(line.lstrip())
    comment = line.lstrip().startswith("-- ")
    if comment:
        at = line.rfind(" ", indent + 3, columns + 1)
        return [line[:at], *narrowed(" " * indent + "-- " + line[at + 1:], columns)] if at > 0 else [line]
    parts = broken(line[indent:], columns - indent)
    if parts is None:
        return [line]
    return [" " * indent + parts[0], *narrowed(" " * (indent + DEEPER) + parts[1], columns)]


def imports(head: str, names: list[str], columns: int) -> list[str]:
    """One import as several of the same module."""
    lines: list[str] = []
    taken: list[str] = []
    for name in names:
        if taken and len(f"{head}{{{', '.join([*taken, name])}}}") > columns:
            lines.append(f"{head}{{{', '.join(taken)}}}")
            taken = []
        taken.append(name)
    return [*lines, f"{head}{{{', '.join(taken)}}}"]
