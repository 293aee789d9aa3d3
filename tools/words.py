#!/usr/bin/env python3
"""Whether words that were left for the field's stand in what users type and read.

    tools/words.py --check        a step of the gate

Names are compared exactly: options, settings, commands, routes, fields of JSON, fields of the log, metrics with their labels, tables,
views and columns. So a word that is common English, such as `first`, is none elsewhere. In prose (help, the manual page, the pages,
the alerts, texts of the program) only words are looked for that mean nothing else there. docs/GATEWAY.md and the parts of
docs/FORMATS.md before the service are about the programs gateway and play, which keep their words. Tests and comments are read by
nobody who runs the service. `EXCEPTIONS` has what stays, and why.
"""
import glob
import os
import re
import sys
from collections.abc import Iterator
from typing import NamedTuple

from tooling.crates import ROOT
from tooling.files import text_of

# What each was called, and what it is called now.
OPTIONS = {
    "operate": "--admin", "book-memory": "--max-memory", "durable": "--durability", "whole": "--integer-unit",
    "pass": "--forward-unsupported", "never-across": "--split-at", "first": "--initial-value", "forget-series": "--series-ttl",
    "flush-every": "--flush-interval", "keep-spans": "--keep-intervals", "log-foreign": "--log-rejected",
    "expect-foreign": "--expect-rejected", "anyway": "--force", "give-up": "--abort", "most-[a-z-]+": "--max-..",
}
COMMANDS = {"lift": "release", "repair": "rewind", "correct": "adjust", "open": "reopen", "dead": "dead-letters"}
ROUTES = {**COMMANDS, "checkpoint": "flush", "health": "healthz", "ready": "readyz"}
# Fields of JSON that others read, and of the log.
FIELDS = {
    "act": "action", "given": "args", "of": "target", "text": "msg", "foreign": "rejected", "billed": "total_adjusted",
    "corrections": "adjustments", "dead": "dead_letters", "held": "parked", "shares": "quotas", "untold": "more_series",
}
# Parts of such fields, and of metrics and labels.
PARTS = {
    "most": "max or limit", "beat": "heartbeat", "doubt": "unknown_outcome", "share": "quota", "held": "parked", "foreign": "rejected",
    "passed": "unsupported", "letters": "dead_letters", "letter": "dead_letter", "billed": "total_adjusted", "expires": "not_after",
}
METRICS = {"posts_total": "requests_total", "recovery_seconds": "last_recovery_duration_seconds", "book_memory_bytes": "memory_bytes"}
LABELS = {"status": "code", "cause": "reason", "whole": "rule", "of": "a noun"}
TABLES = {
    "request": "requests", "life": "lives", "rewind": "rewinds", "metric": "metrics", "series_total": "series_totals",
    "interval_row": "interval_rows", "hour": "hours", "day": "days", "month": "months", "closed": "closed_periods",
    "late_hour": "late_hours", "corrections": "adjustments", "senders": "resources_seen", "points": "intervals",
}
COLUMNS = {
    "from": "lower_bound", "up_to": "upper_bound", "since": "first_start", "until": "last_end", "last_seen": "last_end",
    "billed": "total_adjusted", "corrections": "adjustments",
}
PROSE = {
    r"operators?'s? address": "admin address", r"dead requests?": "dead letter", r"over its share": "over its quota",
    r"foreign(?! keys?\b|_keys?\b)": "rejected", r"out of order": "duplicate or late", r"lifted": "released",
}
# By file a part of a line that stays, with the reason.
EXCEPTIONS = (
    ("docs/FORMATS.md", "instead of `out of order`", "it names the gateway's text beside the service's"),
)
PAGES = ("README.md", "SECURITY.md", "CHANGELOG.md", "docs/COLLECTOR.md", "docs/FORMATS.md", "docs/OPERATING.md", "docs/QUERIES.md",
         "docs/SEVERAL_MACHINES.md", "packaging/options.toml", "packaging/man/totxegun.1.in", "operate/**/*.*")
QUERIES = "docs/QUERIES.md"
# What of this page is about the service begins here.
OF_SERVICE = {"docs/FORMATS.md": "\n# 5. "}
HELP = re.compile(r"^(?:#\[derive\([^)]*\b(?:Args|Parser|Subcommand|ValueEnum|clap::\w+)\b.*?)^}", re.M | re.S)
SERIALIZED = re.compile(r"^#\[derive\([^)]*\bSerialize\b[^)]*\)\].*?^(?:pub(?:\([^)]*\))? )?struct \w+[^{;]*\{(.*?)^}", re.M | re.S)
FIELD = re.compile(r'(?:rename = "(\w+)"[^\n]*\n\s*)?^    (?:pub(?:\([^)]*\))? )?(\w+): ', re.M)
TEXT = re.compile(r'"((?:[^"\\\n]|\\.|\n)*?)"', re.S)
LOGGED = re.compile(r"tracing::(?:error|warn|info|debug)!\((.*?)\"", re.S)
SQL_BLOCK = re.compile(r"^```sql\n(.*?)^```$", re.M | re.S)
CHARACTER = re.compile(r"b?'(?:\\.|[^\\'\n])'")
METRIC = re.compile(r'^\s+(?:pub )?\w+: \w+ = "(\w+)"(?: \[([^\]]*)\])?', re.M)
SETTING = re.compile(r'env = "TOTXEGUN_(\w+)"|^\s+#\[arg\([^)]*long = "([\w-]+)"', re.M)


class Fault(NamedTuple):
    place: str
    line: int
    was: str
    better: str

    def __str__(self) -> str:
        return f"{self.place}:{self.line}: {self.was}: it is {self.better} now"


def sources(*folders: str) -> Iterator[tuple[str, str]]:
    """The service's source without its tests, and without comments that are no help."""
    for folder in folders:
        for path in sorted(glob.glob(f"{ROOT}/service/src/{folder}", recursive=True)):
            name = os.path.relpath(path, ROOT)
            if "/tests" not in name and not os.path.basename(name).startswith("test"):
                text = text_of(path)
                yield name, text.partition("#[cfg(test)]\nmod tests {")[0]


def pages() -> Iterator[tuple[str, str]]:
    for page in PAGES:
        for path in sorted(glob.glob(f"{ROOT}/{page}", recursive=True)):
            name = os.path.relpath(path, ROOT)
            text = text_of(path)
            before, begin, rest = text.partition(OF_SERVICE.get(name, "\0"))
            yield name, "\n" * before.count("\n") + begin + rest if begin else text


def texts() -> Iterator[tuple[str, int, str]]:
    """What people read: each page, the help, and the texts of the program, with the line at which each begins."""
    for name, text in pages():
        yield name, 1, text
    for name, text in sources("**/*.rs"):
        for block in HELP.finditer(text):
            for line in re.finditer(r"^\s*/// .*$", block[0], re.M):
                yield name, line_at(text, block.start() + line.start()), line[0]
        code = CHARACTER.sub(lambda it: " " * len(it[0]), text)
        code = re.sub(r"//.*$", lambda it: " " * len(it[0]), code, flags=re.M)
        for literal in TEXT.finditer(code):
            yield name, line_at(text, literal.start()), literal[1]


def line_at(text: str, place: int) -> int:
    return text.count("\n", 0, place) + 1


def in_texts() -> Iterator[Fault]:
    wanted = [(re.compile(rf"(?<![\w-])--({was})(?![\w-])"), better) for was, better in OPTIONS.items()]
    wanted += [(re.compile(rf"\bTOTXEGUN_({was.upper().replace('-', '_')})\b"), better) for was, better in OPTIONS.items()
               if "[" not in was]
    wanted += [(re.compile(rf"\btotxegun ({was})\b(?!-)"), better) for was, better in COMMANDS.items()]
    wanted += [(re.compile(rf"(?<![\w.}}/])/({was})(?=[/`\"?]|$)"), f"/{better}") for was, better in ROUTES.items()]
    wanted += [(re.compile(rf"\btotxegun_({was})\b"), better) for was, better in METRICS.items()]
    wanted += [(re.compile(rf"\b({was})\b", re.I), better) for was, better in PROSE.items()]
    for name, line, text in texts():
        for pattern, better in wanted:
            for found in pattern.finditer(text):
                yield Fault(name, line + text.count("\n", 0, found.start()), found[0], better)


def bad_name(name: str, exact: dict[str, str]) -> str | None:
    """What a name is called now, if it was called otherwise before."""
    if name in exact or exact in (TABLES, COLUMNS):
        return exact.get(name)
    parts = {part: PARTS[part] for part in name.split("_") if part in PARTS}
    return None if not parts or name.startswith("dead_letter") else ", ".join(parts.values())


def of_sql(code: str) -> Iterator[tuple[str, dict[str, str]]]:
    """Tables, views and columns that a line or a query names."""
    for made in re.finditer(r"\b(?:table|view|(?<!epoch )from|join|into|update) (?:totxegun\.)?(\w+)", code):
        yield made[1], TABLES
    for column in re.finditer(r'"(\w+)"|\b(\w+)\b', code):
        # Without quotes it begins a part of a query.
        if column[1] or column[2] != "from":
            yield column[1] or column[2], COLUMNS


def names() -> Iterator[tuple[str, int, str, dict[str, str]]]:
    """Each name that is compared, with its place and what such names were called."""
    for name, text in sources("admin/**/*.rs", "command/**/*.rs", "quota/**/*.rs", "late/*.rs", "otlp/explain.rs", "otlp/outcome.rs"):
        for struct in SERIALIZED.finditer(text):
            for field in FIELD.finditer(struct[1]):
                yield name, line_at(text, struct.start(1) + field.start()), field[1] or field[2], FIELDS
    for name, text in sources("**/*.rs"):
        for call in LOGGED.finditer(text):
            for part in call[1].split(","):
                field = re.match(r"\s*%?(\w+)\s*(?:=|$)", part)
                if field:
                    yield name, line_at(text, call.start()), field[1], FIELDS
    for name, text in sources("metrics/*.rs"):
        for metric in METRIC.finditer(text):
            yield name, line_at(text, metric.start()), metric[1], METRICS
            for label in re.findall(r'"(\w+)"', metric[2] or ""):
                yield name, line_at(text, metric.start()), label, LABELS
    for sink in ("sqlite", "postgres"):
        name = f"service/src/sink/{sink}/schema.sql"
        for number, line in enumerate(text_of(f"{ROOT}/{name}").splitlines(), 1):
            for word, exact in of_sql(line.partition("--")[0]):
                yield name, number, word, exact
    for block in SQL_BLOCK.finditer(text_of(f"{ROOT}/{QUERIES}")):
        for word, exact in of_sql(block[1]):
            yield QUERIES, line_at(block.string, block.start(1)), word, exact
    for name, text in sources("command/*.rs", "runs/rules.rs"):
        for setting in SETTING.finditer(text):
            option = (setting[2] or setting[1]).lower().replace("_", "-")
            was = next((better for old, better in OPTIONS.items() if re.fullmatch(old, option)), None)
            if was:
                yield name, line_at(text, setting.start()), option, {option: was}


def faults() -> list[str]:
    found = [*in_texts()]
    for name, line, word, exact in names():
        if better := bad_name(word, exact):
            found.append(Fault(name, line, word, better))
    excepted = {fault: exception_of(fault) for fault in found}
    unused = [(place, part) for place, part, _ in EXCEPTIONS if (place, part) not in excepted.values()]
    return [*(str(fault) for fault, of in excepted.items() if not of),
            *(f"{place}: no line needs the exception {part!r}" for place, part in unused)]


def exception_of(fault: Fault) -> tuple[str, str] | None:
    line = text_of(f"{ROOT}/{fault.place}").splitlines()[fault.line - 1]
    return next(((place, part) for place, part, _ in EXCEPTIONS if fault.place == place and part in line), None)


def main(words: list[str]) -> int:
    if words != ["--check"]:
        sys.exit(f"usage: {sys.argv[0]} --check")
    found = faults()
    for line in found:
        print(line)
    print(f"{len(found)} words that were left" if found else "no word that was left")
    return 1 if found else 0


if __name__ == "__main__":
    sys.exit(main(sys.argv[1:]))
