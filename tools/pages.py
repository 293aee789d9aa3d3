#!/usr/bin/env python3
"""Generates the manual pages, the settings file and the shell completions of a package from the definition of the command line.

    tools/pages.py TOTXEGUN FOLDER

The definition is what `totxegun print options` prints, so a new option appears in the pages and the settings by itself.
packaging/options.toml and packaging/man are written by hand; a text about an option that no longer exists is an error. The
environment variables PREFIX (/usr/local) and SYSCONFDIR (/etc) set the paths that the pages name. Status 1: a line says what is wrong.
"""
import json
import os
import re
import subprocess
import sys
import textwrap
import tomllib
from typing import Any

from tooling.crates import ROOT

PACKAGING = f"{ROOT}/packaging"
MAN = f"{PACKAGING}/man"
WIDTH = 78
# Splits a text into sentences: mdoc wants each on a line of its own.
SENTENCE = re.compile(r"(?<=[.!?])\s+(?=[A-Z])")
VERSION_LINE = re.compile(r"^## (\d+\.\d+\.\d+), (\d{4}-\d\d-\d\d)$", re.MULTILINE)
MONTHS = ("January February March April May June July August September October November December").split()
SETTINGS_HEAD = """\
# Settings of totxegun.service, in TOML. The manual page, totxegun(1), says what each costs.
#
# A line after # has the default; one in capitals has none. Take the # away to set another value. Then
#   totxegun config check --config @SYSCONFDIR@/totxegun/totxegun.toml --data /var/lib/totxegun
# says whether the service starts with it; systemctl reload totxegun applies what can change while it runs, and the log names
# what needs a restart.
#
# Everybody may read this file: passwords and headers with tokens are in files of their own, which it names.
"""


# The prefix of the keys that are in the table of the sink.
TABLE = "sink."


# The names of a command, and its definition as the program prints it.
Command = tuple[tuple[str, ...], dict[str, Any]]


class Wrong(Exception):
    """Why nothing is written."""


def definition(program: str) -> dict[str, Any]:
    """The command line, as the program describes it."""
    line: dict[str, Any] = json.loads(printed(program, "options"))
    return line


def printed(program: str, what: str) -> str:
    return subprocess.run([program, "print", what], stdout=subprocess.PIPE, check=True).stdout.decode()


def hand_written(serve: dict[str, Any]) -> dict[str, Any]:
    """The texts of packaging/options.toml; raises Wrong if the program does not have an option that they name."""
    with open(f"{PACKAGING}/options.toml", "rb") as file:
        texts = tomllib.load(file)
    known = {option["long"] for option in serve["options"]}
    for name, text in texts.items():
        if name not in known:
            raise Wrong(f"packaging/options.toml: totxegun serve has no option --{name}")
        if text.keys() != {"costs"}:
            raise Wrong(f"packaging/options.toml, {name}: it has `costs`, and nothing else")
    return texts


def version() -> tuple[str, str]:
    """The version and its day. Raises Wrong if VERSION is not the first version of CHANGELOG.md."""
    with open(f"{ROOT}/VERSION", encoding="ascii") as file:
        number = file.read().strip()
    with open(f"{ROOT}/CHANGELOG.md", encoding="utf-8") as file:
        newest = VERSION_LINE.search(file.read())
    if not newest or newest[1] != number:
        raise Wrong(f"VERSION says {number}, and CHANGELOG.md's first version is {newest[1] if newest else 'none'}")
    return number, newest[2]


# --------------------------------------------------------------------------------------------------------------------
# The settings


def settings(serve: dict[str, Any], places: dict[str, str]) -> str:
    """The settings file: for each setting its help, and its default in a comment. TOML requires that the table of the sink comes last."""
    out = [SETTINGS_HEAD.replace("@SYSCONFDIR@", places["SYSCONFDIR"])]
    those = [option for option in serve["options"] if option["key"]]
    heading = None
    for option in those:
        if option["key"].startswith(TABLE):
            continue
        if option["heading"] != heading:
            heading = option["heading"]
            out.append(f"\n# {heading}\n")
        out.append(setting(option, option["key"]))
    out.append("\n[sink]\n")
    out += [setting(option, option["key"].removeprefix(TABLE)) for option in those if option["key"].startswith(TABLE)]
    return "\n".join(out)


def setting(option: dict[str, Any], key: str) -> str:
    help_line = option["help"].replace("\n", " ")
    if option["one_of"]:
        help_line += f" [{' or '.join(option['one_of'])}]"
    default = option["default"] or option["value"]
    if key == "data":
        help_line, default = f"{help_line}. The unit gives it, so this line changes nothing", "/var/lib/totxegun"
    text = textwrap.fill(help_line, 110, initial_indent="# ", subsequent_indent="# ", break_long_words=False, break_on_hyphens=False)
    return f"{text}\n#{key} = {in_toml(default, option['list'])}\n"


def in_toml(value: str | None, is_list: bool) -> str:
    if value is None:
        return "false"
    if is_list:
        return json.dumps(value.split(","))
    return value if value.isdecimal() else json.dumps(value)


# --------------------------------------------------------------------------------------------------------------------
# The manual page


def in_mdoc(text: str) -> str:
    """Text in mdoc: one sentence for each line, no line too long, and nothing that mdoc would take for a macro."""
    text = text.replace("\\", "\\e").replace("\n", " ")
    text = re.sub(r"`([^`]*)`", r"\\(oq\1\\(cq", text)
    text = re.sub(r"(?<!\w)--(?=\w)", r"\\-\\-", text)
    lines: list[str] = []
    for sentence in SENTENCE.split(text.strip()):
        lines += textwrap.wrap(sentence, WIDTH, break_long_words=False, break_on_hyphens=False)
    return "\n".join(f"\\&{line}" if line[:1] in ".'" else line for line in lines)


def with_point(text: str) -> str:
    return text if not text or text.endswith((".", "]")) else f"{text}."


def tag(option: dict[str, Any]) -> str:
    """An option as one types it, for the line `.It`."""
    value = f" Ar {quoted(option['value'])}" if option["value"] else ""
    return f"Fl -{option['long']}{value}" if option["long"] else value.strip()


def quoted(word: str) -> str:
    return f'"{word}"' if re.search(r"[\s:]", word) else word


def item(option: dict[str, Any], more: str = "") -> str:
    """An option with its help and its default."""
    default = f" The default is {option['default']}." if option["default"] else ""
    one_of = f" It is {' or '.join(option['one_of'])}." if option["one_of"] else ""
    text = in_mdoc(with_point(option["help"]) + one_of + default)
    lines = [f".It {tag(option)}", *([text] if text else [])]
    if option["variable"]:
        lines += [f".Pq Ev {option['variable']}"]
    if more:
        lines += [".br", in_mdoc(more)]
    return "\n".join(lines)


def lines_of(command: dict[str, Any], before: tuple[str, ...] = ()) -> list[Command]:
    """A command, or the commands below it, each with its names."""
    if command["commands"]:
        return [it for below in command["commands"] for it in lines_of(below, (*before, command["name"]))]
    return [((*before, command["name"]), command)]


def all_commands(line: dict[str, Any]) -> list[Command]:
    return [it for command in line["commands"] for it in lines_of(command)]


def synopsis(line: dict[str, Any]) -> str:
    out = []
    for names, command in all_commands(line):
        if names != ("serve",):
            out += [".Nm", f".Cm {' '.join(names)}", *(f".{word}" for word in synopsis_words(command))]
    return "\n".join(out)


def synopsis_words(command: dict[str, Any]) -> list[str]:
    return [tag(option) if option["required"] else f"Op {tag(option)}" for option in command["options"]]


def shared(line: dict[str, Any]) -> list[dict[str, Any]]:
    """The options that several commands have in the same form, which the page describes once."""
    lists = [command["options"] for names, command in all_commands(line) if names != ("serve",)]
    found: dict[str, dict[str, Any]] = {}
    for option in (option for options in lists for option in options):
        if option["long"] and sum(option in options for options in lists) > 1:
            found.setdefault(option["long"], option)
    return list(found.values())


def commands(line: dict[str, Any]) -> str:
    out = []
    those = shared(line)
    for names, command in all_commands(line):
        own = [option for option in command["options"] if option not in those]
        out += [f".It Cm {' '.join(names)}", in_mdoc(with_point(command["about"]))]
        if names != ("serve",) and any(option["help"] for option in own):
            out += [".Bl -tag -width Ds", *map(item, own), ".El"]
    return "\n".join(out)


def headed(serve: dict[str, Any], texts: dict[str, Any]) -> str:
    """The sections of the options that have a heading."""
    out = []
    headings = dict.fromkeys(option["heading"] for option in serve["options"] if option["heading"])
    for heading in headings:
        those = [option for option in serve["options"] if option["heading"] == heading]
        out += [f".Ss {heading}", ".Bl -tag -width Ds", *(with_costs(it, texts) for it in those), ".El"]
    return "\n".join(out)


def with_costs(option: dict[str, Any], texts: dict[str, Any]) -> str:
    return item(option, texts.get(option["long"], {}).get("costs", ""))


def pages(line: dict[str, Any], serve: dict[str, Any], texts: dict[str, Any], places: dict[str, str]) -> dict[str, str]:
    """Each manual page by its name."""
    plain = [option for option in serve["options"] if not option["heading"]]
    number, day = version()
    year, month, date = day.split("-")
    parts = {
        **places,
        "VERSION": number,
        "DATE": f"{MONTHS[int(month) - 1]} {int(date)}, {year}",
        "SYNOPSIS": synopsis(line),
        "COMMANDS": commands(line),
        "SHARED": "\n".join(map(item, shared(line))),
        "OPTIONS": "\n".join(with_costs(option, texts) for option in plain),
        "HEADED": headed(serve, texts),
    }
    made = {}
    for name in sorted(os.listdir(MAN)):
        with open(f"{MAN}/{name}", encoding="utf-8") as file:
            text = file.read()
        for part, its in parts.items():
            text = text.replace(f"@{part}@", its)
        left = re.search(r"@[A-Z]+@", text)
        if left:
            raise Wrong(f"packaging/man/{name}: nothing stands for {left[0]}")
        made[name.removesuffix(".in")] = text
    return made


def main(words: list[str]) -> int:
    if len(words) != 2 or not os.access(words[0], os.X_OK):
        sys.exit(f"usage: {sys.argv[0]} TOTXEGUN FOLDER")
    program, folder = os.path.abspath(words[0]), words[1]
    places = {"PREFIX": os.environ.get("PREFIX", "/usr/local"), "SYSCONFDIR": os.environ.get("SYSCONFDIR", "/etc")}
    try:
        line = definition(program)
        serve = next(it for it in line["commands"] if it["name"] == "serve")
        texts = hand_written(serve)
        files = pages(line, serve, texts, places)
    except Wrong as why:
        sys.exit(f"tools/pages.py: {why}")
    files["totxegun.toml"] = settings(serve, places)
    files["totxegun.bash"] = printed(program, "completion")
    files["_totxegun"] = printed(program, "zsh")
    files["totxegun.fish"] = printed(program, "fish")
    os.makedirs(folder, exist_ok=True)
    for name, text in files.items():
        with open(f"{folder}/{name}", "w", encoding="utf-8") as file:
            file.write(text.rstrip("\n") + "\n")
    return 0


if __name__ == "__main__":
    sys.exit(main(sys.argv[1:]))
