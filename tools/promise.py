#!/usr/bin/env python3
"""Counts and lists what the promise rests on: the definitions that the top contracts name, and those that these name in turn.

    tools/promise.py                    the number for each top contract, by tiers: what it adds to those before it
    tools/promise.py TIER               the reading list of a tier, 1 for the store: what to read, lowest first, with line numbers
                                        and the comment of each definition
    tools/promise.py CRATE FUNCTION     the reading list of one contract
    tools/promise.py --check            a step of the gate. Checks that docs/PROOFS.md has these numbers and the files of the first
                                        tier; that the tiers have all definitions of each call that README or the list of contracts
                                        in PROOFS names; and that specs/inner has exactly the definitions that no public contract
                                        needs

It follows names and imports and knows no types: it does not follow what a trait's function means, or the fields of types in src/.
Names in src/ (types, constants) and in the toolchain's libraries are counted apart, each once.
"""
from __future__ import annotations

import glob
import itertools
import os
import re
import sys
from collections.abc import Iterable, Iterator, Sequence

from tooling.crates import ROOT, read_crates
from tooling.files import text_of

# The top contracts by tiers: the tier's name, and for each crate the functions, or a file of definitions; no names
# means everything that the crate exports. A reader of a tier has read those before it.
TIERS: Sequence[tuple[str, Sequence[tuple[str, list[str]]]]] = (
    ("the store", (
        ("delta_book", ["specs/Calls", "admit", "undo", "confirm", "take", "settle", "drop_flush", "give_back", "quarantine",
                        "lift", "totals"]),
        ("metric_events", ["striking", "balancing"]),
    )),
    ("texts and messages", (
        ("gate_workers", ["serve_with", "serve_book", "flush_turn", "book_turn"]),
        ("shared_book", ["finish"]),
        ("gateway_serve", ["Backend", "serve_bound"]),
    )),
    ("play, the service's library, and what bodies mean", (
        ("play_script", ["play"]),
        ("book_c", []),
        ("otlp_read", ["read_request_with"]),
        ("json_points", ["read_request_with"]),
        ("otlp_protobuf", ["read_request_with"]),
        ("forward_law", ["forward"]),
    )),
    ("rounds, recovery, and the service's machine", (
        ("metric_events", ["closing", "recovery", "priming", "congruence"]),
        ("service_law", ["counting", "booking", "running"]),
    )),
)
# Contracts of functions that do nothing: each is a law. A crate, and the module with the answers to its goals.
LAWS = (
    ("metric_events", "laws", ["striking", "balancing", "closing", "marking", "limiting", "recovery", "priming", "congruence"]),
    ("service_law", "counting", ["counting"]), ("service_law", "books", ["booking"]), ("service_law", "runs", ["running"]),
)
PROOFS = f"{ROOT}/docs/PROOFS.md"
# Part of the name of each module that the promise does not need.
INNER = ".specs.inner."
NUMBERED = "{definitions:,} definitions, {lines:,} lines in {files} files"
APART = "{types} types and constants of `src/` and {kit} definitions and types of the kit"
# The section of docs/PROOFS.md that says which contract says what, and a call that a text names.
CONTRACTS = "## Which contract says what"
NAMED_CALL = re.compile(r"`(?:\w+::)*(\w+)(?:\(\))?`")
# A file in the reading list of docs/PROOFS.md.
LISTED = re.compile(r"^\d+\. `(\w+/specs/[\w/]+)`", re.MULTILINE)

IMPORT = re.compile(r"^\s*(?:ghost |pub )*use Rattle\.([\w.]+)(?:\.\{([^}]*)\}| as (\w+))?;?$", re.MULTILINE)
DEFINED = re.compile(r"^(?:(?:abbrev|unfoldable|pub|record|data) )*([^\s:({]+)")
DIRECTIVE = re.compile(r"(pub )?(use|mod) ")
# The lines before a definition's code: its comment, and its operator's fixity.
BEFORE = re.compile(r"\s*(--|infix[lr]? )")
# An item at the margin of a file of src/. Methods are inside an `impl`.
ITEM = re.compile(r"^(?P<public>pub )?(?:extern .C. )?(?:(?P<kind>fn|trait) (?P<name>\w+)|impl\b(?P<head>[^{]*)\{)", re.MULTILINE)
METHOD = re.compile(r"^    (?P<public>pub )?fn (?P<name>\w+)", re.MULTILINE)
# The meaning that an implementation gives to a trait's `ghost` item.
MEANT = re.compile(r"^    ghost \w+ [^;]*= [^;]*;$", re.MULTILINE)
# For `impl<L: Round> Drop for Book<L>`: the trait `Drop` and the type `Book`.
IMPLEMENTED = re.compile(r"(?:<.*?> )?(?:(?P<trait>\w+)(?:<.*>)? for )?(?P<type>\w+)")
EXPORT = re.compile(r"^\s*pub (?:mod (\w+);|use [\w:]+?::(?:\{([^}]*)\}|(\w+));|"
                    r"(?:(?:extern .C. )?fn|trait|struct|enum) (\w+))", re.MULTILINE)
# A word of a text with its dotted path, or an operator.
WORD = re.compile(r"[\w']+(?:\.[\w']+)*|[^\w\s'.,;(){}\[\]]+")


# A module and a name in it; and crates with functions.
Named = tuple[str, str]
Tops = Sequence[tuple[str, list[str]]]


class Names:
    """Resolves the names of one file: to a module of the repository, and the name there."""

    def __init__(self, text: str) -> None:
        self.of: dict[str, Named] = {}
        self.modules: dict[str, str] = {}
        for module, names, alias in IMPORT.findall(text):
            for name in filter(None, (it.strip() for it in names.split(","))):
                known, _, renamed = name.partition(" as ")
                for part in parts_of(renamed or known):
                    self.of[part] = (module, known)
            if not names:
                self.modules[alias or module.rpartition(".")[2]] = module

    def meant(self, word: str) -> Named | None:
        """The module and name that an import gives to a word; None if no import does."""
        first, _, rest = word.partition(".")
        if first in self.of:
            return self.of[first]
        if first in self.modules and rest:
            return self.modules[first], rest.partition(".")[0]
        return None


def parts_of(name: str) -> list[str]:
    """The words that a use of the name contains: for an operator, the parts between its placeholders."""
    return [it for it in name.split("◌") if it] if "◌" in name else [name]


class Definition:
    """A definition of specs/, with the comment before it."""

    def __init__(self, file: Specs, line: int, text: str) -> None:
        self.file = file
        self.line = line
        self.lines = text.count("\n") + 1
        self.code = "\n".join(it for it in text.split("\n") if not BEFORE.match(it))
        self.name = DEFINED.match(self.code).group(1)
        before = itertools.takewhile(BEFORE.match, text.split("\n"))
        self.meaning = " ".join(it.strip().lstrip("- ") for it in before if it.lstrip().startswith("--"))


class Specs:
    """A file of specs/ or proofs/."""

    def __init__(self, crate: str, path: str) -> None:
        self.crate = crate
        self.path = path
        self.module = f"{crate}.{os.path.relpath(path, f'{ROOT}/crates/{crate}')[:-5].replace('/', '.')}"
        text = text_of(path)
        self.names = Names(text)
        self.imports = {module for module, _, _ in IMPORT.findall(text)}
        self.definitions: dict[str, Definition] = {}
        line = 1
        for block in text.split("\n\n"):
            code = [it for it in block.split("\n") if it and not BEFORE.match(it)]
            if code and DEFINED.match(code[0]) and not DIRECTIVE.match(code[0]):
                # The split removed the blank line before a definition.
                it = Definition(self, line, block.strip("\n"))
                for part in parts_of(it.name):
                    self.definitions[part] = it
            line += block.count("\n") + 2


def exports(folder: str, module: str) -> set[str]:
    """The names that a module of src/ exports from the crate."""
    path = f"{folder}/{module}.rt"
    found: set[str] = set()
    if os.path.isfile(path):
        for public_module, several, one, item in EXPORT.findall(text_of(path)):
            found |= exports(folder if module == "lib" else f"{folder}/{module}", public_module) if public_module else set()
            found |= {it.strip() for it in several.split(",")} | {one, item}
    return found


def public_contracts(text: str, exported: set[str]) -> Iterator[tuple[str, str]]:
    """Each public function or trait of a file, with the text of its contract."""
    for it in ITEM.finditer(text):
        if it["head"] is None:
            if it["public"] and it["name"] in exported:
                yield it["name"], block(text, it.start()) if it["kind"] == "trait" else signature(text, it.start(), "")
            continue
        of = IMPLEMENTED.match(it["head"].strip())
        # A type's `Model` says how the type is kept, which no user of the crate knows.
        if of["type"] in exported and of["trait"] != "Model":
            inside = block(text, it.start())
            if of["trait"]:
                yield of["type"], "\n".join(MEANT.findall(inside))
            for method in METHOD.finditer(inside):
                if method["public"] or of["trait"]:
                    yield method["name"], signature(inside, method.start(), "    ")


def block(text: str, start: int) -> str:
    """The text of an item up to its closing brace at the margin."""
    end = re.compile(r"^\}|\{\}$", re.MULTILINE).search(text, start)
    return text[start:end.end()]


def signature(text: str, start: int, indent: str) -> str:
    """The text of a function up to its body."""
    end = re.compile(rf"^{indent}\{{|[;{{]$|\{{\}}$", re.MULTILINE).search(text, start)
    return text[start:end.start() if end else None]


class Promise:
    """All files of specs/ by module; also those of proofs/ if they are asked for."""

    def __init__(self, parts: Sequence[str] = ("specs",)) -> None:
        self.crates = list(read_crates())
        self.files: dict[str, Specs] = {}
        for crate, part in itertools.product(self.crates, parts):
            for path in sorted(glob.glob(f"{ROOT}/crates/{crate}/{part}/**/*.antt", recursive=True)):
                file = Specs(crate, path)
                self.files[file.module] = file

    def meant(self, names: Names, word: str, file: Specs | None = None) -> Definition | Named | None:
        """What a word means in a text with these imports: a definition, or the module and name of something elsewhere."""
        if file and word.partition(".")[0] in file.definitions:
            return file.definitions[word.partition(".")[0]]
        meant = names.meant(word)
        module, name = meant or (None, None)
        if module not in self.files:
            return meant
        target = self.files[module]
        for part in parts_of(name):
            if part in target.definitions:
                return target.definitions[part]
        # That file imports the name from a further one.
        return self.meant(target.names, parts_of(name)[0])

    def named(self, names: Names, text: str, file: Specs | None = None) -> set[Definition | Named]:
        """Everything that a text names. An arrow of a `do` step names the operator of its type."""
        found = (self.meant(names, word, file) for word in WORD.findall(text.replace("←", ">>=")))
        return {it for it in found if it}

    def needed(self, names: Names, text: str, file: Specs | None = None) -> set[Definition]:
        """The definitions that a text names."""
        return {it for it in self.named(names, text, file) if isinstance(it, Definition)}

    def apart(self, definitions: Iterable[Definition], tops: Tops) -> tuple[set[Named | str], set[Named | str]]:
        """What these definitions and the contracts of these functions name outside specs/: in src/, and in the toolchain's libraries."""
        found: set[Definition | Named] = set().union(*(self.named(it.file.names, it.code, it.file) for it in definitions))
        for crate, names in tops:
            for function, contract, imports in self.contracts(crate):
                found |= self.named(imports, contract) if function in names else set()
        own: set[Named | str] = set()
        kit: set[Named | str] = set()
        for module, name in (it for it in found if isinstance(it, tuple)):
            # A type counts once, even if several of its variants are named.
            is_type = ".declared." in module and not module.endswith(".TheConstants")
            side = own if module.partition(".")[0] in self.crates else kit
            side.add(module.removesuffix(".TheVariants") if is_type else (module, name))
        return own, kit

    def below(self, definitions: Iterable[Definition]) -> set[Definition]:
        """These definitions and all that they rest on."""
        seen: set[Definition] = set()
        left = list(definitions)
        while left:
            it = left.pop()
            if it not in seen:
                seen.add(it)
                left += self.needed(it.file.names, it.code, it.file)
        return seen

    def contracts(self, crate: str) -> Iterator[tuple[str, str, Names]]:
        """For each public function or trait of a crate: its name, the text of its contract, and the imports of its file."""
        exported = exports(f"{ROOT}/crates/{crate}/src", "lib")
        for path in sorted(glob.glob(f"{ROOT}/crates/{crate}/src/**/*.rt", recursive=True)):
            text = text_of(path)
            names = Names(text)
            for name, contract in public_contracts(text, exported):
                yield name, contract, names

    def of(self, crate: str, name: str) -> set[Definition]:
        """All definitions that a top contract rests on."""
        if name.startswith("specs/"):
            return self.below(self.files[f"{crate}.{name.replace('/', '.')}"].definitions.values())
        roots: set[Definition] = set()
        for function, contract, names in self.contracts(crate):
            if function == name:
                roots |= self.needed(names, contract)
        return self.below(roots)

    def in_order(self, definitions: Iterable[Definition]) -> list[tuple[Specs, list[Definition]]]:
        """Lowest first: by crate; in a crate each file after those that it names; in a file as it stands."""
        wanted: dict[Specs, list[Definition]] = {}
        for it in sorted(definitions, key=lambda it: (self.crates.index(it.file.crate), it.file.module, it.line)):
            wanted.setdefault(it.file, []).append(it)
        seen: set[Specs] = set()
        ordered: list[Specs] = []

        def add(file: Specs) -> None:
            if file in seen:
                return
            seen.add(file)
            lower = {below.file for it in wanted[file] for below in self.needed(file.names, it.code, file) if below.file in wanted}
            for it in sorted(lower, key=lambda it: it.module):
                add(it)
            ordered.append(file)

        for file in wanted:
            add(file)
        return [(file, wanted[file]) for file in ordered]


def number(definitions: set[Definition]) -> dict[str, int]:
    return {"definitions": len(definitions), "lines": sum(it.lines for it in definitions), "files": len({it.file for it in definitions})}


class Tier:
    """What a tier adds to those before it."""

    def __init__(self, promise: Promise, what: str, tops: Tops, before: list[Tier]) -> None:
        self.what = what
        self.tops = [(crate, name, promise.of(crate, name)) for crate, names in tops for name in names]
        known: set[Definition] = set().union(*(it.all for it in before))
        self.all: set[Definition] = set().union(*(found for _, _, found in self.tops)) | known
        self.added = self.all - known
        own, kit = promise.apart(self.all, tops)
        self.own: set[Named | str] = own.union(*(it.own for it in before))
        self.kit: set[Named | str] = kit.union(*(it.kit for it in before))
        self.apart = {
            "types": len(self.own) - (len(before[-1].own) if before else 0), "kit": len(self.kit) - (len(before[-1].kit) if before else 0),
        }


def tiers(promise: Promise) -> list[Tier]:
    found: list[Tier] = []
    for what, tops in TIERS:
        found.append(Tier(promise, what, [(crate, names or all_of(promise, crate)) for crate, names in tops], found))
    return found


def all_of(promise: Promise, crate: str) -> list[str]:
    return list(dict.fromkeys(name for name, _, _ in promise.contracts(crate)))


def not_counted(promise: Promise, all_tiers: list[Tier]) -> Iterator[str]:
    """The calls that README and the list of PROOFS name and that no tier covers completely, one line each."""
    calls: dict[str, list[str]] = {}
    for crate in promise.crates:
        for name in all_of(promise, crate):
            calls.setdefault(name, []).append(crate)
    for page, text in (("README.md", text_of(f"{ROOT}/README.md")), ("docs/PROOFS.md", text_of(PROOFS).partition(CONTRACTS)[2])):
        for name in sorted(calls.keys() & set(NAMED_CALL.findall(text.partition("\n## The laws")[0]))):
            left = {crate: len(promise.of(crate, name) - all_tiers[-1].all) for crate in calls[name]}
            if all(left.values()):
                missing = " or ".join(f"{it} of {crate}" for crate, it in left.items())
                yield f"{page} names {name}, of whose definitions no tier of TIERS has {missing}"


def show_tiers(promise: Promise) -> None:
    all_tiers = tiers(promise)
    for at, tier in enumerate(all_tiers):
        print(f"{at + 1}. {tier.what}")
        for crate, name, found in tier.tops:
            print("   {:<40}{definitions:>6} definitions {lines:>6} lines {files:>4} files".format(f"{crate} {name}", **number(found)))
        print(f"   {'adds' if at else 'together'} {NUMBERED.format(**number(tier.added))}; {APART.format(**tier.apart)}")
    print(f"all together {all_numbers(all_tiers)}")


def all_numbers(all_tiers: list[Tier]) -> str:
    last = all_tiers[-1]
    return f"{NUMBERED.format(**number(last.all))}; they name {APART.format(types=len(last.own), kit=len(last.kit))}"


def show_tier(promise: Promise, at: int) -> str | None:
    all_tiers = tiers(promise)
    if not 1 <= at <= len(all_tiers):
        return f"there are tiers 1 to {len(all_tiers)}"
    tier = all_tiers[at - 1]
    show_list(promise, tier.added)
    print(f"{tier.what}: {NUMBERED.format(**number(tier.added))}; {APART.format(**tier.apart)}")
    return None


def show_contract(promise: Promise, crate: str, name: str) -> str | None:
    found = promise.of(crate, name)
    if not found:
        return f"no public function {name} of {crate} has a contract that names a definition"
    show_list(promise, found)
    print(f"{crate} {name} stands on {NUMBERED.format(**number(found))}")
    return None


def show_list(promise: Promise, found: set[Definition]) -> None:
    for file, definitions in promise.in_order(found):
        print(f"{os.path.relpath(file.path, ROOT)}, {sum(it.lines for it in definitions)} lines")
        for it in definitions:
            print(f"    {it.line}: {it.name}{it.meaning and f': {it.meaning}'}")


def laws() -> set[tuple[str, str]]:
    """The pairs of laws in which the first rests on the second: its proof cites, directly or not, a lemma that proves a
    clause of the second. Only the nearest ones."""
    promise = Promise(("specs", "proofs"))
    clauses: dict[str, set[Definition]] = {}
    reached: dict[str, set[Definition]] = {}
    for crate, module, names in LAWS:
        for name in names:
            answers = promise.files[f"{crate}.proofs.{module}.{name}.Answers"]
            cited = promise.needed(answers.names, "\n".join(it.code for it in answers.definitions.values()))
            clauses[name], reached[name] = {it for it in cited if ".proofs." in it.file.module}, promise.below(cited)
    rests = {(one, other) for one in clauses for other in clauses if one != other and reached[one] & clauses[other]}
    return {(a, c) for a, c in rests if not any((a, b) in rests and (b, c) in rests for b in clauses)}


def public(promise: Promise) -> set[Definition]:
    """All definitions that public contracts need."""
    found: set[Definition] = set()
    for crate in promise.crates:
        for _, contract, names in promise.contracts(crate):
            found |= promise.needed(names, contract)
    return promise.below(found)


def misplaced(promise: Promise) -> Iterator[str]:
    """The definitions that are on the wrong side of specs/inner, one line each."""
    needed = public(promise)
    for module, file in promise.files.items():
        path, is_inner = os.path.relpath(file.path, ROOT), INNER in module
        for it in sorted(set(file.definitions.values()), key=lambda it: it.line):
            if (it in needed) == is_inner:
                yield f"{path}: {it.name} is {'needed by a public contract' if is_inner else 'inner: no public contract needs it'}"
        for imported in sorted(file.imports):
            if INNER in imported and not is_inner:
                yield f"{path}: imports {imported}"


def check(promise: Promise) -> str | None:
    all_tiers, said = tiers(promise), text_of(PROOFS)
    store = all_tiers[0]
    wanted = [f"{NUMBERED.format(**number(store.added))}; {APART.format(**store.apart)}", all_numbers(all_tiers)]
    wrong = [f"docs/PROOFS.md has to say: {it}" for it in wanted if it not in said]
    files = [f"{it.crate}/{it.module.partition('.')[2].replace('.', '/')}" for it, _ in promise.in_order(store.added)]
    if LISTED.findall(said) != files:
        wrong += ["the reading list of docs/PROOFS.md has to have these files, in this order:", *files]
    wrong += [*misplaced(promise), *not_counted(promise, all_tiers)]
    if wrong:
        return "\n".join(wrong)
    print(f"the promise: {wanted[-1]}, as docs/PROOFS.md says; specs/inner has what no public contract needs")
    return None


def main() -> str | None:
    promise, words = Promise(), sys.argv[1:]
    if not words:
        show_tiers(promise)
        return None
    if words == ["--check"]:
        return check(promise)
    if len(words) == 1 and words[0].isdigit():
        return show_tier(promise, int(words[0]))
    if len(words) == 2 and words[0] in promise.crates:
        return show_contract(promise, words[0], words[1])
    return __doc__


if __name__ == "__main__":
    sys.exit(main())
