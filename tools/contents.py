#!/usr/bin/env python3
"""Lists the parts of the program totxegun, each with its version and licence.

    tools/contents.py TOTXEGUN FOLDER

Writes totxegun.spdx.json (SPDX 2.3) and LICENCES.txt (a line for each part) into FOLDER. The parts are the crates that are
compiled into the program, as Cargo resolves them; the toolchain that compiled the proved book; and the shared libraries that the
program loads, by their Debian packages. If a crate gives its licence as a text only, both files have the text.
"""
import hashlib
import json
import os
import re
import subprocess
import sys
from typing import Any

from tooling.crates import ROOT
from tooling.files import text_of
from book import provenance

MANIFEST = f"{ROOT}/service/Cargo.toml"
SYSTEM = "x86_64-unknown-linux-gnu"
# Some manifests write OR as a slash.
SLASH = re.compile(r"\s*/\s*")
# A line of ldd's output, with the path of the library that is loaded.
LOADED = re.compile(r"^\s*(?:\S+ => )?(/\S+) \(0x", re.MULTILINE)
NOT_SAID = "NOASSERTION"


class Part:
    """A part. `licence` is an SPDX expression; if the crate only has a licence text, it is a name for that text, and `text` has it."""

    def __init__(self, name: str, version: str, licence: str, text: str = "", comment: str = "") -> None:
        self.name = name
        self.version = version
        self.licence = licence
        self.text = text
        self.comment = comment

    def reference(self) -> str:
        return "SPDXRef-" + re.sub(r"[^A-Za-z0-9.-]", "-", f"{self.name}-{self.version}")

    def shown(self) -> str:
        return f"{self.name} {self.version}: {self.licence}{f' ({self.comment})' if self.comment else ''}"


def printed(*command: str) -> str:
    return subprocess.run(command, stdout=subprocess.PIPE, text=True, check=True, cwd=ROOT).stdout


def crates() -> list[Part]:
    """The crates that are compiled into the program; crates that only build or test it are left out."""
    words = ["metadata", "--format-version", "1", "--filter-platform", SYSTEM]
    found = json.loads(printed(f"{ROOT}/tools/cargo", *words))
    packages = {it["id"]: it for it in found["packages"]}
    nodes = {it["id"]: it for it in found["resolve"]["nodes"]}
    root = found["resolve"]["root"]
    known, left = {root}, [root]
    while left:
        for below in nodes[left.pop()]["deps"]:
            is_linked = any(kind["kind"] is None for kind in below["dep_kinds"])
            if is_linked and below["pkg"] not in known:
                known.add(below["pkg"])
                left.append(below["pkg"])
    linked = [packages[it] for it in known - {root} if not is_macro(packages[it])]
    return [crate(it) for it in sorted(linked, key=lambda it: (it["name"], it["version"]))]


def is_macro(package: dict[str, Any]) -> bool:
    """Whether a crate runs in the compiler only, so that none of it is in the program."""
    return all("proc-macro" in it["kind"] or "custom-build" in it["kind"] for it in package["targets"])


def crate(package: dict[str, Any]) -> Part:
    name, version, licence = package["name"], package["version"], package["license"]
    if licence:
        return Part(name, version, SLASH.sub(" OR ", licence))
    file = os.path.join(os.path.dirname(package["manifest_path"]), package["license_file"] or "LICENSE")
    return Part(name, version, f"LicenseRef-{name}", text_of(file, "replace"), "its own text")


def book() -> list[Part]:
    """The toolchain that compiled the proved book. The book itself has the program's own licence."""
    toolchain = provenance()["toolchain"].split()[0]
    comment = "the toolchain that compiled the book, whose libraries are in it"
    return [Part("rattle", toolchain, NOT_SAID, comment=comment)]


def libraries(program: str) -> list[Part]:
    """The Debian packages of the shared libraries that the program loads."""
    owners: dict[str, None] = {}
    for file in LOADED.findall(printed("ldd", program)):
        for name in (file, os.path.realpath(file)):
            found = subprocess.run(["dpkg", "-S", name], stdout=subprocess.PIPE, stderr=subprocess.DEVNULL, text=True, check=False)
            if found.returncode == 0:
                owners[found.stdout.partition(": ")[0]] = None
                break
        else:
            sys.exit(f"{sys.argv[0]}: {file} is of no package")
    return [library(it) for it in sorted(owners)]


def library(package: str) -> Part:
    name, version = printed("dpkg-query", "-W", "-f", "${Package} ${Version}", package).split()
    return Part(name, version, NOT_SAID, comment=f"loaded; its licences are in /usr/share/doc/{name}/copyright")


def document(program: str, version: str, parts: list[Part]) -> dict[str, Any]:
    """The SPDX 2.3 document; clause 7 of the standard has the names of its JSON."""
    with open(program, "rb") as file:
        digest = hashlib.file_digest(file, "sha256").hexdigest()
    top = Part("totxegun", version, "Apache-2.0")
    packages = [described(it) for it in (top, *parts)]
    packages[0]["checksums"] = [{"algorithm": "SHA256", "checksumValue": digest}]
    packages[0]["comment"] = "the checksum is that of the program as it was built: a package or an image has it stripped"
    return {
        "spdxVersion": "SPDX-2.3",
        "dataLicense": "CC0-1.0",
        "SPDXID": "SPDXRef-DOCUMENT",
        "name": f"totxegun-{version}",
        "documentNamespace": f"urn:totxegun:{version}:{digest}",
        "creationInfo": {"created": f"{day(version)}T12:00:00Z", "creators": ["Tool: tools/contents.py"]},
        "packages": packages,
        "hasExtractedLicensingInfos": [
            {"licenseId": it.licence, "extractedText": it.text} for it in parts if it.text
        ],
        "relationships": [
            relation("SPDXRef-DOCUMENT", "DESCRIBES", top.reference()),
            *(relation(top.reference(), "DEPENDS_ON", it.reference()) for it in parts),
        ],
    }


def described(part: Part) -> dict[str, Any]:
    known = {
        "SPDXID": part.reference(),
        "name": part.name,
        "versionInfo": part.version,
        "downloadLocation": NOT_SAID,
        "filesAnalyzed": False,
        "licenseConcluded": part.licence,
        "licenseDeclared": part.licence,
        "copyrightText": NOT_SAID,
    }
    return {**known, "comment": part.comment} if part.comment else known


def relation(whose: str, kind: str, which: str) -> dict[str, str]:
    return {"spdxElementId": whose, "relationshipType": kind, "relatedSpdxElement": which}


def day(version: str) -> str:
    """The day of a version, or of the newest version in CHANGELOG.md if it has none. No clock is read, so that the same
    program gives the same bytes."""
    days: dict[str, str] = dict(re.findall(r"^## (\S+), (\S+)", text_of(f"{ROOT}/CHANGELOG.md"), flags=re.MULTILINE))
    return days.get(version) or next(iter(days.values()))


def listed(parts: list[Part]) -> str:
    lines = ["What totxegun is made of, and the licence of each part. Its own is Apache-2.0.", ""]
    lines += [it.shown() for it in parts]
    for it in parts:
        if it.text:
            lines += ["", f"{it.licence}:", "", it.text.rstrip()]
    return "\n".join(lines) + "\n"


def main(words: list[str]) -> None:
    if len(words) != 2:
        sys.exit(f"usage: {sys.argv[0]} TOTXEGUN FOLDER")
    program, folder = words
    version = text_of(f"{ROOT}/VERSION").strip()
    parts = [*crates(), *book(), *libraries(program)]
    with open(f"{folder}/totxegun.spdx.json", "w", encoding="utf-8") as file:
        json.dump(document(program, version, parts), file, indent=1)
    with open(f"{folder}/LICENCES.txt", "w", encoding="utf-8") as file:
        file.write(listed(parts))
    print(f"{len(parts)} parts: {folder}/totxegun.spdx.json, {folder}/LICENCES.txt")


if __name__ == "__main__":
    main(sys.argv[1:])
