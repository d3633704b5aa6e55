#!/usr/bin/python3
"""Prints a bill of materials of a release in SPDX 2.3, as JSON: the library and the programs, the crates that they are compiled from, with
a checksum of the sources of each, the heap of the library for aarch64, the crates of the toolchain, the toolchain itself, and the C
compilers.

    tools/dist/sbom.py > SBOM.spdx.json
    tools/dist/sbom.py --sources CRATE

The second command prints only the checksum of a crate's sources.
The date and the commit are those of the checkout, so two runs on one commit print the same text. Needs `rt` on the path.
"""

import datetime
import hashlib
import json
import pathlib
import subprocess
import sys

TOP = pathlib.Path(__file__).resolve().parents[2]
NAME = "postscript-proved"
MADE = ("postscript_c", "psotf", "psfont")
#: they link the shared libraries, and the second one compiles heap.c
COMPILERS = ("gcc", "aarch64-linux-gnu-gcc")


def printed(*words):
    return subprocess.run(words, cwd=TOP, capture_output=True, text=True, check=True).stdout.strip()


def uses():
    """Returns the words after the colon of each crate in crates.txt."""
    lines = [line.partition(":") for line in (TOP / "crates.txt").read_text().splitlines() if line and not line.startswith("#")]
    return {head.split()[0]: tail.split() for head, _, tail in lines}


def below(names, crates):
    """Returns the names, and all that these use."""
    found = []
    for name in names:
        found += [name, *below(crates.get(name, []), crates)]
    return sorted({*found})


def checksum(crate):
    """Returns the SHA-256 of the names and bytes of a crate's sources, definitions and proofs, in the order of their names."""
    summed = hashlib.sha256()
    for path in sorted(path for part in ("src", "specs", "proofs") for path in (TOP / "crates" / crate / part).rglob("*") if path.is_file()):
        summed.update(str(path.relative_to(TOP)).encode() + b"\0" + path.read_bytes())
    return summed.hexdigest()


def package(name, version, **more):
    return {
        "SPDXID": f"SPDXRef-{name.replace('_', '-')}", "name": name, "versionInfo": version, "downloadLocation": "NOASSERTION",
        "copyrightText": "NOASSERTION", "licenseConcluded": "NOASSERTION", **more,
    }  # fmt: skip


def relation(one, kind, other):
    one, other = one.replace("_", "-"), other.replace("_", "-")
    return {"spdxElementId": f"SPDXRef-{one}", "relationshipType": kind, "relatedSpdxElement": f"SPDXRef-{other}"}


def main():
    version, kit, commit = (TOP / "VERSION").read_text().strip(), printed("rt", "version"), printed("git", "rev-parse", "HEAD")
    date = datetime.datetime.fromtimestamp(int(printed("git", "log", "-1", "--format=%ct")), datetime.timezone.utc)
    crates = uses()
    all_of_them = below(MADE, crates)
    own, others = [it for it in all_of_them if it in crates], [it for it in all_of_them if it not in crates]
    licence = {"licenseDeclared": "MIT OR Apache-2.0"}
    packages = [package(NAME, version, **licence, sourceInfo=f"commit {commit}")]
    packages += [package(it, version, **licence, checksums=[{"algorithm": "SHA256", "checksumValue": checksum(it)}]) for it in own]
    packages += [package(it, kit, licenseDeclared="NOASSERTION", comment="a crate of the Rattle toolchain") for it in others]
    packages.append(package("rattle-toolchain", kit, licenseDeclared="NOASSERTION"))
    heap = {"algorithm": "SHA256", "checksumValue": hashlib.sha256((TOP / "bindings/c/heap.c").read_bytes()).hexdigest()}
    packages.append(package("heap.c", version, **licence, checksums=[heap], comment="compiled into the library for aarch64; not proved"))
    packages += [package(it, printed(it, "--version").splitlines()[0], licenseDeclared="NOASSERTION") for it in COMPILERS]
    relations = [relation("DOCUMENT", "DESCRIBES", NAME), relation("rattle-toolchain", "BUILD_TOOL_OF", NAME)]
    relations += [relation(NAME, "CONTAINS", "heap.c"), *(relation(it, "BUILD_TOOL_OF", NAME) for it in COMPILERS)]
    relations += [relation(NAME, "CONTAINS", it) for it in all_of_them]
    relations += [relation(it, "DEPENDS_ON", used) for it in own for used in crates[it]]
    document = {
        "spdxVersion": "SPDX-2.3", "dataLicense": "CC0-1.0", "SPDXID": "SPDXRef-DOCUMENT", "name": f"{NAME}-{version}",
        "documentNamespace": f"https://spdx.org/spdxdocs/{NAME}-{version}-{commit}",
        "creationInfo": {"created": date.strftime("%Y-%m-%dT%H:%M:%SZ"), "creators": ["Tool: tools/dist/sbom.py"]},
        "packages": packages, "relationships": relations,
    }  # fmt: skip
    print(json.dumps(document, indent=1))


if sys.argv[1:2] == ["--sources"]:
    print(checksum(sys.argv[2]))
else:
    main()
