#!/usr/bin/python3
"""Looks up each clause, law, definition, type, file and link that the documents name, and prints missing ones.

    tools/gate/promises.py

The documents are the Markdown pages at the top and in docs/. A table cell names clauses as "clauses `found`, `why` of `FontView::read`,
`read_font`", and laws by their path, as `postscript_view::laws::reads_layout`. Clauses of implementations of traits are not looked up.
The script does not judge whether the text describes a clause correctly. The status is 1 if anything is missing.
"""

import pathlib
import re
import sys

TOP = pathlib.Path(__file__).resolve().parents[2]
TALK = ("CHANGELOG.md", "docs/API.md", "docs/comparison.md")
PAGES = sorted(str(path.relative_to(TOP)) for path in [*TOP.glob("*.md"), *TOP.glob("docs/**/*.md")] if str(path.relative_to(TOP)) not in TALK)
#: names of other software, and of fonts and formats
FOREIGN = {"OSError", "ImportError", "Send", "Sync"}
HEADING = re.compile(r'^#+ <a id="([^"]+)"></a>')
CLAUSE = re.compile(r"^\s*ensures\*? (\w+) \{")
NAME = re.compile(r"`([^`]+)`|\b(of)\b|(;)")


def contracts():
    """Returns the names of the clauses of each item of API.md, by its path."""
    found, item = {}, None
    for line in (TOP / "docs/API.md").read_text(encoding="utf-8").splitlines():
        heading, clause = HEADING.match(line), CLAUSE.match(line)
        if heading:
            item = heading.group(1).split(".")
            found[".".join(item)] = set()
        elif clause and item:
            found[".".join(item)].add(clause.group(1))
    return found


def words():
    """Returns all words of the sources."""
    found = set()
    for kind in ("rt", "antt"):
        for file in (TOP / "crates").glob(f"*/s*/**/*.{kind}"):
            found.update(re.findall(r"\w+", file.read_text(encoding="utf-8")))
    for file in [*(TOP / "bindings").glob("rust/src/*.rs"), *(TOP / "bindings").glob("python/postscript/*.py")]:
        found.update(re.findall(r"\w+", file.read_text(encoding="utf-8")))
    return found


def is_clause(word):
    """Returns whether a word may name a clause: it has no path and begins with a small letter."""
    return re.fullmatch(r"[a-z]\w*", word) is not None


def claims(cell):
    """Yields the clauses that a cell names, and their items, as pairs of lists."""
    for part in cell.split(";"):
        # API.md does not list the clauses of a trait's implementation under the name of the type
        if "clause" not in part or re.search(r"` for `|ghost|premise", part):
            continue
        groups, words = [], []
        for name, of, _ in NAME.findall(part[part.index("clause"):]):
            if of:
                groups.append(words)
                words = []
            else:
                words.append(name)
        groups.append(words)
        clauses = groups[0]
        for i, group in enumerate(groups[1:], 1):
            k = len(group)
            while i < len(groups) - 1 and k > 0 and is_clause(group[k - 1]):
                k -= 1
            yield clauses, group[:k]
            clauses = group[k:]


def items_of(found, name):
    """Returns the paths of the items that a name may mean."""
    end = name.replace("::", ".")
    return [path for path in found if path == end or path.endswith("." + end)]


def laws():
    """Returns the laws of all crates, including those of `postscript_c`, which API.md does not have."""
    files = (TOP / "crates").glob("*/src/**/laws.rt")
    return {name for file in files for name in re.findall(r"^pub fn (\w+)", file.read_text(encoding="utf-8"), re.M)}


def dead_links(page, line):
    """Yields the links and files that a line names and that do not exist."""
    for link in re.findall(r"\]\(([^)#]+)(?:#[^)]*)?\)", line):
        if "://" not in link and not (TOP / page).parent.joinpath(link).exists():
            yield f"the link {link}"
    for path in re.findall(r"`((?:tools|crates|bindings)/[\w./-]+)", line):
        if "NAME" not in path and "build" not in path and not (TOP / path.rstrip("./")).exists():
            yield f"the file {path}"


def missing(found, all_laws, all_words, page, line):
    """Yields everything that a line names and that does not exist."""
    yield from dead_links(page, line)
    for name in re.findall(r"`([A-Z][a-z]\w*(?:::\w+)?)`", line):
        if name not in FOREIGN and not all(word in all_words for word in name.split("::")):
            yield name
    for law in re.findall(r"`(?:\w+::)*laws::(\w+)`", line):
        if law not in all_laws:
            yield f"the law {law}"
    for cell in line.split("|"):
        for clauses, names in claims(cell):
            for name in names:
                paths = items_of(found, name)
                held = set().union(*(found[path] for path in paths)) if paths else set()
                for clause in clauses:
                    if is_clause(clause) and paths and clause not in held:
                        yield f"{clause} of {name}"


def main():
    found, all_laws, all_words, bad = contracts(), laws(), words(), 0
    for page in PAGES:
        for number, line in enumerate((TOP / page).read_text(encoding="utf-8").splitlines(), 1):
            for it in missing(found, all_laws, all_words, page, line):
                print(f"{page}:{number}: {it}")
                bad += 1
    print(f"{bad} missing")
    return bad > 0


if __name__ == "__main__":
    sys.exit(main())
