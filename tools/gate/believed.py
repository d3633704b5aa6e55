#!/usr/bin/env python3
"""Counts the definitions that a reader of some clauses has to trust: those that the clauses name, and all that these use in turn.

    tools/gate/believed.py CRATE FILE FUNCTION:CLAUSE..
    tools/gate/believed.py

FILE is the source of the functions, relative to the crate's src/. The script prints each file of specs/ that has such definitions, with
their number and their lines, including the comments right above them, and then the sums. Definitions of the toolchain's library and types
of the sources are not counted. Without arguments it prints only the sums, for `FontSet::read`, for `Program::next` with `new`, and for
`Program::flatten`, each by the clauses that use the vocabulary of fonts.
"""
import collections
import os
import re
import sys

CRATES = os.path.join(os.path.dirname(os.path.abspath(__file__)), "..", "..", "crates")
ASKED = [
    ("postscript_compact1", "font_set.rt", ["read:found", "read:only", "read:why"]),
    ("postscript_type2", "program.rt", ["new:meant", "next:next"]),
    ("postscript_type2", "program.rt", ["flatten:faultless", "flatten:meant", "flatten:keeps"]),
]
WORD = re.compile(r"[^\s(){}\[\],;.→]+")
HEAD = re.compile(r"^(?:(?:pub|abbrev|unfoldable|data|record|ruleset) )*([^\s:]+)")


def text_of(path):
    with open(path, encoding="utf-8") as file:
        return file.read()


def imports(text):
    """Returns the origin of each name that a text imports: its module, and its name there."""
    found = {}
    for module, names, alias in re.findall(r"^(?:ghost |pub )?use (\S+?)(?:\.\{([^}]*)\})?(?: as (\S+?))?;?$", text, re.M):
        if alias:
            found[alias] = module, None
        for name in filter(None, (it.strip() for it in names.split(","))):
            there, _, here = name.partition(" as ")
            found[here or there] = module, there
    return found


def file_of(module):
    """Returns the file of specs/ of a module, if the module belongs to the repository."""
    words = module.split(".")
    if len(words) > 3 and words[2] == "specs" and words[3] not in ("declared", "contracts"):
        path = os.path.join(CRATES, words[1], "specs", *words[3:]) + ".antt"
        return os.path.normpath(path) if os.path.isfile(path) else None
    return None


def definitions(path):
    """Returns the lines of each definition of a file, by its own name and by those of its fields or cases."""
    lines, found, above, last = text_of(path).split("\n"), {}, [], None
    for line in lines:
        if line.startswith("--"):
            above, last = above + [line], None
        elif not line.strip():
            above, last = [], None if not line else last
        elif line.startswith((" ", "}", "]", ")")):
            if last is not None:
                last.append(line)
                case = re.match(r"  (?:field )?([^\s:]+) : ", line)
                if case and last[0].find("record ") + last[0].find("data ") > -2:
                    found.setdefault(case[1], last)
        elif not line.startswith(("use ", "pub use ", "pub mod ", "mod ", "infix", "unfolding ")):
            name = HEAD.match(line)[1]
            last = found.setdefault(name, [])
            last += above + [line]
            above = []
    return found


def clause(path, function, wanted):
    """Returns the text of a function's clause."""
    text = text_of(path)
    at = re.search(rf"^\s*(?:pub )?fn {function}\b", text, re.M).start()
    head = re.sub(r"^ *// .*\n", "", text[at : re.search(r"^ *\{$", text[at:], re.M).start() + at], flags=re.M)
    found = re.findall(r"ensures (?:(\w+) )?\{(.*?)\}\s*$(?=\s*ensures|\s*\Z)", head, re.M | re.S)
    return next(body for name, body in found if name == wanted)


def bound(text):
    """Returns the names that a definition binds: in its type, after a λ, or on the left of an equation."""
    groups = re.findall(r"[({]([^(){}:]+) : ", text) + re.findall(r"λ ([^.]*)\.", text)
    groups += re.findall(r"^(?!.* : )[^\s(]+ (.*?) =(?: |$)", text, re.M)
    return {word for group in groups for word in WORD.findall(group) if word[0].islower()}


def believed(crate, file, wanted):
    path = os.path.join(CRATES, crate, "src", file)
    known, told, left = {}, collections.OrderedDict(), []

    def look(text, scope, own):
        for word in sorted({*WORD.findall(text)} - bound(text)):
            if own and word in known[own]:
                left.append((own, word))
            elif word in scope and scope[word][1] and file_of(scope[word][0]):
                left.append((file_of(scope[word][0]), scope[word][1]))

    for it in wanted:
        look(clause(path, *it.split(":")), imports(text_of(path)), None)
    while left:
        there, name = left.pop(0)
        known.setdefault(there, definitions(there))
        lines = known[there].get(name)
        if lines is not None and id(lines) not in told:
            told[id(lines)] = there, len(lines)
            look("\n".join(it for it in lines if not it.startswith("--")), imports(text_of(there)), there)
    return told.values()


def main():
    for crate, file, wanted in [(*sys.argv[1:3], sys.argv[3:])] if len(sys.argv) > 3 else ASKED:
        counts, many = collections.Counter(), collections.Counter()
        for path, lines in believed(crate, file, wanted):
            counts[path] += lines
            many[path] += 1
        if len(sys.argv) > 3:
            for path in counts:
                print(f"{os.path.relpath(path, CRATES)}: {many[path]} definitions, {counts[path]} lines")
        print(f"{crate}/src/{file}, {', '.join(wanted)}: {len(counts)} files, {sum(many.values())} definitions, {sum(counts.values())} lines")


main()
