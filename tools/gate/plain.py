#!/usr/bin/env python3
"""Counts the words and the sentences that make the repository's prose hard to read.

    tools/gate/plain.py [--long]

Prose is: Markdown without code; comments `///`, `//!` and `// ` of crates/*/src and of the Rust binding; the comments of the C header;
the docstrings of the Python module; and the texts of psotf that contain a space. For each corpus the script prints the length of its
sentences, and each word that is more frequent than its aim, per 1,000 words. `--long` lists the sentences of more than 40 words.

The status is 1 if the whole misses an aim, has a sentence of more than 40 words, or has more than 18 words a sentence. It is also 1 if a
handwritten Markdown page has more than 12 kB, or all of them together have more than 180 kB.
"""
import ast
import glob
import os
import re
import sys

TOP = os.path.join(os.path.dirname(os.path.abspath(__file__)), "..", "..")
#: a word, its pattern, and how often it may occur per 1,000 words
AIMS = [
    ("where", r"\bwhere\b", 4),
    ("what + noun", r"\b[Ww]hat (a|an|is|are|it|was|comes|stands|they|each|no|one|the)\b", 3),
    ("refuse", r"\b[Rr]efus\w+\b", 1),
    ("place", r"\b[Pp]laces?\b", 2),
    ("tell", r"\b[Tt](ells?|old|elling)\b", 0.5),
    ("stand", r"\b[Ss](tands?|tood|tanding)\b", 0.2),
    ("that of", r"\b(that|those) of\b|\bthose (that|which)\b|\bthe one (that|which)\b", 1),
    ("answer", r"\b[Aa]nswer(s|ed|ing)?\b", 0.3),
    ("come", r"\bcomes?\b|\bcame (of|to|from|with|along)\b", 0.3),
    ("behind", r"\b[Bb]ehind\b", 0.1),
    ("so many", r"\b(so|as) many\b|\bso much\b", 0.3),
    ("beside", r"\b[Bb]esides?\b", 0.3),
    ("else", r"(?<!or )(?<!anything )(?<!nothing )(?<!anybody )\b[Ee]lse\b(?!\?)", 0.2),
    ("Of .. first", r"(?:(?<=[.;:|] )|^)\s*Of (?!course)|; of ", 0.05),
    ("room", r"\b[Rr]ooms?\b", 0.1),
    ("alone", r"\b[Aa]lone\b", 0.2),
    ("lend", r"\b[Ll](ends?|ent|ending)\b", 0.1),
    ("hand", r"\b[Hh]and(s|ed|ing)?\b(?! computation)", 0.2),
    ("in place of", r"\bin (the )?place of\b|\bin its place\b", 0.05),
    ("anew", r"\b[Aa]new\b", 0.05),
    (";", r";", 3),
]
GENERATED = {"API.md"}
#: the crates with texts of `psotf`
PROGRAM = ("psotf", "psotf_output", "psotf_font", "psotf_drawing")
WORD = re.compile(r"[A-Za-z'’-]+")


def read(path):
    with open(path, encoding="utf-8") as file:
        return file.read()


def of_markdown(text):
    text = re.sub(r"```.*?```", " ", text, flags=re.S)
    text = "\n".join(line for line in text.split("\n") if not line.startswith("    "))
    return re.sub(r"\]\([^)]*\)", "]", re.sub(r"`[^`]*`", "CODE", text))


def of_rust(text):
    """Returns the comments. An empty line separates those that are not on adjacent lines."""
    told, last = [], -1
    for number, line in enumerate(text.split("\n")):
        found = re.match(r"\s*//[/!]?(?: (.*))?$", line)
        if found:
            told += ([""] if number != last + 1 else []) + [found[1] or ""]
            last = number
    return re.sub(r"`[^`]*`", "CODE", "\n".join(told))


def of_header(text):
    text = re.sub(r"\*?\w+\[[^]]*\]", "CODE", text)
    return "\n\n".join(found[0].strip("/* ") for found in re.finditer(r"/\*.*?\*/", text, re.S)).replace("\n *", "\n")


def of_python(text):
    kinds = (ast.Module, ast.ClassDef, ast.FunctionDef)
    told = [ast.get_docstring(node) or "" for node in ast.walk(ast.parse(text)) if isinstance(node, kinds)]
    return re.sub(r"`[^`]*`", "CODE", "\n\n".join([*told, *re.findall(r"#:(.*)", text)]))


def of_texts(text):
    text = re.sub(r"^\s*//.*$", "", text, flags=re.M)
    texts = re.findall(r'"((?:[^"\\]|\\.)*)"', text)
    return "\n\n".join(one for one in texts if " " in one and "\n" not in one and not re.search(r"[<>{;=]\s*$|function|var\(|px", one))


def corpora():
    """Returns the prose, by its source."""
    pages = ["README.md", "CHANGELOG.md", "CONTRIBUTING.md", "SECURITY.md", "tools/README.md"]
    pages += [os.path.relpath(path, TOP) for path in sorted(glob.glob(f"{TOP}/docs/**/*.md", recursive=True))]
    pages += ["bindings/python/README.md", "bindings/rust/README.md", "crates/psfont/README.md"]
    found = {page: of_markdown(read(f"{TOP}/{page}")) for page in pages if os.path.basename(page) not in GENERATED}
    found["postscript.h"] = of_header(read(f"{TOP}/bindings/c/postscript.h"))
    found["Python docstrings"] = of_python(read(f"{TOP}/bindings/python/postscript/__init__.py"))
    found["Rust binding"] = "\n".join(of_rust(read(path)) for path in glob.glob(f"{TOP}/bindings/rust/src/*.rs"))
    for name in sorted(os.listdir(f"{TOP}/crates")):
        sources = glob.glob(f"{TOP}/crates/{name}/src/**/*.rt", recursive=True)
        found[f"crates/{name}"] = "\n\n".join(of_rust(read(path)) for path in sources)
    texts = [path for name in PROGRAM for path in glob.glob(f"{TOP}/crates/{name}/src/**/*.rt", recursive=True) if "/report/" not in path]
    found["texts of psotf"] = "\n\n".join(of_texts(read(path)) for path in texts)
    return found


def sentences(text):
    text = "\n".join(line for line in text.split("\n") if not re.match(r"\s*(\||#)", line))
    return [one for one in re.split(r"(?<=[.!?:])\s+(?=[A-Z`\[C])|\n\s*\n|\n(?=\s*[-*] )", text) if len(one.split()) > 3]


def missed(text):
    """Yields the words that are too frequent in a text: the name, the frequency per 1,000 words, and the aim."""
    words = max(len(WORD.findall(text)), 1)
    for name, pattern, aim in AIMS:
        share = 1000 * len(re.findall(pattern, text, re.M)) / words
        if share > aim and len(re.findall(pattern, text, re.M)) > 1:
            yield name, share, aim


def sizes():
    """Yields the pages that are too long."""
    whole = 0
    for path in glob.glob(f"{TOP}/**/*.md", recursive=True):
        name, size = os.path.relpath(path, TOP), os.path.getsize(path)
        if os.path.basename(path) in GENERATED or "/target/" in path or "/dist/" in path:
            continue
        whole += size
        if size > 12000:
            yield f"{name}: {size} bytes"
    print(f"pages by hand: {whole} bytes")
    if whole > 180000:
        yield f"all pages by hand: {whole} bytes"


def main():
    found = corpora()
    for name, text in found.items():
        lengths = [len(one.split()) for one in sentences(text)]
        told = ", ".join(f"{word} {share:.1f} ({aim})" for word, share, aim in missed(text))
        mean = sum(lengths) / max(len(lengths), 1)
        print(f"{name}: {len(WORD.findall(text))} words, {mean:.1f} a sentence, {sum(one > 40 for one in lengths)} over 40{'; ' + told if told else ''}")
        if "--long" in sys.argv:
            for one in sentences(text):
                if len(one.split()) > 40:
                    print(f"    {len(one.split())}: {' '.join(one.split())[:200]}")
    whole = "\n\n".join(found.values())
    wrong = [f"{word}: {share:.2f} per 1,000 words, aim {aim}" for word, share, aim in missed(whole)]
    lengths = [len(one.split()) for one in sentences(whole)]
    long = sum(one > 40 for one in lengths)
    if long > 0:
        wrong.append(f"{long} sentences of more than 40 words")
    if sum(lengths) / len(lengths) > 18:
        wrong.append(f"{sum(lengths) / len(lengths):.1f} words a sentence, aim 18")
    wrong += sizes()
    print(*(["missed:"] + wrong if wrong else ["all aims are met"]), sep="\n    ")
    return int(bool(wrong))


if __name__ == "__main__":
    sys.exit(main())
