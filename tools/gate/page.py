#!/usr/bin/env python3
"""Prints the script and the style sheet of the page of `psotf report` into the source files of crates/psotf_page.

    tools/gate/page.py [--check]
    tools/gate/page.py --lint

The page's script is in crates/psotf_page/page/*.js, its style sheet in style.css. Rattle has no `include_str!`, so src/script/*.rt and
src/style.rt contain these texts as constants. Change the .js and .css files, and run the script. With --check it writes nothing; it names
each source file that differs, and the exit status is 1 if there is one. The first line of each .js file, after `//!`, is the
comment of the source file; the second, after `///`, is that of the constant.

With --lint, node (Debian's nodejs) parses the script as the page has it, and tsc (Debian's node-typescript) looks for unknown names,
wrong types and unused variables.
"""

import pathlib
import re
import subprocess
import sys
import tempfile

TOP = pathlib.Path(__file__).resolve().parents[2]
CRATE = TOP / "crates" / "psotf_page"
PAGE = CRATE / "page"
SCRIPT = re.compile(r"//! ([^\n]*)\n/// ([^\n]*)\n\n(.*)", re.DOTALL)
STYLE = '''//! The style sheet of the page.

/// The style sheet. It follows the system's dark or light mode, and supports printing.
const STYLE: &str = r##"
{}"##;

/// Returns the style sheet. Only this function has the text in its proof.
pub fn style() -> &'static str {{
    STYLE
}}
'''
CHECKS = ["--noEmit", "--allowJs", "--checkJs", "--noUnusedLocals", "--noUnusedParameters", "--target", "es2021", "--lib", "es2021,dom,dom.iterable"]


def parts():
    """Returns the names of the parts of the script, in their order in the page."""
    text = (CRATE / "src" / "script.rt").read_text()
    return re.search(r"\[([A-Z, ]*)\]\n", text).group(1).lower().split(", ")


def text_of(name):
    """Returns a text of the page, which must not end the constant."""
    text = (PAGE / name).read_text()
    if '"##' in text:
        sys.exit(f'page.py: {name} contains "##, which ends the constant')
    return text


def source_of(part):
    """Returns the source file with a part of the script."""
    found = SCRIPT.fullmatch(text_of(f"{part}.js"))
    if not found:
        sys.exit(f"page.py: {part}.js does not begin with the two comments")
    about, constant, text = found.groups()
    return f'//! {about}\n\n/// {constant}\npub const {part.upper()}: &str = r##"\n{text}"##;\n'


def sources():
    """Returns each source file with its content."""
    files = {CRATE / "src" / "script" / f"{part}.rt": source_of(part) for part in parts()}
    files[CRATE / "src" / "style.rt"] = STYLE.format(text_of("style.css"))
    return files


def lint():
    """Returns the exit status of the linters."""
    files = [PAGE / f"{part}.js" for part in parts()]
    with tempfile.NamedTemporaryFile(suffix=".js") as whole:
        whole.write(b"".join(file.read_bytes() for file in files))
        whole.flush()
        parsed = subprocess.run(["node", "--check", whole.name], check=False).returncode
    return parsed or subprocess.run(["tsc", *CHECKS, *files], check=False).returncode


def main(words):
    if words == ["--lint"]:
        return lint()
    if words not in ([], ["--check"]):
        sys.exit(__doc__)
    changed = {path: content for path, content in sources().items() if path.read_text() != content}
    for path, content in changed.items():
        print(path.relative_to(TOP))
        if not words:
            path.write_text(content)
    return 1 if words and changed else 0


if __name__ == "__main__":
    sys.exit(main(sys.argv[1:]))
