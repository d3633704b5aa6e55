#!/usr/bin/python3
"""Makes the manual pages and the shell completions from the programs' help, the C header and two documents.

    tools/dist/pages.py PSOTF PSFONT OUT
    tools/dist/pages.py OUT

PSOTF and PSFONT are the programs; without them only the manual page of the header is made. OUT is the folder for man/ and the completions, laid out like share/. psotf(1) is made from the --help
of each subcommand. psfont(1) is made from its usage, the table of its lines in docs/psfont.md, and the table of errors in docs/errors.md.
postscript.h(3) is made from bindings/c/postscript.h. The exit statuses and files are described in this script.
"""

import os
import pathlib
import re
import subprocess
import sys
import time
from typing import NamedTuple

TOP = pathlib.Path(__file__).resolve().parents[2]
VERSION = (TOP / "VERSION").read_text().strip()
DATE = time.strftime("%Y-%m-%d", time.gmtime(int(os.environ.get("SOURCE_DATE_EPOCH", "0"))))

#: names of option values that are paths; all others are text or numbers, which are not completed
FILES = {"FILE", "OUT", "PATH"}


class Option(NamedTuple):
    short: str
    long: str
    value: str
    help: str

    def names(self):
        return [name for name in (self.short, self.long) if name]


class Command(NamedTuple):
    name: str
    about: str
    usage: str
    words: list
    options: list


def asked(program, *words):
    return subprocess.run([program, *words], capture_output=True, text=True, check=False)


def sections_of(text):
    """Returns the sections of a help text by heading. The first one has none."""
    sections, heading = {"": []}, ""
    for line in text.splitlines():
        found = re.fullmatch(r"(Usage|Commands|Arguments|Options|Examples):(.*)", line)
        if found:
            heading = found[1]
            sections[heading] = [found[2].strip()] if found[2].strip() else []
        elif line.strip():
            sections[heading].append(line)
    return sections


def option_of(line):
    found = re.fullmatch(r" +(?:(-\w))?(?:, )?(?:(--[\w-]+))?(?: <(\w+)>)? {2,}(.*)", line)
    assert found and (found[1] or found[2]), f"no option: {line!r}"
    return Option(found[1] or "", found[2] or "", found[3] or "", found[4])


def word_of(line):
    found = re.fullmatch(r" +[<\[]?(\w+)[>\]]?(?:\.\.\.)? {2,}(.*)", line)
    assert found, f"no word: {line!r}"
    return found[1], found[2]


def command_of(program, name, about):
    """Returns a subcommand, from its own help."""
    told = sections_of(asked(program, name, "--help").stdout)
    assert told[""] == [about], (name, told[""], about)
    return Command(
        name,
        about,
        re.sub(r"^\S+ \S+ ?", "", told["Usage"][0]),
        [word_of(line) for line in told.get("Arguments", [])],
        [option_of(line) for line in told["Options"]],
    )


# --- manual pages -----------------------------------------------------------------------------------------------------


def quoted(text):
    """Quotes a text for troff."""
    text = text.replace("\\", "\\e").replace("-", "\\-").replace("^", "\\(ha").replace("~", "\\(ti").replace("`", "\\(ga")
    return re.sub(r"^([.'])", r"\\&\1", text, flags=re.M)


def bold(text):
    return rf"\fB{quoted(text)}\fR"


def title(name, section, manual):
    return f'.TH {name.upper()} {section} "{DATE}" "postscript\\-proved {VERSION}" "{manual}"\n'


def spelled(usage):
    """Formats a usage line, with values in italics and options in bold."""
    return re.sub(r"<(\w+)>|(--?[\w-]+)", lambda m: rf"\fI{m[1]}\fR" if m[1] else bold(m[2]), usage).replace("OPTIONS", "options")


def option_lines(option):
    names = ", ".join(bold(name) for name in option.names())
    value = rf" \fI{option.value}\fR" if option.value else ""
    return f".TP\n{names}{value}\n{quoted(option.help)}.\n"


def psotf_page(program, commands, options, told):
    about = told[""][0]
    page = title("psotf", 1, "User Commands")
    page += f".SH NAME\npsotf \\- {quoted(about[0].lower() + about[1:])}\n.SH SYNOPSIS\n"
    for command in commands:
        page += f".B psotf {command.name}\n{spelled(command.usage)}\n.br\n"
    page += rf".B psotf {bold('help')} " + "[\\fIcommand\\fR]\n.br\n"
    page += f".B psotf\n{' | '.join(bold(option.long) for option in options)}\n"
    page += ".SH DESCRIPTION\n" + quoted(PSOTF) + ".SH COMMANDS\n"
    for command in commands:
        page += f".SS psotf {command.name}\n{quoted(command.about)}.\n"
        for word, help_ in command.words:
            page += f".TP\n\\fI{word}\\fR\n{quoted(help_)}.\n"
        page += "".join(option_lines(option) for option in command.options)
    page += ".SS psotf help\nPrint the help of a command.\n.SH OPTIONS\n" + "".join(option_lines(option) for option in options)
    page += ".SH EXIT STATUS\n" + "".join(f".TP\n.B {status}\n{quoted(what)}\n" for status, what in STATUSES["psotf"])
    page += ".SH FILES\n" + quoted(PSOTF_FILES)
    page += ".SH EXAMPLES\n.nf\n" + "".join(quoted(line.strip()) + "\n" for line in told["Examples"]) + ".fi\n"
    return page + ".SH SEE ALSO\n.BR psfont (1),\n.BR postscript.h (3)\n"


def psfont_page(program):
    usage = asked(program, "--help").stderr.strip()
    words = re.fullmatch(r"usage: psfont \[(.*)\]", usage)
    assert words, usage
    page = title("psfont", 1, "User Commands")
    page += ".SH NAME\npsfont \\- run Type 2 charstrings and read CFF tables, line by line\n.SH SYNOPSIS\n.B psfont\n"
    for word in words[1].split(" | "):
        name, value = word.split()
        page += f".br\n.B psfont {name}\n\\fI{value}\\fR\n"
    page += f".br\n.B psfont {quoted('--limit')}\n\\fIN\\fR\n"
    page += ".SH DESCRIPTION\n" + quoted(PSFONT) + ".SH LINES\n"
    rows = (TOP / "docs" / "psfont.md").read_text().split("# The lines of `psfont`", 1)[1].split("\n#", 1)[0]
    for line, answer in re.findall(r"^\| (`.*?) \| (.*) \|$", rows, flags=re.M):
        page += f".TP\n{bold(line.replace('`', ''))}\n{quoted(answer.replace('`', ''))}.\n"
    page += ".SH OPTIONS\n.TP\n" + f".B {quoted('--limit')} \\fIN\\fR\n"
    page += quoted("Allow each run N units. If a run or flat code costs more, the answer is one line with the code and N, and psfont goes on.") + "\n"
    page += ".SH FAULTS\n"
    errors = (TOP / "docs" / "errors.md").read_text()
    for number, name, cause in re.findall(r"^\| (\d+) \| `(\w+)` \| (.*) \|$", errors, flags=re.M):
        page += f".TP\n.B {number} {name}\n{quoted(cause.replace('`', ''))}.\n"
    page += ".SH EXIT STATUS\n" + "".join(f".TP\n.B {status}\n{quoted(what)}\n" for status, what in STATUSES["psfont"])
    page += ".SH FILES\nPATH is a file with the bytes of a CFF table.\n"
    page += ".SH EXAMPLES\n.nf\n" + quoted("printf 'code 8e8c8d150e\\nrun\\n' | psfont\npsfont font Table.cff\n") + ".fi\n"
    return page + ".SH SEE ALSO\n.BR psotf (1),\n.BR postscript.h (3)\n"


def comment_of(text):
    """Splits a comment into paragraphs. Each item of a list is one."""
    lines = [re.sub(r"^ ?\*? ?", "", line) for line in text.strip().splitlines()]
    paragraphs = [""]
    for line in lines:
        if not line.strip() or line.startswith("  - "):
            paragraphs.append("")
        paragraphs[-1] += " " + line.strip()
    return [paragraph.strip() for paragraph in paragraphs if paragraph.strip()]


def prose(paragraphs):
    text = ""
    for paragraph in paragraphs:
        item = paragraph.startswith("- ")
        text += (".IP \\(bu 2\n" if item else ".PP\n") + quoted(paragraph[2:] if item else paragraph) + "\n"
    return text


def header_page():
    header = (TOP / "bindings" / "c" / "postscript.h").read_text()
    head = re.match(r"/\* (.*?)\*/", header, flags=re.S)
    paragraphs = comment_of(head[1])
    blocks = re.findall(r"^/\* ((?:(?!\*/).)*?) ?\*/\n((?:#define|enum|typedef|\w+_t )(?:.*?))(?=\n\n)", header, flags=re.M | re.S)
    functions = [(c, d) for c, d in blocks if re.match(r"\w+_t psf_\w+\(", d)]
    others = [(c, d) for c, d in blocks if not re.match(r"\w+_t psf_\w+\(", d)]
    assert len(functions) == len(re.findall(r"^\w+_t psf_\w+\(", header, flags=re.M))
    page = title("postscript.h", 3, "Library Functions")
    name, rest = paragraphs[0].split(": ", 1)
    page += f".SH NAME\n{name} \\- {quoted(rest.rstrip('.'))}\n.SH SYNOPSIS\n.nf\n.B #include <postscript.h>\n.PP\n"
    for _, declared in functions:
        page += "".join(bold(line) + "\n" for line in declared.splitlines())
    page += ".PP\nLink with " + bold("-lpostscript") + ".\n.fi\n.SH DESCRIPTION\n" + prose(paragraphs[1:]).replace(".PP\n", "", 1)
    page += ".SH TYPES AND NUMBERS\n"
    for comment, declared in others:
        page += prose(comment_of(comment)) + ".PP\n.nf\n" + "".join(quoted(line) + "\n" for line in declared.splitlines()) + ".fi\n"
    page += ".SH FUNCTIONS\n"
    for comment, declared in functions:
        name = re.match(r"\w+_t (psf_\w+)\(", declared)[1]
        page += f".SS {name}\n" + ".nf\n" + "".join(bold(line) + "\n" for line in declared.splitlines()) + ".fi\n" + prose(comment_of(comment))
    page += ".SH RETURN VALUE\n" + quoted(
        "Except for psf_version, each function returns PSF_OK, which is 0, or a status that says why it failed. psf_status_text describes a status.\n"
    )
    page += ".SH FILES\n" + quoted(HEADER_FILES)
    page += ".SH EXAMPLES\n.nf\n" + quoted((TOP / "tools" / "dist" / "example" / "advance.c").read_text()) + ".fi\n"
    return page + ".SH SEE ALSO\n.BR psotf (1)\n"


PSOTF = """\
psotf inspects OpenType fonts with CFF or CFF2 outlines, draws their glyphs with exact coordinates, and writes HTML reports, fonts without
subroutines, fonts with only some glyphs, and static instances of variable fonts. Glyphs and the fonts of a collection are counted from 0.
Coordinates are in font units.
"""
PSOTF_FILES = """\
FILE is an OpenType file (.otf) or a collection (.otc, .ttc). It is only read. psotf writes OUT.part and renames it to OUT, so OUT is complete
or untouched. Reports of more than 10000 glyphs have more pages next to OUT, such as report-10000.html for the page that begins with glyph 10000.
"""
PSFONT = """\
Without arguments psfont reads lines and answers each of them, until the input ends. Bytes are written in hexadecimal. With arguments it
describes the font in a file. font follows Technical Note 5176 strictly, and lenient also accepts a font that lacks a Private DICT or local
subroutines.
"""
STATUSES = {
    "psotf": [
        ("0", "Success. Also if the reader of a pipe has gone."),
        ("1", "A file or a glyph has an error, or a file cannot be read or written. A line on standard error gives the cause."),
        ("2", "Wrong arguments, or an axis or instance that the font does not have."),
    ],
    "psfont": [
        ("0", "Success: each line is answered, or the font in the file is described."),
        ("1", "The file contains no font, or reading or writing failed. Standard error has the line psfont: fault N."),
        ("2", "Wrong arguments."),
    ],
}
HEADER_FILES = """\
postscript.h, libpostscript.a and libpostscript.so.0, postscript.pc for pkg-config, postscriptConfig.cmake for CMake's find_package.
"""


# --- completions ------------------------------------------------------------------------------------------------------


def words_of(options):
    return " ".join(name for option in options for name in option.names())


def bash(commands, options):
    names = " ".join([command.name for command in commands] + ["help"])
    takes_file = sorted({n for c in commands for o in c.options if o.value in FILES for n in o.names()})
    takes_text = sorted({n for c in commands for o in c.options if o.value and o.value not in FILES for n in o.names()})
    arms = "".join(f"        {c.name}) words='{words_of(c.options)}' ;;\n" for c in commands)
    return f"""\
# completions of psotf for bash
_psotf() {{
    local word=${{COMP_WORDS[COMP_CWORD]}} before=${{COMP_WORDS[COMP_CWORD - 1]}} words=
    COMPREPLY=()
    if ((COMP_CWORD == 1)); then
        mapfile -t COMPREPLY < <(compgen -W '{names} {words_of(options)}' -- "$word")
        return
    fi
    case $before in
        {'|'.join(takes_text)}) return ;;
        {'|'.join(takes_file)}) mapfile -t COMPREPLY < <(compgen -f -- "$word"); return ;;
    esac
    case ${{COMP_WORDS[1]}} in
{arms}        help) words='{names}' ;;
    esac
    if [[ $word == -* || ${{COMP_WORDS[1]}} == help ]]; then
        mapfile -t COMPREPLY < <(compgen -W "$words" -- "$word")
    else
        mapfile -t COMPREPLY < <(compgen -f -X '!*.[ot]t[cf]' -- "$word"; compgen -d -S / -- "$word")
        compopt -o nospace 2> /dev/null
    fi
}}
complete -o bashdefault -o default -F _psotf psotf
"""


def zsh(commands, options):
    def said(text):
        return re.sub(r"([\[\]:\\])", r"\\\1", text).replace("'", "'\\''")

    def spec(option):
        value = "" if not option.value else f":{option.value}:" + ("_files" if option.value in FILES else "")
        return " ".join(f"'{name}[{said(option.help)}]{value}'" for name in option.names())

    listed = "\n".join(f"            '{c.name}:{said(c.about)}'" for c in commands)
    arms = "".join(
        f"        {c.name}) _arguments {' '.join(spec(o) for o in c.options)} '1:FILE:_files -g \"*.(otf|otc|ttc|ttf)\"' ;;\n" for c in commands
    )
    return f"""\
#compdef psotf
_psotf() {{
    local context state line
    local -a commands
    _arguments -C {' '.join(spec(o) for o in options)} '1:command:->command' '*::word:->words'
    case $state in
    command)
        commands=(
{listed}
            'help:Print the help of a command'
        )
        _describe command commands
        ;;
    words)
        case $words[1] in
{arms}        help) _values command {' '.join(c.name for c in commands)} ;;
        esac
        ;;
    esac
}}
_psotf "$@"
"""


def fish(commands, options):
    def said(text):
        return "'" + text.replace("\\", "\\\\").replace("'", "\\'") + "'"

    def row(condition, option):
        names = (f" -s {option.short[1:]}" if option.short else "") + (f" -l {option.long[2:]}" if option.long else "")
        value = "" if not option.value else " -r" if option.value in FILES else " -x"
        return f"complete -c psotf -n {said(condition)}{names}{value} -d {said(option.help)}\n"

    text = "# completions of psotf for fish\n"
    for name, about in [(c.name, c.about) for c in commands] + [("help", "Print the help of a command")]:
        text += f"complete -c psotf -f -n __fish_use_subcommand -a {name} -d {said(about)}\n"
    text += "".join(row("__fish_use_subcommand", option) for option in options)
    for command in commands:
        text += "".join(row(f"__fish_seen_subcommand_from {command.name}", option) for option in command.options)
    return text + f"complete -c psotf -f -n '__fish_seen_subcommand_from help' -a '{' '.join(c.name for c in commands)}'\n"


def of_psfont(program):
    """Returns the completions of psfont, from its usage. It has subcommands and no options."""
    words = [word.split()[0] for word in re.search(r"\[(.*)\]", asked(program, "--help").stderr)[1].split(" | ")]
    names = " ".join(words)
    return {
        "bash": "# completions of psfont for bash\n"
        "_psfont() {\n    COMPREPLY=()\n    if ((COMP_CWORD == 1)); then\n"
        f"        mapfile -t COMPREPLY < <(compgen -W '{names}' -- \"${{COMP_WORDS[1]}}\")\n    fi\n}}\n"
        "complete -o bashdefault -o default -F _psfont psfont\n",
        "zsh": f"#compdef psfont\n_arguments '1:command:({names})' '2:PATH:_files'\n",
        "fish": f"# completions of psfont for fish\ncomplete -c psfont -f -n __fish_use_subcommand -a '{names}'\n",
    }


def written(out, pages):
    for place, text in pages.items():
        (out / place).parent.mkdir(parents=True, exist_ok=True)
        (out / place).write_text(text)


def main():
    out = pathlib.Path(sys.argv[-1])
    written(out, {"man/man3/postscript.h.3": header_page()})
    if len(sys.argv) == 2:
        return
    psotf, psfont = sys.argv[1:3]
    told = sections_of(asked(psotf, "--help").stdout)
    options = [option_of(line) for line in told["Options"]]
    named = [word_of(line) for line in told["Commands"]]
    commands = [command_of(psotf, name, about) for name, about in named if name != "help"]
    plain = of_psfont(psfont)
    pages = {
        "man/man1/psotf.1": psotf_page(psotf, commands, options, told),
        "man/man1/psfont.1": psfont_page(psfont),
        "bash-completion/completions/psotf": bash(commands, options),
        "bash-completion/completions/psfont": plain["bash"],
        "zsh/site-functions/_psotf": zsh(commands, options),
        "zsh/site-functions/_psfont": plain["zsh"],
        "fish/vendor_completions.d/psotf.fish": fish(commands, options),
        "fish/vendor_completions.d/psfont.fish": plain["fish"],
    }
    written(out, pages)


if __name__ == "__main__":
    main()
