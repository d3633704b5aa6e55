#!/usr/bin/env python3
"""Prints docs/API.md, the page of the library's public items, from the sources.

    tools/gate/api.py > docs/API.md
    tools/gate/api.py --check
    tools/gate/api.py --unsaid [CRATE..]

The first command prints the page. The second compares docs/API.md with that page. It also checks that each block of Rattle in the documents
of QUOTING is in a source, line for line. It prints the differences, and its status is 1 if there are any. The third lists each public
`ensures` clause that has no one-line comment, `//`, right above it, or one of more than 100 columns. Its status is 1 if there are any.

A public item is one that a user can name, from the root of a crate through `pub mod` and `pub use`. Its comment, its signature and its
contract's clauses are copied unchanged. The script relies on the formatter's layout: an item begins and ends at the indentation of its
block. The script stops with a message at anything that it does not understand.
"""
import dataclasses
import difflib
import pathlib
import re
import sys

TOP = pathlib.Path(__file__).resolve().parents[2]
PAGE = TOP / "docs" / "API.md"
CRATES = (
    "postscript",
    "postscript_base",
    "postscript_compact1",
    "postscript_type2",
    "postscript_view",
    "postscript_outline",
    "postscript_drawing",
    "postscript_sfnt",
    "postscript_sfnt_write",
    "postscript_layout",
    "postscript_layout_write",
    "postscript_kern",
    "postscript_vertical",
    "postscript_sequences",
    "postscript_shaping",
    "postscript_variation",
    "postscript_cff2",
    "postscript_variable",
    "postscript_variable_font",
    "postscript_instance",
    "postscript_instance_file",
    "postscript_text",
    "postscript_write",
    "postscript_files",
    "postscript_subset",
    "postscript_c",
)
#: modules whose functions other languages call, though no path of Rattle names them
EXPORTS = {("postscript_c", "exports")}
QUOTING = ("docs/recipes.md",)
HEAD = """# The public items

`tools/gate/api.py` prints this page from the sources. To change it, change the comments in the sources and print it again.

Each item has its signature, its comment and the clauses of its contract. `requires` is the caller's obligation. `ensures` holds for every call that
meets it; the line above a clause says it in words. A function that implements a trait's, and has no clauses here, has those of the trait.

A clause is a statement about [definitions](definitions.md). `result` is the result and `x` an argument. `x.now` is the value behind a
reference, `x.old` and `x.new` are that value before and after the call, and `x.entry` is the argument as it was passed. `ensures*` speaks of borrowed results: how the
lender is afterwards.
"""
SHOWN_ATTRIBUTES = ("#[derive", "#[error", "#[must_use", "#[non_exhaustive")
KINDS = ("fn", "struct", "enum", "trait", "type", "const", "static")
ITEM = re.compile(
    r"(?P<pub>pub(?P<within>\([^)]*\))? )?(?:final |unsafe |extern \S+ )*(?P<kind>fn|struct|enum|trait|type|const|static|mod|use|impl)\b(?P<rest>.*)"
)
CLAUSE = re.compile(r"(requires|ensures|decreases)\b\*? *(\w*)")


@dataclasses.dataclass
class Item:
    """An item as written: its comment, its attributes, its lines, and the items in its block."""

    kind: str
    name: str
    public: bool
    doc: list
    attributes: list
    lines: list
    members: list
    crate: str = ""
    anchor: str = ""


@dataclasses.dataclass
class Module:
    """A module: its comment, its items in order, and its modules by name."""

    crate: str
    path: tuple
    above: object
    public: bool
    doc: list
    items: list = dataclasses.field(default_factory=list)
    modules: dict = dataclasses.field(default_factory=dict)

    @property
    def title(self):
        return "::".join((self.crate, *self.path))

    @property
    def anchor(self):
        return ".".join((self.crate, *self.path))


# Reading items.


def indentation(line):
    return len(line) - len(line.lstrip())


def attribute_end(lines, start):
    """Returns the number of the line after the attribute that begins on this line."""
    depth = 0
    for place in range(start, len(lines)):
        depth += lines[place].count("[") - lines[place].count("]")
        if depth == 0:
            return place + 1
    sys.exit(f"an attribute without an end: {lines[start]}")


def item_end(lines, start):
    """Returns the number of the line after the item that begins on this line."""
    indent = indentation(lines[start])
    body = False
    for place in range(start, len(lines)):
        line = lines[place]
        text = line.strip()
        if indentation(line) == indent and text:
            if text.startswith("}") and place > start and not text.endswith("{"):
                return place + 1
            if text.endswith(";") or text.endswith("{}"):
                return place + 1
            body = body or text.endswith("{")
        elif not body and text.endswith(";"):
            return place + 1
    sys.exit(f"an item without an end: {lines[start]}")


def name_of(kind, rest):
    """Returns the name of an item, from the text after the keyword of its kind."""
    if kind in ("use", "impl"):
        return rest.strip()
    found = re.match(r" (\w+)", rest)
    return found.group(1) if found else sys.exit(f"no name: {kind}{rest}")


def read_item(lines, doc, attributes):
    """Returns the item of these lines, or None if it is only for proofs and not shown on the page."""
    text = lines[0].strip()
    if text.startswith("ghost "):
        declared = re.match(r"ghost (\w+):", text)
        return Item("ghost", declared[1], True, doc, attributes, lines, []) if declared else None
    found = ITEM.match(text)
    if not found:
        sys.exit(f"not an item: {lines[0]}")
    kind = found["kind"]
    public = bool(found["pub"]) and not found["within"]
    item = Item(kind, name_of(kind, found["rest"]), public, doc, attributes, lines, [])
    if kind in ("impl", "trait") or kind == "mod" and not text.endswith(";"):
        item.members = [] if text.endswith("{}") else read_items(block_of(lines))[1]
    return item


def block_of(lines):
    """Returns the lines between the braces of an impl, a trait or a module."""
    opened = next(place for place, line in enumerate(lines) if line.endswith("{"))
    return lines[opened + 1 : -1]


def read_items(lines):
    """Returns the comment of a block, and its items."""
    comment, items, doc, attributes = [], [], [], []
    place = 0
    while place < len(lines):
        text = lines[place].strip()
        end = place + 1
        if text.startswith("//!"):
            comment.append(text[3:].removeprefix(" "))
        elif text.startswith("///"):
            doc.append(text[3:].removeprefix(" "))
        elif text.startswith("#"):
            end = attribute_end(lines, place)
            attributes.append(text)
        elif text and not text.startswith("//"):
            end = item_end(lines, place)
            items.append(read_item(lines[place:end], doc, attributes))
            doc, attributes = [], []
        place = end
    return comment, [item for item in items if item]


def read_module(crate, path, above, public, doc, items):
    """Returns the module of these items, with the modules below it."""
    module = Module(crate, path, above, public, doc, items)
    for item in items:
        item.crate = crate
        if item.kind == "mod":
            comment, inner = module_text(crate, path, item)
            shown = item.public or (crate, item.name) in EXPORTS
            module.modules[item.name] = read_module(crate, (*path, item.name), module, shown, comment, inner)
    return module


def module_text(crate, path, item):
    """Returns the comment and the items of a module that is declared here."""
    if not item.lines[0].rstrip().endswith(";"):
        return item.doc, item.members
    return read_file(TOP.joinpath("crates", crate, "src", *path, f"{item.name}.rt"))


def read_file(path):
    return read_items(path.read_text(encoding="utf-8").splitlines())


def read_crate(crate):
    comment, items = read_file(TOP / "crates" / crate / "src" / "lib.rt")
    return read_module(crate, (), None, True, comment, items)


# Resolving names.


def used(text, front=()):
    """Returns the paths that a `use` names, with the names that they get."""
    text = text.strip().rstrip(";").strip()
    if text.endswith("}"):
        head, inner = text[:-1].split("{", 1)
        front = (*front, *[word for word in head.split("::") if word])
        return [one for part in parts_of(inner) for one in used(part, front)]
    path, _, name = text.partition(" as ")
    path = (*front, *path.split("::"))
    return [(path, name or path[-1])]


def parts_of(text):
    """Splits a text at the commas outside of braces."""
    parts, depth, part = [], 0, ""
    for letter in text:
        depth += (letter == "{") - (letter == "}")
        if letter == "," and depth == 0:
            parts.append(part)
            part = ""
        else:
            part += letter
    return [part for part in (*parts, part) if part.strip()]


def text_of_use(item):
    return " ".join(line.strip() for line in item.lines).split("use ", 1)[1]


def find(crates, module, path):
    """Returns the item or module that a path names in a module, or None if it is not in these crates."""
    first, *rest = path
    if first == "crate":
        return below(crates, crates[module.crate], rest)
    if first in ("self", "super"):
        return below(crates, module if first == "self" else module.above, rest)
    if first in crates:
        return below(crates, crates[first], rest)
    return below(crates, module, path)


def below(crates, module, path):
    """Returns the item or module that a path names, starting at a module."""
    if not path:
        return module
    first, *rest = path
    if first in module.modules and (rest or not has_item(module, first)):
        return below(crates, module.modules[first], rest)
    for item in module.items:
        if item.name == first and item.kind in KINDS:
            return item
    for item in module.items:
        if item.kind == "use" and item.public:
            for target, name in used(text_of_use(item)):
                if name == first:
                    found = find(crates, module, target)
                    return below(crates, found, rest) if isinstance(found, Module) else found
    return None


def has_item(module, name):
    return any(item.name == name and item.kind in KINDS for item in module.items)


def modules_below(module):
    """Yields a module and those below it that a user can name, in order."""
    yield module
    for inner in module.modules.values():
        if inner.public:
            yield from modules_below(inner)


def all_items(module):
    """Yields the items of a module and of those below it."""
    yield from module.items
    for inner in module.modules.values():
        yield from all_items(inner)


def entries(crates, module):
    """Yields the items and modules that a module exports, with their names there."""
    for item in module.items:
        if item.public and item.kind in KINDS:
            yield item, item.name
        elif item.public and item.kind == "use":
            for path, name in used(text_of_use(item)):
                found = find(crates, module, path)
                if found is None:
                    sys.exit(f"{module.title}: {'::'.join(path)} is not found")
                yield found, name


def name_homes(crates):
    """Gives each item its anchor on the page: in its own module, or otherwise in the first module that exports it."""
    shown = [module for crate in crates.values() for module in modules_below(crate)]
    for module in shown:
        for item in module.items:
            if item.public and item.kind in KINDS:
                item.anchor = f"{module.anchor}.{item.name}"
    for module in shown:
        for entry, name in entries(crates, module):
            if isinstance(entry, Item) and not entry.anchor and entry.crate == module.crate:
                entry.anchor = f"{module.anchor}.{name}"


# Reading impls.


def without_parameters(text):
    """Returns the text after `<..>` at its beginning."""
    if not text.startswith("<"):
        return text
    depth = 0
    for place, letter in enumerate(text):
        depth += (letter == "<") - (letter == ">" and text[place - 1] != "-")
        if depth == 0:
            return text[place + 1 :].strip()
    return text


def impl_parts(item):
    """Returns the trait of an impl, empty if it has none, and its type."""
    text = re.sub(r" *\{\}?$| where .*", "", without_parameters(item.name))
    trait, between, kind = text.rpartition(" for ")
    return (trait, kind) if between else ("", text)


def plain_name(text):
    """Returns the last name of a path, without parameters."""
    return re.sub(r"<.*", "", text).split("::")[-1]


def impls_of(crates, item):
    """Returns the impls of a type in its crate."""
    impls = [one for one in all_items(crates[item.crate]) if one.kind == "impl"]
    return [one for one in impls if plain_name(impl_parts(one)[1]) == item.name]


def types_with(crates, trait):
    """Returns the types of these crates that implement a trait, as written."""
    impls = [one for crate in crates.values() for one in all_items(crate) if one.kind == "impl"]
    return [impl_parts(one)[1] for one in impls if plain_name(impl_parts(one)[0]) == trait]


# Writing the page.


def dedented(lines):
    least = min((indentation(line) for line in lines if line.strip()), default=0)
    return [line[least:].rstrip() for line in lines]


def code(language, lines):
    return ["", f"```{language}", *lines, "```"]


def signature(item):
    """Returns the lines of a function before its contract and its body."""
    taken = []
    indent = indentation(item.lines[0])
    for line in item.lines:
        text = line.strip()
        if CLAUSE.match(text) or is_remark(line, indent + 4) or indentation(line) == indent and text in ("{", "{}"):
            break
        taken.append(line)
        if indentation(line) == indent and text.endswith(("{", "{}", ";")):
            break
    taken[-1] = re.sub(r" *(\{\}?|;)$", "", taken[-1])
    return dedented(taken)


def contract(item):
    """Returns the lines of the clauses of a function, and the names of its `ensures` clauses."""
    indent = indentation(item.lines[0])
    places = [place for place, line in enumerate(item.lines) if is_clause(line, indent + 4)]
    if not places:
        return [], []
    start, end = places[0], places[-1] + 1
    while is_remark(item.lines[start - 1], indent + 4):
        start -= 1
    while end < len(item.lines) and indentation(item.lines[end]) > indent + 4:
        end += 1
    taken = dedented(item.lines[start:end])
    taken[-1] = taken[-1].removesuffix(";")
    named = [CLAUSE.match(item.lines[place].strip()) for place in places]
    return taken, [found[2] for found in named if found[1] == "ensures" and found[2]]


def is_clause(line, indent):
    return indentation(line) == indent and bool(CLAUSE.match(line.strip()))


def is_remark(line, indent):
    return indentation(line) == indent and line.strip().startswith("// ")


def unsaid(crates):
    """Yields a line for each public `ensures` clause without a one-line comment, or with one that is too long."""
    for crate in crates.values():
        for item, owner in functions_of(crates, crate):
            indent = indentation(item.lines[0]) + 4
            for place, line in enumerate(item.lines):
                if not (is_clause(line, indent) and line.strip().startswith("ensures")):
                    continue
                above = item.lines[place - 1]
                if not is_remark(above, indent) or len(above.rstrip()) > 100 or is_remark(item.lines[place - 2], indent):
                    yield f"{crate.crate}: {owner}{item.name}: {line.strip()[:60]}\n"


def functions_of(crates, crate):
    """Yields the public functions of a crate, those of its modules, traits and types, each with the prefix of its name."""
    for module in modules_below(crate):
        for entry, name in entries(crates, module):
            if not isinstance(entry, Item) or entry.anchor != f"{module.anchor}.{name}":
                continue
            if entry.kind == "fn":
                yield entry, f"{module.title}::"
            elif entry.kind == "trait":
                yield from ((one, f"{entry.name}::") for one in entry.members if one.kind == "fn")
            elif entry.kind in ("struct", "enum"):
                for impl in impls_of(crates, entry):
                    trait = impl_parts(impl)[0]
                    for one in impl.members:
                        if one.kind == "fn" and (one.doc if trait else one.public):
                            yield one, f"{entry.name}::"


def attributes_of(item):
    return [one for one in item.attributes if one.startswith(SHOWN_ATTRIBUTES)]


def constant(item):
    """Returns a constant: unchanged if it has one line, otherwise without its value."""
    lines = dedented(item.lines)
    return lines if len(lines) == 1 else [lines[0].split(" = ")[0] + ";"]


def fields(item):
    """Returns a struct without its private fields, with a line that says so."""
    lines, held, hidden = [item.lines[0]], [], False
    for line in item.lines[1:-1]:
        text = line.strip()
        if text.startswith(("///", "#[")):
            held.append(line)
            continue
        if text.startswith("pub "):
            lines += [*held, line]
        elif indentation(line) == 4 and not text.startswith("ghost "):
            hidden = True
        held = []
    return [*lines, *(["    // and private fields"] if hidden else []), *item.lines[-1:]]


def shape(item):
    """Returns the lines that show an item, without its functions."""
    if item.kind == "fn":
        return signature(item)
    if item.kind in ("const", "static"):
        return constant(item)
    if item.kind == "trait":
        return [*attributes_of(item), signature(item)[0]]
    if item.kind == "struct" and len(item.lines) > 1:
        return [*attributes_of(item), *fields(item)]
    return [*attributes_of(item), *item.lines]


class Page:
    """The lines of the page, and the crates that it describes."""

    def __init__(self, crates):
        self.crates = crates
        self.lines = HEAD.splitlines()
        name_homes(crates)
        self.anchors = {item.anchor for crate in crates.values() for item in all_items(crate) if item.anchor}

    def link(self, found, name):
        return f"[`{name}`](#{found.anchor})" if found.anchor else f"`{name}`"

    def text(self, module, doc):
        """Returns a comment in which names in square brackets are links, if they are on the page."""

        def linked(match):
            path = tuple(match[1].split("::"))
            owner = next((one for one in self.anchors if one.endswith("." + path[0]) and one.startswith(module.crate + ".")), "")
            anchor = ".".join((owner, *path[1:]))
            return f"[`{match[1]}`](#{anchor})" if owner else f"`{match[1]}`"

        return [re.sub(r"\[`([\w:]+)`\](?!\()", linked, line) for line in doc]

    def contents(self):
        """Adds the list of crates and their modules."""
        self.lines.append("")
        for crate in self.crates.values():
            inner = [self.link(module, "::".join(module.path)) for module in modules_below(crate) if module.path]
            self.lines.append(f"- {self.link(crate, crate.crate)}" + (": " if inner else "") + ", ".join(inner))

    def module(self, module):
        mark = "#" * (2 if not module.path else 3)
        self.lines += ["", f'{mark} <a id="{module.anchor}"></a>`{module.title}`', ""]
        self.lines += self.text(module, module.doc)
        own, others = [], []
        for entry, name in entries(self.crates, module):
            home = f"{module.anchor}.{name}"
            (own if entry.anchor == home else others).append((entry, name))
        if own:
            self.lines += ["", "Items: " + ", ".join(self.link(entry, name) for entry, name in own) + "."]
        if others:
            self.lines += ["", "Described elsewhere: " + ", ".join(self.link(entry, name) for entry, name in others) + "."]
        for entry, _ in own:
            self.item(module, entry)

    def item(self, module, item):
        self.lines += ["", f'#### <a id="{item.anchor}"></a>{item.kind} `{item.name}`']
        if item.kind == "fn":
            self.function(module, item)
            return
        self.described(module, item)
        if item.kind == "trait":
            self.trait(module, item)
        if item.kind in ("struct", "enum"):
            self.impls(module, item)

    def described(self, module, item):
        self.lines += code("rust", shape(item))
        if item.doc:
            self.lines += ["", *self.text(module, item.doc)]

    def function(self, module, item):
        """Adds a function: its signature, its comment and its contract."""
        self.described(module, item)
        clauses, names = contract(item)
        if clauses:
            named = ": " + ", ".join(f"`{name}`" for name in names) if names else ""
            self.lines += ["", f"Contract{named}."] if named else ["", "Contract."]
            self.lines += code("text", clauses)

    def member(self, module, owner, item):
        self.lines += ["", f'##### <a id="{owner.anchor}.{item.name}"></a>`{owner.name}::{item.name}`']
        self.function(module, item)

    def trait(self, module, item):
        for member in item.members:
            if member.kind == "fn":
                self.member(module, item, member)
            elif member.kind in ("ghost", "type"):
                self.lines += code("text", dedented(member.lines))
                self.lines += ["", *self.text(module, member.doc)] if member.doc else []
        types = types_with(self.crates, item.name)
        if types:
            self.lines += ["", "Implemented for " + ", ".join(f"`{one}`" for one in types) + "."]

    def impls(self, module, item):
        """Adds the public functions and constants of a type, and the traits that it implements."""
        traits = []
        for one in impls_of(self.crates, item):
            trait = impl_parts(one)[0]
            traits += [trait] if trait else []
            for member in one.members:
                if member.kind == "fn" and (member.doc if trait else member.public):
                    self.member(module, item, member)
                elif member.kind == "const" and member.public:
                    self.lines += code("rust", constant(member)) + ["", *self.text(module, member.doc)]
        if traits:
            self.lines += ["", f"`{item.name}` has the traits " + ", ".join(f"`{one}`" for one in traits) + "."]

    def whole(self):
        self.contents()
        for crate in self.crates.values():
            for module in modules_below(crate):
                self.module(module)
        return "\n".join(self.lines) + "\n"


def blocks_of_no_source():
    """Yields the first lines of the blocks of Rattle in the documents that are in no source."""
    sources = [path.read_text(encoding="utf-8") for path in (TOP / "crates").glob("*/src/**/*.rt")]
    for name in QUOTING:
        text = (TOP / name).read_text(encoding="utf-8")
        for block in re.findall(r"^```rust\n(.*?)^```$", text, re.MULTILINE | re.DOTALL):
            if ("HostRuntime" in block or "Global" in block) and not any(block in source for source in sources):
                yield f"{name}: no source has the block that begins with: {block.split(chr(10))[0]}\n"


def main():
    crates = {crate: read_crate(crate) for crate in CRATES}
    page = Page(crates).whole()
    if sys.argv[1:2] == ["--unsaid"]:
        bare = list(unsaid({name: crate for name, crate in crates.items() if name in (sys.argv[2:] or crates)}))
        sys.stdout.writelines(bare)
        return int(bool(bare))
    if sys.argv[1:] != ["--check"]:
        sys.stdout.write(page)
        return 0
    stands = PAGE.read_text(encoding="utf-8") if PAGE.exists() else ""
    sys.stdout.writelines(difflib.unified_diff(stands.splitlines(True), page.splitlines(True), "docs/API.md", "the sources"))
    unknown = list(blocks_of_no_source())
    sys.stdout.writelines(unknown)
    return int(stands != page or bool(unknown))


if __name__ == "__main__":
    sys.exit(main())
