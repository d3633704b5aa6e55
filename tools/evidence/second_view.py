"""A second reader of fonts in place, by the rules of the format (Technical Note 5176).

It was written with the library's definitions in sight, and shares no code with it. `lines_of(table)` returns the lines that the program of
`tools/evidence/view.py` prints for a `CFF ` table with the argument `few`. These are the font, the glyph of each code, and for a few
glyphs the name or CID, the first glyph with it, the Font DICT, the advance and the matrix; or only the error number. Numbers, DICTs and
reals are read by `tools/evidence/second_reader.py`, and charstrings by `tools/evidence/second_interpreter.py`.

Opening an INDEX reads only its count, its offset size and its last offset. An item between decreasing offsets is empty, and one past the
end is truncated. Errors in charsets, encodings and glyphs do not reject the font. The predefined charsets and encodings are those of
fontTools. It has no Expert encoding, so the codes of fonts that use it are left out on both sides.
"""

from fontTools import cffLib
from fontTools.encodings.StandardEncoding import StandardEncoding

import second_interpreter
from second_reader import Cursor, Refused, lacks, read_dictionary, whole_numbers

WANTING_BYTES, BAD_OFFSET_SIZE, UNKNOWN_CHAR_SET, UNKNOWN_CHAR_STRINGS = 1, 5, 11, 12
PLACE_OUT_OF_RANGE, UNSUPPORTED = 15, 16

CHAR_SET, ENCODING, CHAR_STRINGS, PRIVATE, SUBROUTINES = 0x0F, 0x10, 0x11, 0x12, 0x13
BOX, DEFAULT_WIDTH, NOMINAL_WIDTH = 0x05, 0x14, 0x15
MATRIX, CHAR_STRING_TYPE, REGISTRY, FONT_DICTIONARIES, SELECT = 0x0C07, 0x0C06, 0x0C1E, 0x0C24, 0x0C25

DEFAULT_BOX = [(0, 0)] * 4
DEFAULT_MATRIX = [(1, -3), (0, 0), (0, 0), (1, -3), (0, 0), (0, 0)]
MOST_PHRASES = 20000

STANDARD_STRINGS = [string.encode() for string in cffLib.cffStandardStrings]
PREDEFINED_SETS = [
    [cffLib.cffStandardStrings.index(name) for name in names]
    for names in (cffLib.cffISOAdobeStrings, cffLib.cffIExpertStrings, cffLib.cffExpertSubsetStrings)
]
STANDARD_CODES = {code: cffLib.cffStandardStrings.index(name) for code, name in enumerate(StandardEncoding) if name != ".notdef"}


def number_at(data, place, size):
    """Returns the number of `size` bytes at an offset."""
    return Cursor(data, place).number(size)


class Index:
    """An INDEX in place, and the offset after it."""

    def __init__(self, data, place):
        self.data, self.count, self.next = data, number_at(data, place, 2), place + 2
        if self.count == 0:
            return
        self.size = number_at(data, place + 2, 1)
        if not 1 <= self.size <= 4:
            raise Refused(BAD_OFFSET_SIZE)
        self.offsets = place + 3
        self.before = self.offsets + (self.count + 1) * self.size - 1
        self.next = self.before + number_at(data, self.before + 1 - self.size, self.size)
        if self.next > len(data):
            raise Refused(WANTING_BYTES)

    def place(self, i):
        return self.before + number_at(self.data, self.offsets + i * self.size, self.size)

    def get(self, i):
        return self.data[self.place(i) : self.place(i + 1)] if i < self.count else None

    def items(self):
        return [self.get(i) for i in range(self.count)]


NO_ITEMS = Index(b"\0\0", 0)


def offset_of(operations, code, base=0):
    offset = base + whole_numbers(operations, code, 1)[0]
    if offset < 0:
        raise Refused(PLACE_OUT_OF_RANGE)
    return offset


class Part:
    """A Private DICT and its subroutines, and its Font DICT, if it has one."""

    def __init__(self, data, operations, own):
        self.font_dictionary, self.private, self.subroutines = own, {}, NO_ITEMS
        if lacks(operations, PRIVATE, 2):
            return
        size, offset = whole_numbers(operations, PRIVATE, 2)
        if size < 0 or offset < 0:
            raise Refused(PLACE_OUT_OF_RANGE)
        self.private = read_dictionary(Cursor(data, offset).take(size))
        if not lacks(self.private, SUBROUTINES, 1):
            self.subroutines = Index(data, offset_of(self.private, SUBROUTINES, offset))


class Font:
    """The first font of a table."""

    def __init__(self, data):
        self.data = data
        Cursor(data, 0).take(3)
        names = Index(data, data[2])
        dictionaries = Index(data, names.next)
        self.strings = Index(data, dictionaries.next)
        self.subroutines = Index(data, self.strings.next)
        if dictionaries.count == 0:
            raise Refused(WANTING_BYTES)
        self.operations = read_dictionary(dictionaries.get(0))
        place = offset_of(self.operations, CHAR_STRINGS)
        if whole_numbers(self.operations, CHAR_STRING_TYPE, 1)[0] != 2:
            raise Refused(UNKNOWN_CHAR_STRINGS)
        self.char_strings = Index(data, place)
        self.is_keyed = REGISTRY in self.operations
        self.parts = self.open_parts()

    def open_parts(self):
        if not self.is_keyed:
            return [Part(self.data, self.operations, None)]
        dictionaries = Index(self.data, offset_of(self.operations, FONT_DICTIONARIES))
        own = (read_dictionary(item) for item in dictionaries.items())
        return [Part(self.data, operations, operations) for operations in own]

    def part_of(self, glyph):
        """Returns the index of a glyph's part."""
        if len(self.parts) == 1:
            return 0
        try:
            part = self.selected(offset_of(self.operations, SELECT), glyph)
        except Refused:
            return None
        return part if part is not None and part < len(self.parts) else None

    def selected(self, place, glyph):
        form = number_at(self.data, place, 1)
        if form == 0:
            return Cursor(self.data, place + 1).take(self.char_strings.count)[glyph]
        if form != 3:
            return None
        count = number_at(self.data, place + 1, 2)
        ranges = Cursor(self.data, place + 3).take(3 * count + 2)
        if any(number_at(ranges, 3 * r + 3, 2) < number_at(ranges, 3 * r, 2) for r in range(count)):
            return None
        for r in range(count):
            if number_at(ranges, 3 * r, 2) <= glyph < number_at(ranges, 3 * r + 3, 2):
                return ranges[3 * r + 2]
        return None

    def string(self, identifier):
        if identifier < len(STANDARD_STRINGS):
            return STANDARD_STRINGS[identifier]
        return self.strings.get(identifier - len(STANDARD_STRINGS))

    def identifiers(self):
        """Returns the SID or CID of each glyph that has one."""
        place = offset_of(self.operations, CHAR_SET)
        count = self.char_strings.count
        if place < len(PREDEFINED_SETS):
            return dict(zip(range(count), PREDEFINED_SETS[place]))
        form = number_at(self.data, place, 1)
        if form > 2:
            raise Refused(UNKNOWN_CHAR_SET)
        found = {0: 0} if count else {}
        if form == 0:
            listed = Cursor(self.data, place + 1).take(2 * max(count - 1, 0))
            found.update({i // 2 + 1: number_at(listed, i, 2) for i in range(0, len(listed), 2)})
            return found
        glyph, place = 1, place + 1
        while glyph < count and place + 2 + form <= len(self.data):
            first, more = number_at(self.data, place, 2), number_at(self.data, place + 2, form)
            covered = range(min(more + 1, count - glyph))
            found.update({glyph + i: first + i for i in covered if first + i < 65536})
            glyph, place = glyph + more + 1, place + 2 + form
        return found

    def codes(self, first_glyphs):
        """Returns the glyph of each code, and whether the encoding is Expert."""
        place = offset_of(self.operations, ENCODING)
        count = self.char_strings.count
        if place < 2:
            named = STANDARD_CODES if place == 0 else {}
            return {code: first_glyphs[name] for code, name in named.items() if name in first_glyphs}, place == 1
        form, size = number_at(self.data, place, 1), number_at(self.data, place + 1, 1)
        if form % 128 > 1:
            raise Refused(UNSUPPORTED)
        cursor = Cursor(self.data, place + 2)
        codes, glyph = {}, 1
        for _ in range(size):
            first = cursor.number(1)
            more = cursor.number(1) if form % 128 else 0
            for i in range(more + 1):
                if glyph + i < count and first + i < 256:
                    codes.setdefault(first + i, glyph + i)
            glyph += more + 1
        supplements = {}
        for _ in range(cursor.number(1) if form >= 128 else 0):
            code, name = cursor.number(1), cursor.number(2)
            supplements.setdefault(code, name)
        for code, name in supplements.items():
            codes.pop(code, None)
            if name in first_glyphs:
                codes[code] = first_glyphs[name]
        return codes, False

    def advance(self, part, glyph):
        """Returns the words of an advance, or None if a charstring takes too long here."""
        try:
            meaning = second_interpreter.evaluate(self.char_strings.get(glyph), self.subroutines.items(), part.subroutines.items(), MOST_PHRASES)
        except second_interpreter.TooLong:
            return None
        if meaning.fault is not None:
            return ["fault", str(meaning.fault)]
        word, code = ("default", DEFAULT_WIDTH) if meaning.width_shown is None else ("nominal", NOMINAL_WIDTH)
        operands = part.private.get(code, [(0, 0)])
        if not operands:
            return ["unknown", "0"]
        told = [] if meaning.width_shown is None else ["difference", second_interpreter.shown(meaning.width_shown)]
        return [*decimal(word, operands[0]), *told]

    def glyph_line(self, glyph, identifiers, first_glyphs, first_names):
        words = ["glyph", str(glyph)]
        identifier = identifiers.get(glyph)
        if self.is_keyed and identifier is not None:
            words += ["cid", str(identifier), "first", str(first_glyphs[identifier])]
        elif identifier is not None and self.string(identifier) is not None:
            name = self.string(identifier)
            words += ["name", name.hex(), "first", str(first_names(name))]
        number = self.part_of(glyph)
        if number is None:
            return " ".join([*words, "unknown", "0"])
        part = self.parts[number]
        advance = self.advance(part, glyph)
        words += ["part", str(number), *(["long"] if advance is None else advance)]
        dictionary = self.operations if part.font_dictionary is None else part.font_dictionary
        for operand in dictionary.get(MATRIX, DEFAULT_MATRIX):
            words += decimal("m", operand)
        return " ".join(words)

    def lines(self):
        count = self.char_strings.count
        words = ["keyed", "true" if self.is_keyed else "false", "glyphs", str(count)]
        for operand in self.operations.get(BOX, DEFAULT_BOX):
            words += decimal("b", operand)
        yield " ".join(words)
        try:
            identifiers = self.identifiers()
        except Refused as refusal:
            yield f"no_set {refusal.number}"
            return
        first_glyphs = {identifier: glyph for glyph, identifier in reversed(identifiers.items())}
        names = {}

        def first_names(name):
            if not names:
                names.update({self.string(identifier): glyph for glyph, identifier in reversed(identifiers.items())})
            return names[name]

        yield self.codes_line(first_glyphs)
        for glyph in sorted({glyph for glyph in (0, 1, 2, count // 2, count - 1) if 0 <= glyph < count}):
            yield self.glyph_line(glyph, identifiers, first_glyphs, first_names)

    def codes_line(self, first_glyphs):
        try:
            codes, is_expert = self.codes(first_glyphs)
        except Refused as refusal:
            return f"no_codes {refusal.number}"
        return "expert" if is_expert else " ".join(["codes", *(f"{code}:{codes[code]}" for code in sorted(codes))])


def decimal(word, pair):
    return [word, str(pair[0]), str(pair[1])]


def lines_of(table):
    """Returns the lines of a table as the program prints them, with `expert` for the codes of the Expert encoding."""
    try:
        return list(Font(table).lines())
    except Refused as refusal:
        return [f"refused {refusal.number}"]
