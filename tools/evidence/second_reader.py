"""A second reader of CFF fonts, written only from the rules of the format.

It shares no code with the library. It reads fonts as lists of bytes, matches reals with a pattern, and uses Python's unbounded integers.
`tools/evidence/changed_fonts.py` gives the same fonts to this reader and to the program `psfont` and compares the two answers line by
line.

`read_font(data, start)` returns `("ok", lines)` with the lines of the summary, or `("fault", number)` with the error number. A seek past
the end succeeds; reading a byte there is an error. With `lenient=True`, Private may have fewer than two operands, or a Private DICT may
have no Subrs. There are then no local subroutines.

To read one font: `python3 tools/evidence/second_reader.py HEX`, or `python3 tools/evidence/second_reader.py lenient HEX`.
"""

import re
import sys

WANTING_BYTES = 1
BAD_OFFSET_SIZE = 5
BAD_INDEX = 6
BAD_NUMBER = 7
NUMBER_OUT_OF_RANGE = 8
UNKNOWN_OPERATOR = 9
BAD_CHAR_SET = 10
UNKNOWN_CHAR_SET = 11
UNKNOWN_CHAR_STRINGS = 12
NOT_A_WHOLE_NUMBER = 13
MISSING_OPERATION = 14
PLACE_OUT_OF_RANGE = 15
UNSUPPORTED = 16

CHAR_SET = 0x0F
ENCODING = 0x10
CHAR_STRINGS = 0x11
PRIVATE = 0x12
SUBROUTINES = 0x13
ESCAPE = 0x0C
CHAR_STRING_TYPE = 0x0C06

OPERATORS = {
    *range(0x00, 0x0C), *range(0x0D, 0x16),
    *range(0x0C00, 0x0C0F), *range(0x0C11, 0x0C18), *range(0x0C1E, 0x0C27),
}

# Reading a font only needs these defaults.
DEFAULTS = {CHAR_SET: [(0, 0)], ENCODING: [(0, 0)], CHAR_STRING_TYPE: [(2, 0)]}

ENCODING_NAMES = {0: "Standard", 1: "Expert"}
CHAR_SET_NAMES = {0: "ISOAdobe", 1: "Expert", 2: "ExpertSubset"}

HIGHEST_PLACE = 2 ** 64 - 1
MANTISSA_BOUND = 10 ** 18
EXPONENT_BOUND = 1000

REAL_NIBBLES = "0123456789.e"
REAL_TEXT = re.compile(r"(-?)(?:([0-9]+)(?:\.([0-9]*))?|\.([0-9]+))(?:e(-?[0-9]+))?")

REPLACEMENT = "\ufffd"
TAIL = (0x80, 0xBF)

if hasattr(sys, "set_int_max_str_digits"):
    sys.set_int_max_str_digits(0)


class Refused(Exception):
    """An error, with its number."""

    def __init__(self, number):
        super().__init__(number)
        self.number = number


class Cursor:
    """Bytes and an offset in them or past their end."""

    def __init__(self, data, place):
        self.data = data
        self.place = place

    def take(self, count):
        end = self.place + count
        if count > 0 and end > len(self.data):
            raise Refused(WANTING_BYTES)
        taken = self.data[self.place:end]
        self.place = end
        return taken

    def number(self, width):
        return int.from_bytes(self.take(width), "big")

    def signed(self, width):
        return int.from_bytes(self.take(width), "big", signed=True)

    def ahead(self):
        """Returns the next byte without consuming it."""
        if self.place >= len(self.data):
            raise Refused(WANTING_BYTES)
        return self.data[self.place]


# Texts


def bounds_of_followers(first):
    """Returns the bounds of the bytes after a first byte of UTF-8, or None if no sequence begins with it."""
    if first <= 0x7F:
        return []
    if 0xC2 <= first <= 0xDF:
        return [TAIL]
    if 0xE0 <= first <= 0xEF:
        second = {0xE0: (0xA0, 0xBF), 0xED: (0x80, 0x9F)}.get(first, TAIL)
        return [second, TAIL]
    if 0xF0 <= first <= 0xF4:
        second = {0xF0: (0x90, 0xBF), 0xF4: (0x80, 0x8F)}.get(first, TAIL)
        return [second, TAIL, TAIL]
    return None


def following(data, place, bounds):
    """Returns how many bytes at an offset are within the bounds, one after the other."""
    count = 0
    for low, high in bounds:
        if place + count >= len(data) or not low <= data[place + count] <= high:
            break
        count += 1
    return count


def character(sequence):
    """Returns the character of a well-formed sequence."""
    if len(sequence) == 1:
        return chr(sequence[0])
    point = sequence[0] & (0x7F >> len(sequence))
    for byte in sequence[1:]:
        point = point << 6 | byte & 0x3F
    return chr(point)


def text(data):
    """Decodes bytes: each longest truncated start of a sequence, and each other invalid byte, is replaced."""
    characters = []
    place = 0
    while place < len(data):
        bounds = bounds_of_followers(data[place])
        count = 0 if bounds is None else following(data, place + 1, bounds)
        end = place + 1 + count
        whole = bounds is not None and count == len(bounds)
        characters.append(character(data[place:end]) if whole else REPLACEMENT)
        place = end
    return "".join(characters)


def printable(words):
    return "".join("?" if ord(c) < 0x20 or ord(c) == 0x7F else c for c in words)


# Numbers


def operand(mantissa, exponent):
    """Returns the pair with this value whose mantissa is not a multiple of ten."""
    if mantissa == 0:
        return (0, 0)
    while mantissa % 10 == 0:
        mantissa //= 10
        exponent += 1
    if abs(mantissa) >= MANTISSA_BOUND or abs(exponent) > EXPONENT_BOUND:
        raise Refused(NUMBER_OUT_OF_RANGE)
    return (mantissa, exponent)


def real_text(cursor):
    """Returns the text of the nibbles up to the end nibble."""
    spelled = []
    while True:
        byte = cursor.number(1)
        for nibble in (byte >> 4, byte & 15):
            if nibble == 0xF:
                return "".join(spelled)
            if nibble == 0xD:
                raise Refused(BAD_NUMBER)
            spelled.append({0xC: "e-", 0xE: "-"}.get(nibble) or REAL_NIBBLES[nibble])


def read_real(cursor):
    match = REAL_TEXT.fullmatch(real_text(cursor))
    if match is None:
        raise Refused(BAD_NUMBER)
    sign, before, after, bare, power = match.groups()
    decimals = bare or after or ""
    mantissa = int((before or "") + decimals)
    return operand(-mantissa if sign else mantissa, int(power or "0") - len(decimals))


def read_number(cursor):
    first = cursor.number(1)
    if 0x20 <= first <= 0xF6:
        return operand(first - 139, 0)
    if 0xF7 <= first <= 0xFA:
        return operand((first - 247) * 256 + cursor.number(1) + 108, 0)
    if 0xFB <= first <= 0xFE:
        return operand(-(first - 251) * 256 - cursor.number(1) - 108, 0)
    if first == 0x1C:
        return operand(cursor.signed(2), 0)
    if first == 0x1D:
        return operand(cursor.signed(4), 0)
    if first == 0x1E:
        return read_real(cursor)
    raise Refused(BAD_NUMBER)


def whole_number(pair):
    """Returns the number as a signed 32-bit integer."""
    mantissa, exponent = pair
    if exponent < 0 or not -2 ** 31 <= mantissa * 10 ** exponent < 2 ** 31:
        raise Refused(NOT_A_WHOLE_NUMBER)
    return mantissa * 10 ** exponent


# DICTs


def begins_operand(byte):
    return byte in (0x1C, 0x1D, 0x1E) or 0x20 <= byte <= 0xFE


def read_operation(cursor):
    operands = []
    while begins_operand(cursor.ahead()):
        operands.append(read_number(cursor))
    code = cursor.number(1)
    if code == ESCAPE:
        code = ESCAPE * 256 + cursor.number(1)
    if code not in OPERATORS:
        raise Refused(UNKNOWN_OPERATOR)
    return code, operands


def read_dictionary(data):
    """Returns the operations, without an incomplete last one; a later operation replaces an earlier one with the same operator."""
    cursor = Cursor(data, 0)
    operations = {}
    try:
        while True:
            code, operands = read_operation(cursor)
            operations[code] = operands
    except Refused as refusal:
        if refusal.number != WANTING_BYTES:
            raise
    return operations


def operands_of(operations, code):
    """Returns the operands of an operation, or of its default."""
    return operations.get(code, DEFAULTS.get(code, []))


def lacks(operations, code, count):
    """Returns whether there are fewer operands than `count`."""
    return len(operands_of(operations, code)) < count


def whole_numbers(operations, code, count):
    """Returns the first operands of an operation, or of its default, as integers."""
    if lacks(operations, code, count):
        raise Refused(MISSING_OPERATION)
    return [whole_number(pair) for pair in operands_of(operations, code)[:count]]


# The parts of a font


def read_index(cursor):
    """Returns the items of an INDEX."""
    count = cursor.number(2)
    if count == 0:
        return []
    size = cursor.number(1)
    if not 1 <= size <= 4:
        raise Refused(BAD_OFFSET_SIZE)
    offsets = []
    for _ in range(count + 1):
        offset = cursor.number(size)
        if offset <= offsets[-1] if offsets else offset != 1:
            raise Refused(BAD_INDEX)
        offsets.append(offset)
    return [cursor.take(end - begin) for begin, end in zip(offsets, offsets[1:])]


def read_char_set(cursor, glyphs):
    """Returns the name of the charset's format."""
    form = cursor.number(1)
    if form > 2:
        raise Refused(UNKNOWN_CHAR_SET)
    if glyphs == 0:
        raise Refused(BAD_CHAR_SET)
    if form == 0:
        cursor.take(2 * (glyphs - 1))
        return "Format0"
    covered = 1
    while covered < glyphs:
        cursor.take(2)
        covered += cursor.number(form) + 1
    if covered != glyphs:
        raise Refused(BAD_CHAR_SET)
    return f"Format{form}"


class Font:
    """Resolves the offsets of a font, which count from its start."""

    def __init__(self, data, start, lenient):
        self.data = data
        self.start = start
        self.lenient = lenient

    def place(self, offset):
        if offset < 0 or self.start + offset > HIGHEST_PLACE:
            raise Refused(PLACE_OUT_OF_RANGE)
        return self.start + offset

    def cursor(self, offset):
        return Cursor(self.data, self.place(offset))

    def encoding(self, operations):
        number = whole_numbers(operations, ENCODING, 1)[0]
        if number not in ENCODING_NAMES:
            raise Refused(UNSUPPORTED)
        return ENCODING_NAMES[number]

    def glyphs(self, operations):
        cursor = self.cursor(whole_numbers(operations, CHAR_STRINGS, 1)[0])
        if whole_numbers(operations, CHAR_STRING_TYPE, 1)[0] != 2:
            raise Refused(UNKNOWN_CHAR_STRINGS)
        return len(read_index(cursor))

    def char_set(self, operations, glyphs):
        number = whole_numbers(operations, CHAR_SET, 1)[0]
        if number in CHAR_SET_NAMES:
            return CHAR_SET_NAMES[number]
        return read_char_set(self.cursor(number), glyphs)

    def locals(self, operations):
        """Returns the number of local subroutines of the Private DICT."""
        if self.lenient and lacks(operations, PRIVATE, 2):
            return 0
        size, offset = whole_numbers(operations, PRIVATE, 2)
        if size < 0:
            raise Refused(PLACE_OUT_OF_RANGE)
        private = read_dictionary(self.cursor(offset).take(size))
        if self.lenient and lacks(private, SUBROUTINES, 1):
            return 0
        further = whole_numbers(private, SUBROUTINES, 1)[0]
        return len(read_index(self.cursor(offset + further)))

    def line(self, operations):
        """Returns the line of one Top DICT; its parts are read in the order of the format."""
        encoding = self.encoding(operations)
        glyphs = self.glyphs(operations)
        char_set = self.char_set(operations, glyphs)
        return f"font {encoding} {char_set} glyphs {glyphs} locals {self.locals(operations)}"

    def summary(self):
        header = self.cursor(0).take(4)
        cursor = self.cursor(header[2])
        names = [text(item) for item in read_index(cursor)]
        dictionaries = [read_dictionary(item) for item in read_index(cursor)]
        strings = read_index(cursor)
        subroutines = read_index(cursor)
        return [
            "header " + " ".join(str(byte) for byte in header),
            f"names {len(names)}",
            *("name " + printable(name) for name in names),
            f"strings {len(strings)}",
            f"globals {len(subroutines)}",
            f"dictionaries {len(dictionaries)}",
            *[self.line(operations) for operations in dictionaries],
            "end",
        ]


def read_font(data, start, lenient=False):
    """Returns the summary of the font at this offset, or the error number."""
    try:
        return ("ok", Font(data, start, lenient).summary())
    except Refused as refusal:
        return ("fault", refusal.number)


def main(words):
    lenient = words[:1] == ["lenient"]
    if len(words) != 1 + lenient:
        print("usage: second_reader.py [lenient] HEX", file=sys.stderr)
        return 2
    kind, answer = read_font(bytes.fromhex(words[-1]), 0, lenient)
    print("\n".join(answer) if kind == "ok" else f"fault {answer}")
    return 0


if __name__ == "__main__":
    sys.exit(main(sys.argv[1:]))
