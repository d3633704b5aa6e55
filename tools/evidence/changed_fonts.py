"""Compares the program `psfont` with the second reader on fonts that were changed at random.

    python3 tools/evidence/changed_fonts.py [--seed N] [--count N] [PSFONT]

PSFONT is the program; the default is crates/psfont/out/psfont. The script needs only Python 3 and its standard library.

The fonts are small known ones and made-up ones with every part of a font. Most are then changed: bytes set, bits flipped, the end
truncated, slices duplicated, exchanged or removed, operands overwritten, and counts and offsets set to extreme values. The script sends
each to the program as a line `font HEX` and as a line `lenient HEX`, up to 2000 fonts per process, and to `second_reader.read_font`. The
two answers (the summary up to `end`, or the line `fault N`) must be equal line by line.

It prints each difference with the font and both answers. The last lines are the number of fonts, how many each command accepted, how many
it rejected by error number, the number of differences, and the seed, which gives the same fonts again. The exit status is 1 if anything
differs.
"""

import argparse
import collections
import pathlib
import random
import subprocess
import sys

sys.dont_write_bytecode = True
sys.path.insert(0, str(pathlib.Path(__file__).resolve().parents[1]))

from building import PSFONT
from second_reader import read_font

BATCH = 2000
SECONDS_A_BATCH = 300
ROUNDS = 40
NO_ANSWER = [b"no answer"]
WORDS = ["font", "lenient"]

KNOWN_DICTIONARIES = [
    "1d7fffffff11", "1d8000000011", "1e2f11", "1e2a5f11", "1e2147483648ff11", "11", "8f118c0c06", "8910",
]
KNOWN_PARTS = [
    ("a3118da912", "8d13 0000"), ("a3108da912", "8d13 0000"), ("a3118aa912", "8d13 0000"),
    ("a3118d8a12", "8d13 0000"), ("a3118da913", "8d13 0000"), ("a3118da912", "6c13 0000"),
    ("a3118da912", "6d13 0000"), ("a3118da912", "8113 0000"), ("a3118da912", "8113"),
]
KNOWN_FONTS = [
    "0000000000000000",
    "01000401 0000 000201 01060b a5118dab12 a5118dab12 0000 0000 00010101020e 8d13 0000",
    "01000401 0000 0001010108 a111a90f8da712 0000 0000 00010101020e 8d13 0000",
    "01000401 0000 0001010108 a111a50f8da712 0000 0000 00010101020e 8d13 0000",
    *(f"01000401 000101010241 0001010106 {top} 0000 0000 00010101020e {rest}" for top, rest in KNOWN_PARTS),
    *(f"01000401 0000 00010101{1 + len(top) // 2:02x} {top} 0000 0000" for top in KNOWN_DICTIONARIES),
]

ENCODING, CHAR_STRINGS, CHAR_SET, PRIVATE, SUBROUTINES = b"\x10", b"\x11", b"\x0f", b"\x12", b"\x13"
CHAR_STRING_TYPE = b"\x0c\x06"
OTHER_OPERATORS = [
    *(bytes([code]) for code in [*range(0x00, 0x0C), 0x0D, 0x0E, 0x14, 0x15]),
    *(bytes([0x0C, code]) for code in range(0x27) if code not in (0x06, 0x0F, 0x10, *range(0x18, 0x1E))),
]
BAD_OPERATORS = [
    b"\x16", b"\x19", b"\x1b", b"\x1f", b"\xff", b"\x0c\x0f", b"\x0c\x10", b"\x0c\x18", b"\x0c\x27",
    b"\x0c\x0c\x0c", b"\x0c\xff", b"\x0c\x1d",
]
RESTS = [
    b"\x8c", b"\x1c", b"\x1c\x01", b"\x1d\x00\x00\x01", b"\xf7", b"\xfe", b"\x1e", b"\x1e\x12", b"\x0c",
    b"\x8c\x1e\xe1\xbb", b"\x1e\xce\x8c",
]

GOOD_REALS = [
    "0", "-0", "0e99999", "-.0e-99999", "1.", ".5", "-2.25", "-.125", "00001", "1e1000", "10e999",
    "0.001e1003", "1e-1000", "100e-1002", "999999999999999999", "-999999999999999999e1000",
    "999999999999999999000e-1000", "123456789012345678e-1000", "1000000000000000000",
    "1e00000000000000000000000000000000005", "0.00000000000000000000000000000000001", "2147483647",
    "-2147483648", "2147483648", "2e0", "20e-1", "1.50",
]
FAR_REALS = [
    "1e1001", "10e1000", "1e-1001", "0.1e-1000", "1000000000000000001", "1234567890123456789",
    "1e99999999999999", "9999999999999999990e1000", "-1e-2147483648", "1e2147483648",
    "1e18446744073709551616", "1e-4294967297", "1.000000000000000000000001", "-1000000000000000001e-5",
    "340282366920938463463374607431768211457",
]
BAD_REALS = [
    "", "-", ".", "-.", "e", "1e", "1e-", "e5", "-e5", ".e5", "1..2", "1.2.3", "--1", "1-", "1e--1",
    "1e1.5", "1e5e5", "1-2", "1e5-", ".-1", "1e.5", "-.e", "d", "1d", "12d3",
]

TEXTS = [
    b"A", b"Source", b"\xc3\xa9", b"\xe2\x82\xac", b"\xf0\x9f\x98\x80", b"\xed\x9f\xbf",
    b"\xee\x80\x80", b"\xf4\x8f\xbf\xbf", b"\xdf\xbf", b"\xe0\xa0\x80", b"\xf0\x90\x80\x80",
    b"\xef\xbf\xbd", b"\xef\xbb\xbf", b"\x00", b"\n", b"\r", b"\x1f", b" ", b"\x7f", b"\xc2\x80",
    b"\xc2\x85", b"\xe2\x80\xa8", b"end", b"fault 1",
]
BAD_TEXTS = [
    b"\xff", b"\xff\xff", b"\xc0\x80", b"\xc1\xbf", b"\xc2", b"\xe2\x82", b"\xe2", b"\xe0\x9f\xbf",
    b"\xe0\xa0", b"\xed\xa0\x80", b"\xf0\x9f\x98", b"\xf0\x8f\xbf\xbf", b"\xf4\x90\x80\x80",
    b"\xf5\x80", b"\xf1\x80\x80", b"\x80", b"\xbf\xbf", b"\xe1\x80\xe2\xf0\x91\x92\xf1\xbf", b"\xfe",
    b"\xc3\x28",
]

EXTREMES = [0, 1, 2, 3, 4, 5, 0x7F, 0x80, 0xFF, 0x100, 0x7FFF, 0x8000, 0xFFFE, 0xFFFF, 0x10000, 0x7FFFFF]
EXTREMES += [0xFFFFFF, 0x7FFFFFFF, 0x80000000, 0xFFFFFFFE, 0xFFFFFFFF]

EDGES = [2 ** 15 - 1, -2 ** 15, 2 ** 15, 2 ** 31 - 1, -2 ** 31]

# A font and its fields: the offsets and widths of its counts, offset sizes and offsets.
Base = collections.namedtuple("Base", "data fields")

# A word of a DICT for the offset of a part, absolute or relative to another part. The seed keeps its encoding
# the same while the offsets are still being computed.
Place = collections.namedtuple("Place", "part origin form seed")

# A part of a font: items for an INDEX, words for a DICT, or bytes. `more` widens an INDEX's offsets.
Part = collections.namedtuple("Part", "name kind content more")


# Encoded numbers


def one_in(draw, chances):
    return draw.randrange(chances) == 0


def real(draw, words):
    """Encodes a real of these characters; `d` is the reserved nibble."""
    nibbles = []
    at = 0
    while at < len(words):
        if words[at:at + 2] == "e-" and draw.random() < 0.7:
            nibbles.append(0xC)
            at += 2
            continue
        nibbles.append({".": 0xA, "e": 0xB, "d": 0xD, "-": 0xE}.get(words[at]) or int(words[at]))
        at += 1
    nibbles.append(0xF)
    if len(nibbles) % 2:
        nibbles.append(draw.choice([0xF, 0, 0xD, draw.randrange(16)]))
    return b"\x1e" + bytes(high << 4 | low for high, low in zip(nibbles[::2], nibbles[1::2]))


def real_of_whole(draw, number):
    """Returns one of several texts of an integer."""
    sign, digits = "-" if number < 0 else "", str(abs(number))
    powers = draw.randrange(4)
    return draw.choice([
        sign + digits,
        sign + "000" + digits,
        sign + digits + "." + "0" * powers,
        sign + digits + "e" + draw.choice(["0", "-0", "00"]),
        sign + digits + "0" * powers + f"e-{powers}",
        sign + digits[:1] + "." + digits[1:] + f"e{len(digits) - 1}",
        sign + "." + digits + f"e{len(digits)}",
    ])


def tight(number):
    """Returns the one- or two-byte encoding of an integer, if there is one."""
    if -107 <= number <= 107:
        return bytes([number + 139])
    if 108 <= number <= 1131:
        return bytes([247 + (number - 108) // 256, (number - 108) % 256])
    if -1131 <= number <= -108:
        return bytes([251 + (-number - 108) // 256, (-number - 108) % 256])
    return None


def whole(draw, number, form):
    """Encodes an integer in one of four forms, or in the next one that can hold it."""
    spelled = tight(number) if form == "tight" else None
    if spelled is None and form in ("tight", "short") and -2 ** 15 <= number < 2 ** 15:
        spelled = b"\x1c" + number.to_bytes(2, "big", signed=True)
    if form == "real":
        spelled = real(draw, real_of_whole(draw, number))
    return spelled or b"\x1d" + number.to_bytes(4, "big", signed=True)


def random_form(draw):
    return draw.choice(["tight", "tight", "short", "long", "real"])


def random_real(draw):
    digits = "".join(draw.choice("0123456789") for _ in range(draw.randint(1, 17)))
    point = draw.randrange(len(digits) + 1)
    words = draw.choice(["", "-"]) + digits[:point] + draw.choice(["", "."]) + digits[point:]
    return words + draw.choice(["", f"e{draw.randint(-1010, 1000)}", f"e{draw.randint(-9, 9)}"])


def random_operand(draw):
    """Returns an operand of any form; few are invalid."""
    kind = draw.randrange(10)
    if kind < 3:
        return whole(draw, draw.randint(-107, 107), random_form(draw))
    if kind < 5:
        return whole(draw, draw.randint(-1140, 1140), random_form(draw))
    if kind < 7:
        return whole(draw, draw.choice(EDGES + [draw.randint(-2 ** 31, 2 ** 31 - 1)]), random_form(draw))
    if one_in(draw, 30):
        return real(draw, draw.choice(FAR_REALS + BAD_REALS))
    return real(draw, draw.choice(GOOD_REALS) if kind < 9 else random_real(draw))


# Made-up fonts


def random_bytes(draw, longest):
    return bytes(draw.randrange(256) for _ in range(draw.randint(1, longest)))


def random_items(draw, most, longest):
    return [random_bytes(draw, longest) for _ in range(draw.randint(0, most))]


def random_text(draw):
    pieces = TEXTS + BAD_TEXTS if one_in(draw, 2) else TEXTS
    return b"".join(draw.choice(pieces) for _ in range(draw.randint(1, 4)))


def char_set(draw, glyphs):
    """Returns a charset for this number of glyphs, of format 0, 1 or 2, or of an unknown format."""
    if one_in(draw, 25):
        return bytes([draw.choice([3, 4, 0x80, 0xFF])]) + bytes(2 * glyphs)
    form = draw.randrange(3)
    if form == 0:
        return b"\x00" + b"".join(draw.randrange(400).to_bytes(2, "big") for _ in range(glyphs - 1))
    ranges = b""
    wanting = glyphs - 1 + one_in(draw, 30)
    while wanting > 0:
        left = draw.randint(0, min(wanting - 1, 256 ** form - 1))
        ranges += draw.randrange(400).to_bytes(2, "big") + left.to_bytes(form, "big")
        wanting -= left + 1
    return bytes([form]) + ranges


def other_operation(draw):
    operator = draw.choice(BAD_OPERATORS if one_in(draw, 150) else OTHER_OPERATORS)
    return [random_operand(draw) for _ in range(draw.randint(0, 6))] + [operator]


def operation(draw, words, operator):
    """Returns an operation with these operands; sometimes with others added, with others instead, or with too few."""
    if one_in(draw, 12):
        words = words + [random_operand(draw)]
    if one_in(draw, 80):
        words = [random_operand(draw) for _ in range(draw.randint(0, 2))]
    return words + [operator]


def number_operation(draw, number, operator):
    return operation(draw, [whole(draw, number, random_form(draw))], operator)


def place_word(draw, part, origin=None):
    return Place(part, origin, random_form(draw), draw.randrange(2 ** 32))


def dictionary(draw, operations, others):
    """Returns the words of a DICT in random order, sometimes with repeated operations or with trailing bytes."""
    words = []
    operations = operations + [other_operation(draw) for _ in range(draw.randint(0, others))]
    draw.shuffle(operations)
    for each in operations:
        if one_in(draw, 12):
            words += operation(draw, [], each[-1])
        words += each
    if one_in(draw, 6):
        words.append(draw.choice(RESTS))
    return words


def char_set_parts(draw, number, glyphs):
    """Returns the operation that selects a charset, and the part with the charset if it is not predefined."""
    if one_in(draw, 2):
        known = draw.randrange(3)
        return ([] if known == 0 else [number_operation(draw, known, CHAR_SET)]), []
    name = f"char set {number}"
    named = operation(draw, [place_word(draw, name)], CHAR_SET)
    return [named], [Part(name, "bytes", char_set(draw, glyphs), 0)]


def private_parts(draw, number):
    """Returns the operation for a Private DICT, and its parts. Some offsets are negative."""
    private, subroutines = f"private {number}", f"locals {number}"
    own = not one_in(draw, 8)
    if not own:
        subroutines = draw.choice(["strings", "globals", "names", "dictionaries"])
    operands = [place_word(draw, private + " end", private), place_word(draw, private)]
    if one_in(draw, 40):
        operands = [tight(draw.choice([0, -1])), whole(draw, draw.choice(EDGES), random_form(draw))]
    inner = [operation(draw, [place_word(draw, subroutines, private)], SUBROUTINES)]
    parts = [
        Part(private, "dictionary", dictionary(draw, [] if one_in(draw, 40) else inner, 4), 0),
        Part(subroutines, "index", random_items(draw, 3, 6), draw.randrange(4)),
    ]
    return [operation(draw, operands, PRIVATE)], parts if own else parts[:1]


def glyph_parts(draw, number, shared):
    """Returns the operation for the CharStrings INDEX, the number of glyphs, and the part with the charstrings."""
    name = f"glyphs {number}"
    glyphs = draw.choice([1, 1, 2, 3, 4, 5, 8, draw.randint(1, 40), draw.randint(0, 1)])
    if one_in(draw, 80):
        glyphs = draw.randint(240, 700)
    items = [random_bytes(draw, 1 if glyphs > 40 else 4) for _ in range(glyphs)]
    parts = [Part(name, "index", items, draw.randrange(4))]
    if one_in(draw, 8):
        (name, glyphs), parts = draw.choice(sorted(shared.items())), []
    return [operation(draw, [place_word(draw, name)], CHAR_STRINGS)], glyphs, parts


def font_parts(draw, number, shared):
    """Returns the words of a font's Top DICT and the parts that it refers to."""
    operations, glyphs, parts = glyph_parts(draw, number, shared)
    for more, further in (char_set_parts(draw, number, glyphs), private_parts(draw, number)):
        operations += more
        parts += further
    if one_in(draw, 2):
        encoding = draw.choice([2, -1, 300]) if one_in(draw, 30) else draw.randrange(2)
        operations.append(number_operation(draw, encoding, ENCODING))
    if one_in(draw, 3):
        operations.append(number_operation(draw, 1 if one_in(draw, 20) else 2, CHAR_STRING_TYPE))
    if one_in(draw, 40):
        operations.remove(draw.choice(operations))
    return dictionary(draw, operations, 3), parts


def spelled(words, places):
    """Returns the bytes of a DICT's words, for these offsets of the parts."""
    pieces = []
    for word in words:
        if isinstance(word, Place):
            number = places.get(word.part, 0) - places.get(word.origin, 0)
            word = whole(random.Random(word.seed), number, word.form)
        pieces.append(word)
    return b"".join(pieces)


def index(items, more):
    """Returns an INDEX of these items, and its fields."""
    if not items:
        return b"\x00\x00", [(0, 2)]
    ends = [1]
    for item in items:
        ends.append(ends[-1] + len(item))
    size = min(4, (ends[-1].bit_length() + 7) // 8 + more)
    offsets = b"".join(end.to_bytes(size, "big") for end in ends)
    fields = [(0, 2), (2, 1)] + [(3 + number * size, size) for number in range(len(ends))]
    return len(items).to_bytes(2, "big") + bytes([size]) + offsets + b"".join(items), fields


def part_bytes(part, places):
    if part.kind == "bytes":
        return part.content, [(0, 1)]
    if part.kind == "dictionary":
        return spelled(part.content, places), []
    items = [spelled(item, places) if isinstance(item, list) else item for item in part.content]
    return index(items, part.more)


def lay_out(front, parts, places):
    """Lays out the font for these guessed offsets of its parts, and returns it with the resulting offsets."""
    data, fields, found = front, [(0, 1), (1, 1), (2, 1), (3, 1)], {}
    for part in parts:
        piece, inner = part_bytes(part, places)
        found[part.name] = len(data)
        fields += [(len(data) + place, width) for place, width in inner]
        data += piece
        found[part.name + " end"] = len(data)
    return Base(data, fields), found


def front_bytes(draw, names):
    """Returns the bytes before the names. If the header size is small, the header overlaps the names."""
    size = draw.choice([4, 4, 4, 4, 5, 7, draw.randint(4, 60)])
    if one_in(draw, 6):
        size = {0: 0, 1: 1}.get(len(names), 3)
    whole_front = bytes([1, 0, size, draw.randint(0, 5)]) + bytes(draw.randrange(256) for _ in range(size))
    return whole_front[:size]


def made_up(draw):
    """Returns a font with every part, most of them complete and valid."""
    names = [random_text(draw) for _ in range(draw.choice([0, 1, 1, 2, 3, 4]))]
    strings, subroutines = random_items(draw, 4, 5), random_items(draw, 3, 5)
    shared = {"names": len(names), "strings": len(strings), "globals": len(subroutines)}
    dictionaries, tail = [], []
    for number in range(draw.choice([0, 1, 1, 1, 2, 2, 3]) if one_in(draw, 2) else draw.randint(1, 3)):
        words, parts = font_parts(draw, number, shared)
        dictionaries.append(words)
        tail += parts
    draw.shuffle(tail)
    if one_in(draw, 3):
        tail.insert(draw.randint(0, len(tail)), Part("gap", "bytes", random_bytes(draw, 20), 0))
    parts = [
        Part("names", "index", names, draw.randrange(4)),
        Part("dictionaries", "index", dictionaries, draw.randrange(4)),
        Part("strings", "index", strings, draw.randrange(4)),
        Part("globals", "index", subroutines, draw.randrange(4)),
        *tail,
    ]
    front, places = front_bytes(draw, names), {}
    for _ in range(ROUNDS):
        base, found = lay_out(front, parts, places)
        if found == places:
            break
        places = found
    return base


# Changes


def random_slice(draw, data, longest=24):
    begin = draw.randrange(len(data))
    return begin, min(len(data), begin + draw.randint(1, longest))


def set_bytes(draw, base):
    data = bytearray(base.data)
    for _ in range(draw.choice([1, 1, 1, 2, 3, 5])):
        telling = draw.choice(b"\x00\x01\x0c\x1d\x1e\xff")
        data[draw.randrange(len(data))] = draw.choice([draw.randrange(256), telling])
    return bytes(data)


def turn_bits(draw, base):
    data = bytearray(base.data)
    for _ in range(draw.choice([1, 1, 1, 2, 4])):
        data[draw.randrange(len(data))] ^= 1 << draw.randrange(8)
    return bytes(data)


def cut(draw, base):
    return base.data[:draw.randrange(len(base.data) + 1)]


def double_slice(draw, base):
    begin, end = random_slice(draw, base.data)
    at = draw.choice([end, draw.randint(0, len(base.data))])
    return base.data[:at] + base.data[begin:end] + base.data[at:]


def exchange_slices(draw, base):
    data = base.data
    (first, end), (second, second_end) = sorted([random_slice(draw, data), random_slice(draw, data)])
    end = min(end, second)
    return data[:first] + data[second:second_end] + data[end:second] + data[first:end] + data[second_end:]


def remove_slice(draw, base):
    begin, end = random_slice(draw, base.data, draw.choice([1, 2, 24]))
    return base.data[:begin] + base.data[end:]


def wide_numbers(data):
    """Returns the offsets and widths of bytes that may be integers of two or four bytes."""
    widths = {0x1C: 2, 0x1D: 4}
    return [(place + 1, widths[byte]) for place, byte in enumerate(data) if byte in widths]


def set_extreme(draw, base):
    fields = draw.choice([base.fields, base.fields, wide_numbers(base.data)])
    place, width = draw.choice(fields or [(draw.randrange(len(base.data)), draw.choice([1, 2, 4]))])
    number = draw.choice(EXTREMES + [len(base.data) - 1, len(base.data)])
    field = (number % 256 ** width).to_bytes(width, "big")
    return base.data[:place] + field + base.data[place + width:]


def write_operand(draw, base):
    """Overwrites the bytes at an offset with an operand, valid or invalid."""
    operand = random_operand(draw)
    if one_in(draw, 2):
        operand = real(draw, draw.choice(GOOD_REALS + FAR_REALS + BAD_REALS))
    place = draw.randrange(len(base.data))
    return base.data[:place] + operand + base.data[place + len(operand):]


CHANGES = [
    set_bytes, set_bytes, set_bytes, turn_bits, turn_bits, cut, double_slice, exchange_slices, remove_slice,
    set_extreme, set_extreme, write_operand,
]


def changed(draw, base):
    """Returns the base with one or a few changes; the fields keep their offsets."""
    for _ in range(draw.choice([1, 1, 1, 1, 2, 3])):
        if not base.data:
            break
        base = Base(draw.choice(CHANGES)(draw, base), base.fields)
    return base.data


def fonts(seed, count):
    """Yields this many fonts: first the known ones unchanged, then made-up and changed ones."""
    draw = random.Random(seed)
    known = [Base(bytes.fromhex(words), []) for words in KNOWN_FONTS]
    for number in range(count):
        if number < len(known):
            yield known[number].data
            continue
        base = draw.choice(known) if one_in(draw, 8) else made_up(draw)
        yield base.data if one_in(draw, 4) else changed(draw, base)


# The program and the comparison


def answers_of(output):
    """Returns the program's answers, each a list of lines, and the rest of an incomplete last one."""
    answers, lines = [], []
    for line in output.split(b"\n")[:-1]:
        lines.append(line)
        if line == b"end" or (len(lines) == 1 and not line.startswith(b"header ")):
            answers.append(lines)
            lines = []
    return answers, lines


def ask(program, word, batch):
    """Returns the answers of one process to these fonts, and a remark if it did not end well."""
    lines = "".join(f"{word} {font.hex()}\n" for font in batch).encode()
    try:
        process = subprocess.run([program], input=lines, capture_output=True, timeout=SECONDS_A_BATCH)
        output, errors, status = process.stdout, process.stderr, process.returncode
    except subprocess.TimeoutExpired as expired:
        output, errors, status = expired.stdout or b"", b"", "too slow"
    answers, rest = answers_of(output)
    sound = status == 0 and not errors and not rest and len(answers) == len(batch)
    remark = f"status {status}, {len(answers)} answers to {len(batch)} fonts, {errors[-400:]!r}"
    return answers[:len(batch)], None if sound else remark


def ask_all(program, word, batch):
    """Returns an answer for each font. If a process stops early, the font that stopped it gets NO_ANSWER."""
    answers, remarks = [], []
    while len(answers) < len(batch):
        more, remark = ask(program, word, batch[len(answers):])
        answers += more or [NO_ANSWER]
        if remark:
            remarks.append(remark)
    return answers, remarks


def expected(word, font):
    """Returns the second reader's answer as lines, and its error number or "read"."""
    kind, answer = read_font(font, 0, word == "lenient")
    if kind == "ok":
        return [line.encode() for line in answer], "read"
    return [b"fault %d" % answer], answer


def show(word, font, ours, theirs):
    print(f"differs: {word} {font.hex()}")
    for title, lines in (("second reader", ours), ("program", theirs)):
        print(f"  {title}: " + " | ".join(line.decode("utf-8", "backslashreplace") for line in lines))


def compare(program, word, batch, kinds):
    """Returns the number of differing answers for these fonts; `kinds` counts the second reader's answers."""
    answers, remarks = ask_all(program, word, batch)
    differing = len(remarks)
    for remark in remarks:
        print(f"differs: the program's end: {remark}")
    for font, theirs in zip(batch, answers):
        ours, kind = expected(word, font)
        kinds[kind] += 1
        if ours != theirs:
            differing += 1
            show(word, font, ours, theirs)
    return differing


def batches(items):
    batch = []
    for item in items:
        batch.append(item)
        if len(batch) == BATCH:
            yield batch
            batch = []
    if batch:
        yield batch


def arguments(words):
    parser = argparse.ArgumentParser(description=__doc__.split("\n", 1)[0])
    parser.add_argument("--seed", type=int, default=1)
    parser.add_argument("--count", type=int, default=100_000)
    parser.add_argument("program", nargs="?", default=PSFONT, metavar="PSFONT")
    return parser.parse_args(words)


def main(words):
    chosen = arguments(words)
    if not pathlib.Path(chosen.program).is_file():
        print(f"there is no program {chosen.program}", file=sys.stderr)
        return 2
    told, differing = {word: collections.Counter() for word in WORDS}, 0
    for batch in batches(fonts(chosen.seed, chosen.count)):
        for word, kinds in told.items():
            differing += compare(chosen.program, word, batch, kinds)
    print(f"fonts compared: {chosen.count}")
    for word, kinds in told.items():
        refused = {kind: kinds[kind] for kind in kinds if kind != "read"}
        print(f"{word}: read: {kinds['read']}")
        print(f"{word}: refused: " + (", ".join(f"{refused[number]} by {number}" for number in sorted(refused)) or "none"))
    print(f"differing: {differing}")
    print(f"seed: {chosen.seed}")
    return 1 if differing else 0


if __name__ == "__main__":
    sys.exit(main(sys.argv[1:]))
