"""Compares the program `psfont` with a second interpreter on random charstrings.

    python3 tools/evidence/random_programs.py [--seed N] [--count N] [PSFONT]

Each test program is a charstring with a list of global and a list of local subroutines. The script sends it to PSFONT (by default
crates/psfont/out/psfont) with the commands `code`, `global`, `local`, `run` and `flat`. It compares the answers line by line with those of
`second_interpreter.py`. One process gets up to 2000 programs.

The programs are of three kinds:
- random bytes;
- programs that mostly follow the grammar. They have all number formats, right and wrong operands, arithmetic near the limits, numbers
  stored in one routine and fetched in another, and stems and masks. They nest calls through short and very long lists, and end routines in
  every way;
- such programs with some bytes removed or changed.
Programs with more than 20000 phrases are left out and counted.

Each difference is printed with the input lines and both answers. The last lines are the counts and the seed; the same seed and count give
the same programs. The exit status is 1 if anything differs.
"""

import argparse
import collections
import pathlib
import random
import subprocess
import sys

sys.dont_write_bytecode = True
sys.path.insert(0, str(pathlib.Path(__file__).resolve().parents[1]))

import second_interpreter as second
from building import PSFONT

BATCH = 2000
MOST_PHRASES = 20000
MOST_SECONDS = 600
MOST_LINES_SHOWN = 200

# Two lines that no program needs; their answers separate the answers of one program from those of the next.
MARK = "mark\ncode 0\n"
MARK_ANSWER = "bad command\nbad hex\n"

CODES = {name: bytes([code]) if code < 256 else code.to_bytes(2, "big")
         for code, name in second.OPERATORS.items()}
CLEARING = list(second.ALLOWED)
PATHS = [name for name in CLEARING if name not in second.STEMS + second.MASKS]
CHANGING = list(second.EFFECTS)
COUNTS = {name: [count for count in range(1, 27) if second.ALLOWED[name](count)] for name in PATHS}
UNKNOWN = [bytes([code]) for code in (0, 2, 9, 13, 15, 16, 17)] + [
    bytes([12, code]) for code in range(256) if 0x0C00 + code not in second.OPERATORS]

ONE = second.ONE
NEAR_LIMITS = sorted({sign * base + step
                      for sign in (1, -1)
                      for base in (0, 1 << 8, 1 << 15, ONE, 3 * ONE, 1 << 23, 1 << 24, 46341 << 8, 1 << 30,
                                   (1 << 31) - ONE, 1 << 31)
                      for step in (-2, -1, 0, 1, 2)
                      if second.LEAST <= sign * base + step <= second.GREATEST})
FORM_EDGES = [-32768, -32767, -1132, -1131, -1130, -876, -875, -364, -363, -109, -108, -107, -106, -1, 0, 1,
              106, 107, 108, 109, 363, 364, 619, 620, 875, 876, 1130, 1131, 1132, 32766, 32767]
SHORT_LISTS = [0, 0, 1, 1, 1, 2, 2, 3, 4, 5, 8, 12]
LONG_LISTS = [107, 108, 214, 215, 216, 1238, 1239, 1240, 1241, 2263]
LONGEST_LISTS = [33899, 33900, 33900, 33901, 65535, 65537]
MANY_STEMS = [127, 128, 129, 255, 256, 257, 1000, 2047, 2048, 32767, 32768, 65535, 65536, 70000]
PLACES = [0, 0, 0, 1, 1, 2, 3, 5, 15, 30, 31, 31]
NO_PLACES = [-1, -1, 32, 32, 33, 64, 255, 256, -32, -32768, 32767]
CUT_NUMBERS = [b"\x0c", b"\x1c", b"\x1c\x01", b"\xf7", b"\xfe", b"\xff", b"\xff\0\1\2"]


def whole_spellings(value):
    """Returns every encoding of an integer except the one with a fraction, the shortest first."""
    spellings = []
    if -107 <= value <= 107:
        spellings.append(bytes([139 + value]))
    elif 108 <= value <= 1131:
        spellings.append(bytes([247 + (value - 108) // 256, (value - 108) % 256]))
    elif -1131 <= value <= -108:
        spellings.append(bytes([251 + (-value - 108) // 256, (-value - 108) % 256]))
    return spellings + [b"\x1c" + value.to_bytes(2, "big", signed=True)]


def clamp(bits):
    return max(second.LEAST, min(second.GREATEST, bits))


class Program:
    """A charstring with its two lists of subroutines."""

    def __init__(self, code, global_, local):
        self.code = code
        self.global_ = global_
        self.local = local

    def lines(self):
        """Returns the lines that define the program, without those that ask for answers."""
        parts = [("code", self.code)]
        parts += [("global", routine) for routine in self.global_]
        parts += [("local", routine) for routine in self.local]
        return [f"{command} {routine.hex()}" if routine else command for command, routine in parts]

    def expected(self):
        """Returns the second interpreter's answers, and the error number or None."""
        meaning = second.evaluate(self.code, self.global_, self.local, MOST_PHRASES)
        lines = ["ok"] * (1 + len(self.global_) + len(self.local))
        return lines + second.run_lines(meaning) + [second.flat_line(meaning)], meaning.fault


class Drawer:
    """Makes random programs from a seed."""

    def __init__(self, seed):
        self.random = random.Random(seed)
        self.slips = 0.0
        self.stems = 0
        self.targets = []
        self.sizes = {"CallGSubr": 0, "CallSubr": 0}

    def program(self):
        kind = self.random.random()
        if kind < 0.001:
            return self.many_stems()
        if kind < 0.006:
            return self.tower()
        if kind < 0.08:
            return self.random_bytes_program()
        if kind < 0.20:
            return self.ladder()
        if kind < 0.72:
            return self.grammatical()
        return self.changed(self.ladder() if kind < 0.77 else self.grammatical())

    # Random choices and numbers.

    def chance(self, share):
        return self.random.random() < share

    def slip(self):
        return self.random.random() < self.slips

    def choice(self, items):
        return self.random.choice(items)

    def spell(self, bits):
        """Encodes a number, mostly in the shortest form."""
        with_fraction = b"\xff" + bits.to_bytes(4, "big", signed=True)
        if bits % ONE != 0:
            return with_fraction
        spellings = whole_spellings(bits // ONE)
        return spellings[0] if self.chance(0.8) else self.choice(spellings + [with_fraction])

    def spell_all(self, numbers):
        return b"".join(map(self.spell, numbers))

    def bits(self):
        kind = self.random.random()
        if kind < 0.5:
            return self.random.randint(-9, 30) * ONE
        if kind < 0.6:
            return self.choice(FORM_EDGES) * ONE
        if kind < 0.7:
            return self.random.randint(-1131, 1131) * ONE
        if kind < 0.75:
            return self.random.randint(-32768, 32767) * ONE
        if kind < 0.85:
            return self.choice(NEAR_LIMITS)
        if kind < 0.93:
            return self.random.randint(-9 * ONE, 9 * ONE)
        return self.random.randint(second.LEAST, second.GREATEST)

    def numbers(self, count):
        return self.spell_all(self.bits() for _ in range(count))

    def form_byte(self):
        """Returns a byte that encodes an integer by itself and is a harmless mask byte."""
        return bytes([self.random.randint(0x20, 0xF6)])

    # Parts of a routine. Each begins and mostly ends with an empty stack.

    def show(self):
        """Returns an operator that outputs the whole stack."""
        return self.numbers(1) + CODES[self.choice(["HLineTo", "VLineTo"])]

    def path(self):
        """Returns a path operator; one in ten has an extra operand, so that the first gives the width."""
        name = self.choice(PATHS)
        count = self.choice(COUNTS[name][:4])
        if self.chance(0.03):
            count = self.choice(COUNTS[name]) + self.choice([0, 6, 30, 48, 510])
        count += self.chance(0.1)
        if self.slip():
            count = max(0, count - self.random.randint(1, 5))
        elif self.chance(0.05):
            count += self.random.randint(1, 12)
        return self.numbers(count) + CODES[name]

    def stem_part(self):
        """Returns stem operators, then perhaps masks, the first with more, implied stems."""
        part = b""
        for _ in range(self.choice([0, 1, 1, 2, 3])):
            count = self.stem_operands()
            if count < 2 and not self.slip():
                count += 2
            part += self.numbers(count) + CODES[self.choice(second.STEMS)]
            self.stems += count // 2
        for _ in range(self.choice([0, 1, 1, 1, 2, 3])):
            part += self.mask(self.stem_operands() if self.chance(0.4) else 0)
        return part

    def stem_operands(self):
        pairs = self.choice([0, 1, 2, 2, 3, 4, 7, 8]) if self.chance(0.95) else self.random.randint(9, 120)
        return 2 * pairs + self.chance(0.2)

    def mask(self, operands):
        self.stems += operands // 2
        size = (self.stems + 7) // 8
        if self.slip():
            size = max(0, size + self.choice([-1, 1, 2]))
        filling = b"".join(self.form_byte() for _ in range(size))
        if self.chance(0.3):
            filling = self.random.randbytes(size)
        return self.numbers(operands) + CODES[self.choice(second.MASKS)] + filling

    def plain_change(self):
        """Returns one operator that changes the top of the stack, with operands of any kind."""
        name = self.choice(CHANGING)
        count = second.EFFECTS[name][0] + self.choice([0, 0, 0, 1, 3])
        if self.slip():
            count = max(0, count - self.random.randint(1, 2))
        operands = [self.choice([0, self.bits(), self.bits()]) for _ in range(count)]
        if name == "Sqrt" and operands:
            operands[-1] = -1 if self.slip() else abs(clamp(-abs(operands[-1]) + 1))
        if name == "Div" and operands:
            operands[-1] = 0 if self.slip() else operands[-1] or ONE
        return self.spell_all(operands) + CODES[name]

    def equal_or_near(self):
        """Returns Eq or IfElse on numbers that are equal or nearly so."""
        left = self.bits()
        right = clamp(left + self.choice([-1, 0, 0, 1]))
        if self.chance(0.5):
            return self.spell_all([left, right]) + CODES["Eq"]
        return self.numbers(2) + self.spell_all([left, right]) + CODES["IfElse"]

    def sum_near_limit(self):
        limit = self.choice([second.LEAST, second.GREATEST])
        left = self.bits()
        right = limit - left + self.near_step(limit)
        if self.chance(0.5):
            return self.spell_all([left, clamp(right)]) + CODES["Add"]
        return self.spell_all([left, clamp(-right)]) + CODES["Sub"]

    def near_step(self, limit):
        """Returns a small step, mostly back from a limit to a value that fits."""
        inwards = -1 if limit > 0 else 1
        return -inwards * self.random.randint(1, 2) if self.slip() else inwards * self.random.randint(0, 2)

    def product_near_limit(self):
        limit = self.choice([second.LEAST, second.GREATEST])
        left = self.bits() or ONE
        right = limit * ONE // left + self.random.randint(-2, 2)
        if not self.slip() and not second.LEAST <= second.cut(left * right, ONE) <= second.GREATEST:
            right -= self.choice([3, ONE]) if right > 0 else -3
        return self.spell_all([left, clamp(right)]) + CODES["Mul"]

    def quotient_near_limit(self):
        limit = self.choice([second.LEAST, second.GREATEST])
        right = self.choice([self.random.randint(1, 2 * ONE), self.choice([1, -1, 2, 3, ONE, -ONE, ONE - 1])])
        left = clamp(limit * right // ONE + self.random.randint(-2, 2))
        if not self.slip() and not second.LEAST <= second.cut(left * ONE, right) <= second.GREATEST:
            left //= 2
        return self.spell_all([left, right]) + CODES["Div"]

    def root_near_square(self):
        exact = self.random.randint(0, 1 << self.random.randint(1, 23))
        square = -(-exact * exact // ONE) + self.choice([-1, 0, 0, 1])
        square = clamp(self.choice([square, square, second.GREATEST, exact * exact * ONE]))
        return self.spell(max(square, 0)) + CODES["Sqrt"]

    def shuffle(self):
        """Returns Index or Roll, on a known number of operands, with unusual arguments."""
        count = self.random.randint(1, 9) if self.chance(0.97) else self.random.randint(10, 300)
        part = self.numbers(count)
        if self.chance(0.4):
            below = self.choice([0, 1, count - 1, count // 2, -1, -2, -32768])
            if self.slip():
                below = self.choice([count, count + 1, 32767])
            return part + self.argument(below) + CODES["Index"]
        span = self.choice([0, 1, 2, count, count, count - 1])
        if self.slip() or span > count:
            span = self.choice([count + 1, -1, -32768, 32767, count])
        shift = self.choice([0, 1, -1, span, span + 1, -span, -span - 1, 32767, -32768,
                             self.random.randint(-20, 20)])
        shift = max(-32768, min(32767, shift))
        return part + self.argument(span) + self.argument(shift) + CODES["Roll"]

    def argument(self, value):
        """Encodes an integer; on a slip, a number that is not an integer."""
        return self.spell(clamp(value * ONE + (self.choice([1, -1, ONE // 2]) if self.slip() else 0)))

    def place(self):
        """Returns the index of a stored number, mostly one of a few; on a slip, an invalid index."""
        if self.slip():
            return self.argument(self.choice(NO_PLACES))
        return self.argument(self.choice(PLACES) if self.chance(0.9) else self.random.randint(0, 31))

    def store(self):
        """Returns some numbers, and stores the last one."""
        count = 0 if self.slip() else self.choice([1, 1, 1, 2])
        return self.numbers(count) + self.place() + CODES["Put"]

    def fetch(self):
        return self.place() + CODES["Get"]

    def storage_part(self):
        """Returns stores, fetches and changes of numbers; the operands left on the stack are output or stay."""
        draws = [
            (4, self.store),
            (4, self.fetch),
            (2, lambda: self.fetch() + self.numbers(1) + CODES["Add"] + self.place() + CODES["Put"]),
            (1, lambda: self.fetch() + self.fetch() + self.place() + CODES["Put"] + self.place() + CODES["Put"]),
        ]
        part = b"".join(self.choice_by(draws) for _ in range(self.random.randint(1, 4)))
        return part if self.chance(0.3) else part + self.fetch() + CODES[self.choice(["HLineTo", "VLineTo"])]

    def change_part(self):
        """Returns some operators that change the top of the stack, then mostly one that outputs the stack."""
        changes = [self.plain_change] * 6 + [self.shuffle] * 3 + [
            self.equal_or_near, self.sum_near_limit, self.product_near_limit, self.quotient_near_limit,
            self.root_near_square]
        part = b"".join(self.choice(changes)() for _ in range(self.random.randint(1, 3)))
        return part if self.chance(0.1) else part + self.show()

    def odd_part(self):
        """Returns an operator with random operands, or one that is unknown or not supported."""
        if self.chance(0.3):
            return self.choice(UNKNOWN)
        if self.chance(0.3):
            return self.numbers(self.random.randint(0, 4)) + CODES["Random"]
        return self.numbers(self.random.randint(0, 14)) + self.choice(list(CODES.values()))

    # Calls and routines.

    def call(self, targets):
        """Returns a call of a subroutine, perhaps with operands for it."""
        part = self.numbers(self.choice([0, 0, 0, 1, 2, 4]))
        if not targets or self.slip():
            name = self.choice(second.CALLS)
            past = self.sizes[name] - second.bias(self.sizes[name])
            operand = self.choice([-32768, -1131, -108, -107, -106, 0, 106, 107, 108, 1131, 32767,
                                   past, past, self.random.randint(-200, 200)])
            return part + self.argument(max(-32768, min(32767, operand))) + CODES[name]
        name, place = self.choice(targets)
        return part + self.call_of(name, place)

    def call_of(self, name, place):
        operand = place - second.bias(self.sizes[name])
        if self.slip():
            operand = max(-32768, min(32767, operand + self.choice([-1, 1, 107, -107, 1024, -1024])))
        if self.chance(0.05) and -32000 < operand < 32000:
            step = self.random.randint(-300, 300)
            return self.spell_all([(operand - step) * ONE, step * ONE]) + CODES["Add"] + CODES[name]
        return self.argument(operand) + CODES[name]

    def body(self, targets, parts):
        """Returns some parts of a routine, without its end."""
        body = b""
        for _ in range(parts):
            kind = self.random.random()
            if kind < 0.30:
                body += self.path()
            elif kind < 0.44:
                body += self.change_part()
            elif kind < 0.50:
                body += self.storage_part()
            elif kind < 0.65:
                body += self.stem_part()
            elif kind < 0.92:
                body += self.call(targets) if targets or self.slip() else self.path()
            elif self.slip():
                body += self.odd_part()
        return body

    def code_end(self):
        return self.choice_by([
            (60, lambda: b"\x0e"),
            (12, lambda: self.some_numbers(1, 6) + b"\x0e"),
            (8, lambda: b""),
            (5, lambda: b"\x0e" + self.some_bytes()),
            (3, lambda: b"\x0b"),
            (3, lambda: self.some_numbers(1, 3)),
            (2, lambda: self.choice(CUT_NUMBERS)),
        ])

    def subroutine_end(self):
        return self.choice_by([
            (60, lambda: b"\x0b"),
            (14, lambda: self.some_numbers(1, 5) + b"\x0b"),
            (5, lambda: b"\x0b" + self.some_bytes()),
            (4, lambda: b""),
            (4, lambda: self.some_numbers(0, 6) + b"\x0e"),
            (2, lambda: b"\x0e" + self.some_bytes()),
            (1, lambda: self.some_numbers(1, 3)),
            (1, lambda: self.choice(CUT_NUMBERS)),
        ])

    def some_numbers(self, least, most):
        return self.numbers(self.random.randint(least, most))

    def some_bytes(self):
        return self.random.randbytes(self.random.randint(1, 3))

    def choice_by(self, weighted):
        """Calls one of several functions, chosen by weight, and returns its result."""
        draws = [draw for _, draw in weighted]
        return self.random.choices(draws, [weight for weight, _ in weighted])[0]()

    def list_size(self):
        kind = self.random.random()
        if kind < 0.985:
            return self.choice(SHORT_LISTS)
        return self.choice(LONG_LISTS) if kind < 0.9993 else self.choice(LONGEST_LISTS)

    def places(self, size):
        """Returns the indexes of a list whose subroutines are made at random; the others push their index."""
        if size <= 12:
            return list(range(size))
        known = {0, 1, size - 1, size - 2, min(size, 65536) - 1, size // 2, self.random.randrange(size)}
        return sorted(place for place in known if place < 65536)

    def empty_lists(self):
        """Returns two lists whose subroutines push a number by their index, and the indexes to replace."""
        lists = {}
        targets = []
        for name in second.CALLS:
            size = self.list_size()
            self.sizes[name] = size
            marks = [whole_spellings(place % 60000 - 30000)[0] + b"\x0b" for place in range(size)]
            lists[name] = marks if size > 12 else [b""] * size
            targets += [(name, place) for place in self.places(size)]
            if size > 12:
                self.targets += [(name, self.random.randrange(min(size, 65536))) for _ in range(4)]
        self.random.shuffle(targets)
        return lists, targets

    def start(self):
        self.slips = self.choice([0.0, 0.0, 0.0, 0.01, 0.03, 0.1, 0.3])
        self.stems = 0
        self.targets = []

    def grammatical(self):
        """Returns a program whose subroutines mostly call those made before them."""
        self.start()
        lists, targets = self.empty_lists()
        drawn = list(self.targets)
        for name, place in targets:
            callees = targets if self.slip() else drawn
            routine = self.body(callees[-3:], self.choice([0, 1, 1, 2])) + self.subroutine_end()
            lists[name][place] = routine
            drawn.append((name, place))
        self.stems = self.stems if self.chance(0.2) else 0
        code = self.body(drawn, self.choice([0, 1, 2, 3, 4, 5, 6, 8, 12])) + self.code_end()
        return Program(code, lists["CallGSubr"], lists["CallSubr"])

    def ladder(self):
        """Returns a program whose charstring calls a subroutine, which calls a subroutine, and so on."""
        self.start()
        rungs = self.rungs(self.choice([1, 2, 3, 5, 8, 9, 10, 10, 10, 11, 12]))
        lists = {name: [b""] * self.sizes[name] for name in second.CALLS}
        endings = self.choice([[b"\x0b"], [b""], [b"\x0b", b""], [b"\x0b", b"\x0b", b"\x0e"], None])
        for (name, place), below in zip(rungs, rungs[1:]):
            body = self.few_parts() + self.call_of(*below) + self.few_parts()
            lists[name][place] = body + (self.choice(endings) if endings else self.subroutine_end())
        name, place = rungs[-1]
        last_end = self.choice([b"\x0e", b"\x0e\x0b", b""]) if self.chance(0.4) else self.subroutine_end()
        lists[name][place] = self.few_parts() + last_end
        code = self.few_parts() + self.call_of(*rungs[0]) + self.few_parts() + self.code_end()
        return Program(code, lists["CallGSubr"], lists["CallSubr"])

    def rungs(self, count):
        """Returns this many subroutines spread over both lists, and sets the sizes of the lists."""
        self.sizes = {name: 0 for name in second.CALLS}
        rungs = []
        for _ in range(count):
            name = self.choice(second.CALLS)
            rungs.append((name, self.sizes[name]))
            self.sizes[name] += 1
        return rungs

    def few_parts(self):
        return self.body([], self.choice([0, 0, 1]))

    def tower(self):
        """Returns a program whose subroutines each call the next several times, for long executions."""
        self.start()
        self.slips = 0.0
        rungs = self.rungs(self.random.randint(3, 10))
        lists = {name: [b""] * self.sizes[name] for name in second.CALLS}
        for (name, place), below in zip(rungs, rungs[1:]):
            calls = [self.call_of(*below) for _ in range(self.choice([1, 2, 2, 3, 4]))]
            lists[name][place] = self.few_parts() + b"".join(calls) + self.few_parts() + b"\x0b"
        name, place = rungs[-1]
        lists[name][place] = self.numbers(self.choice([0, 1, 2])) + self.few_parts() + b"\x0b"
        code = self.few_parts() + self.call_of(*rungs[0]) + self.few_parts() + self.code_end()
        return Program(code, lists["CallGSubr"], lists["CallSubr"])

    def many_stems(self):
        """Returns a program with a large number of stems, then a mask."""
        pairs = self.choice(MANY_STEMS)
        implied = self.random.randint(0, pairs)
        stems = self.form_byte() * (2 * (pairs - implied) + self.chance(0.3)) + CODES["HStemHM"]
        mask = self.form_byte() * (2 * implied) + CODES["HintMask"]
        size = (pairs + 7) // 8 + self.choice([-1, 0, 0, 0, 1])
        code = stems + mask + self.form_byte() * size + self.show() + self.code_end()
        return Program(code, [], [])

    def random_bytes_program(self):
        """Returns bytes without any grammar, at most with many operators among them."""
        sizes = [self.choice([0, 0, 0, 1, 2, 5]) for _ in second.CALLS]
        routines = [self.random_routine() for _ in range(1 + sum(sizes))]
        return Program(routines[0], routines[1:1 + sizes[0]], routines[1 + sizes[0]:])

    def random_routine(self):
        size = self.random.randint(0, 40)
        if self.chance(0.4):
            return self.random.randbytes(size)
        operators = list(CODES.values())
        return b"".join(self.choice(operators) if self.chance(0.3) else self.form_byte() for _ in range(size))

    # Truncations and changes of a program.

    def changed(self, program):
        for _ in range(self.choice([1, 1, 1, 2, 3])):
            if self.chance(0.05):
                program.global_, program.local = program.local, program.global_
            elif self.chance(0.05) and program.local:
                program.local = program.local[:-1]
            else:
                self.change_routine(program)
        return program

    def change_routine(self, program):
        routines = self.choice([program.global_, program.local])
        if not routines or self.chance(0.5):
            program.code = self.change_bytes(program.code)
        else:
            place = self.random.randrange(len(routines))
            routines[place] = self.change_bytes(routines[place])

    def change_bytes(self, routine):
        place = self.random.randint(0, len(routine))
        before, after = routine[:place], routine[place:]
        kind = self.random.randrange(6)
        if kind == 0:
            return before
        if kind == 1:
            return before + after[1:]
        if kind == 2:
            return before + self.random.randbytes(1) + after
        if kind == 3:
            return before + self.random.randbytes(1) + after[1:]
        if kind == 4 and after:
            return before + bytes([after[0] ^ 1 << self.random.randrange(8)]) + after[1:]
        return before + after[:self.random.randint(0, 8)] + after


class Comparison:
    """Sends programs, compares the answers and counts."""

    def __init__(self, psfont):
        self.psfont = psfont
        self.compared = 0
        self.left_out = 0
        self.different = 0
        self.unanswered = 0
        self.complaints = 0
        self.endings = collections.Counter()

    def batch(self, programs):
        """Compares some programs with one process."""
        kept = []
        for program in programs:
            try:
                expected, fault = program.expected()
            except second.TooLong:
                self.left_out += 1
                continue
            kept.append((program.lines(), expected))
            self.endings[fault] += 1
        self.compare_all(kept, *self.ask([lines for lines, _ in kept]))

    def compare_all(self, kept, answers, complaint):
        """Compares the programs up to the first one without an answer, and counts those after it."""
        for number, (lines, expected) in enumerate(kept[:len(answers) + 1]):
            self.compare(lines, expected, answers[number] if number < len(answers) else None)
        self.unanswered += max(0, len(kept) - len(answers) - 1)
        if complaint or len(answers) > len(kept):
            self.complaints += 1
            print(f"psfont gave {len(answers)} answers to {len(kept)} programs {complaint}", flush=True)

    def ask(self, programs):
        """Returns the answers of one process to these programs, and a complaint if it did not end well."""
        text = "".join("\n".join(lines + ["run", "flat"]) + "\n" + MARK for lines in programs)
        try:
            done = subprocess.run([self.psfont], input=text.encode(), stdout=subprocess.PIPE,
                                  stderr=subprocess.PIPE, timeout=MOST_SECONDS, check=False)
        except subprocess.TimeoutExpired as late:
            return self.parts(late.stdout or b""), f"and did not end within {MOST_SECONDS} seconds"
        complaint = "" if done.returncode == 0 and not done.stderr else f"with status {done.returncode}"
        return self.parts(done.stdout), complaint + done.stderr.decode(errors="replace")[:2000]

    @staticmethod
    def parts(output):
        parts = output.decode(errors="replace").split(MARK_ANSWER)
        return parts if parts[-1] else parts[:-1]

    def compare(self, lines, expected, answer):
        self.compared += 1
        if answer == "\n".join(expected) + "\n":
            return
        self.different += 1
        print("difference; handed over:")
        show_lines(lines + ["run", "flat"])
        print("the second interpreter answers:")
        show_lines(expected)
        print("psfont answers:")
        show_lines(["nothing"] if answer is None else answer.splitlines())
        print(flush=True)

    def print_counts(self):
        print(f"compared {self.compared} programs,",
              f"left out {self.left_out} of more than {MOST_PHRASES} phrases")
        print(f"ended without a fault: {self.endings[None]}")
        for fault in sorted(fault for fault in self.endings if fault is not None):
            print(f"ended by fault {fault}: {self.endings[fault]}")
        if self.unanswered or self.complaints:
            print(f"without an answer: {self.unanswered} more; psfont ended badly: {self.complaints}")
        print(f"different: {self.different}")


def show_lines(lines):
    for line in lines[:MOST_LINES_SHOWN]:
        print("    " + line)
    if len(lines) > MOST_LINES_SHOWN:
        print(f"    and {len(lines) - MOST_LINES_SHOWN} more lines, the last of them {lines[-1]}")


def arguments():
    parser = argparse.ArgumentParser(description="Compares psfont with a second interpreter.")
    parser.add_argument("--seed", type=int, default=1)
    parser.add_argument("--count", type=int, default=100000)
    parser.add_argument("psfont", nargs="?", type=pathlib.Path, default=PSFONT)
    return parser.parse_args()


def main():
    given = arguments()
    print(f"seed {given.seed}", flush=True)
    drawer = Drawer(given.seed)
    comparison = Comparison(given.psfont.resolve())
    for first in range(0, given.count, BATCH):
        comparison.batch([drawer.program() for _ in range(min(BATCH, given.count - first))])
    comparison.print_counts()
    print(f"seed {given.seed}")
    return 1 if comparison.different or comparison.complaints else 0


if __name__ == "__main__":
    sys.exit(main())
