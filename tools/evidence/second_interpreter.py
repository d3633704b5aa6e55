"""A second interpreter of Type 2 charstrings.

It was written only from the description of the format and of the program `psfont`, without looking at the program's code. So a mistake in
either shows as a difference. Only `put` and `get` were added with the code in sight, from their rules. `run` and `flat` return the lines
that the program prints for its commands of the same names; `tools/evidence/random_programs.py` compares them. The program keeps a chain of
callers and returns one operation at a time. This interpreter evaluates each call to its end before it continues after the call. Numbers
are kept as exact integers: b means b / 65536.

This file is a module; run `python3 tools/evidence/random_programs.py` to use it.
"""

import math

ONE = 65536
LEAST = -(1 << 31)
GREATEST = (1 << 31) - 1
MOST_STEMS = (1 << 32) - 1
DEEPEST = 10
STORED_NUMBERS = 32

CUT_SHORT = 1
UNKNOWN_OPERATOR = 9
UNSUPPORTED = 16
EXPECTED_OPERAND = 17
EXPECTED_INTEGER = 18
EXPECTED_MORE_OPERANDS = 19
MALFORMED_OPERANDS = 20
INVALID_OPERAND = 21
MISSING_SUBROUTINE = 22
RETURN_WITHOUT_CALLER = 23
TRAILING_DATA = 24
TOO_DEEP = 25
OVERFLOW = 26
ZERO_DIVISOR = 27
NEGATIVE_ROOT = 28
TOO_MANY_STEMS = 29

OPERATORS = {
    0x01: "HStem", 0x03: "VStem", 0x04: "VMoveTo", 0x05: "RLineTo", 0x06: "HLineTo", 0x07: "VLineTo",
    0x08: "RRCurveTo", 0x0A: "CallSubr", 0x0B: "Return", 0x0E: "EndChar", 0x12: "HStemHM", 0x13: "HintMask",
    0x14: "CntrMask", 0x15: "RMoveTo", 0x16: "HMoveTo", 0x17: "VStemHM", 0x18: "RCurveLine",
    0x19: "RLineCurve", 0x1A: "VVCurveTo", 0x1B: "HHCurveTo", 0x1D: "CallGSubr", 0x1E: "VHCurveTo",
    0x1F: "HVCurveTo", 0x0C03: "And", 0x0C04: "Or", 0x0C05: "Not", 0x0C09: "Abs", 0x0C0A: "Add",
    0x0C0B: "Sub", 0x0C0C: "Div", 0x0C0E: "Neg", 0x0C0F: "Eq", 0x0C12: "Drop", 0x0C14: "Put", 0x0C15: "Get",
    0x0C16: "IfElse", 0x0C17: "Random", 0x0C18: "Mul", 0x0C1A: "Sqrt", 0x0C1B: "Dup", 0x0C1C: "Exch",
    0x0C1D: "Index", 0x0C1E: "Roll", 0x0C22: "HFlex", 0x0C23: "Flex", 0x0C24: "HFlex1", 0x0C25: "Flex1",
}

STEMS = ("HStem", "VStem", "HStemHM", "VStemHM")
MASKS = ("HintMask", "CntrMask")
CALLS = ("CallSubr", "CallGSubr")

FLAT_CALL = bytes.fromhex("0c12")
FLAT_RETURN = bytes.fromhex("8b0c12")


class Fault(Exception):
    """An error, with the number that the program prints for it."""

    def __init__(self, number):
        super().__init__(number)
        self.number = number


class TooLong(Exception):
    """The execution takes more phrases than the caller allows."""


# The numbers and phrases of a routine.


def is_number(first):
    """Returns whether a number begins with this byte."""
    return first == 0x1C or first >= 0x20


def number_size(first):
    """Returns the size in bytes of a number that begins with this byte."""
    if first == 0x1C:
        return 3
    if first == 0xFF:
        return 5
    return 1 if first <= 0xF6 else 2


def number_bits(spelling):
    """Returns the bits of a number from all of its bytes."""
    first = spelling[0]
    if first == 0xFF:
        return int.from_bytes(spelling[1:], "big", signed=True)
    if first == 0x1C:
        return int.from_bytes(spelling[1:], "big", signed=True) * ONE
    if first <= 0xF6:
        return (first - 139) * ONE
    if first <= 0xFA:
        return ((first - 247) * 256 + spelling[1] + 108) * ONE
    return (-(first - 251) * 256 - spelling[1] - 108) * ONE


def read_numbers(routine, place):
    """Returns all numbers at an offset, and the offset after them."""
    numbers = []
    while place < len(routine) and is_number(routine[place]):
        size = number_size(routine[place])
        spelling = routine[place:place + size]
        if len(spelling) < size:
            raise Fault(CUT_SHORT)
        numbers.append(number_bits(spelling))
        place += size
    return numbers, place


def read_operator(routine, place):
    """Returns the name of the operator at an offset, and the offset after it."""
    size = 2 if routine[place:place + 1] == b"\x0c" else 1
    spelling = routine[place:place + size]
    if len(spelling) < size:
        raise Fault(CUT_SHORT)
    name = OPERATORS.get(int.from_bytes(spelling, "big"))
    if name is None:
        raise Fault(UNKNOWN_OPERATOR)
    return name, place + size


# How many operands each operator that clears the stack takes.


def exactly(count):
    return lambda length: length == count


def multiple(factor):
    return lambda length: length >= factor and length % factor == 0


def fours(length):
    return length >= 4 and length % 4 in (0, 1)


ALLOWED = {
    "RMoveTo": exactly(2),
    "HMoveTo": exactly(1),
    "VMoveTo": exactly(1),
    "RLineTo": multiple(2),
    "HLineTo": multiple(1),
    "VLineTo": multiple(1),
    "RRCurveTo": multiple(6),
    "HHCurveTo": fours,
    "VVCurveTo": fours,
    "HVCurveTo": fours,
    "VHCurveTo": fours,
    "RCurveLine": lambda length: length >= 8 and (length - 2) % 6 == 0,
    "RLineCurve": lambda length: length >= 8 and (length - 6) % 2 == 0,
    "Flex": exactly(13),
    "Flex1": exactly(11),
    "HFlex": exactly(7),
    "HFlex1": exactly(9),
    "HStem": multiple(2),
    "VStem": multiple(2),
    "HStemHM": multiple(2),
    "VStemHM": multiple(2),
    "HintMask": exactly(0),
    "CntrMask": exactly(0),
}


def taken(name, length):
    """Returns the largest allowed count of operands that is at most the stack's length, or None."""
    allowed = ALLOWED[name]
    return next((count for count in range(length, -1, -1) if allowed(count)), None)


def beneath_width(name, length):
    """Returns how many operands are above the one that gives the width, if there is one."""
    if name in MASKS:
        return length - length % 2
    if name == "EndChar":
        return 4 if length >= 4 else 0
    return taken(name, length)


# The operators that only change the top of the stack.


def fit(bits):
    if not LEAST <= bits <= GREATEST:
        raise Fault(OVERFLOW)
    return bits


def cut(left, right):
    """Returns the quotient, truncated towards zero."""
    whole = abs(left) // abs(right)
    return whole if (left < 0) == (right < 0) else -whole


def divide(left, right):
    if right == 0:
        raise Fault(ZERO_DIVISOR)
    return fit(cut(left * ONE, right))


def root(bits):
    if bits < 0:
        raise Fault(NEGATIVE_ROOT)
    return math.isqrt(bits * ONE)


def truth(condition):
    return ONE if condition else 0


EFFECTS = {
    "Abs": (1, lambda a: [fit(abs(a))]),
    "Neg": (1, lambda a: [fit(-a)]),
    "Add": (2, lambda a, b: [fit(a + b)]),
    "Sub": (2, lambda a, b: [fit(a - b)]),
    "Mul": (2, lambda a, b: [fit(cut(a * b, ONE))]),
    "Div": (2, lambda a, b: [divide(a, b)]),
    "Sqrt": (1, lambda a: [root(a)]),
    "And": (2, lambda a, b: [truth(a != 0 and b != 0)]),
    "Or": (2, lambda a, b: [truth(a != 0 or b != 0)]),
    "Not": (1, lambda a: [truth(a == 0)]),
    "Eq": (2, lambda a, b: [truth(a == b)]),
    "IfElse": (4, lambda p, q, v, w: [p if v <= w else q]),
    "Drop": (1, lambda a: []),
    "Exch": (2, lambda a, b: [b, a]),
    "Dup": (1, lambda a: [a, a]),
}


def change_end(name, stack):
    """Replaces the operands at the top of the stack by the operator's results."""
    count, effect = EFFECTS[name]
    if len(stack) < count:
        raise Fault(EXPECTED_MORE_OPERANDS if name == "Dup" else EXPECTED_OPERAND)
    stack[len(stack) - count:] = effect(*stack[len(stack) - count:])


def pop_whole(stack):
    """Pops the top of the stack, which must be an integer."""
    if not stack or stack[-1] % ONE != 0:
        raise Fault(EXPECTED_INTEGER)
    return stack.pop() // ONE


def index(stack):
    below_top = max(pop_whole(stack), 0)
    if below_top >= len(stack):
        raise Fault(EXPECTED_MORE_OPERANDS)
    stack.append(stack[len(stack) - 1 - below_top])


def roll(stack):
    shift = pop_whole(stack)
    span = pop_whole(stack)
    if span < 0:
        raise Fault(INVALID_OPERAND)
    if span > len(stack):
        raise Fault(EXPECTED_MORE_OPERANDS)
    bottom = len(stack) - span
    before = stack[bottom:]
    for place, operand in enumerate(before):
        stack[bottom + (place + shift) % span] = operand


def place_of(number):
    """Returns a number as an index of the stored numbers."""
    if not 0 <= number < STORED_NUMBERS:
        raise Fault(INVALID_OPERAND)
    return number


def put(stack, stored):
    number = pop_whole(stack)
    if not stack:
        raise Fault(EXPECTED_OPERAND)
    operand = stack.pop()
    stored[place_of(number)] = operand


def get(stack, stored):
    stack.append(stored[place_of(pop_whole(stack))])


def bias(count):
    """Returns the bias added to a call's operand, for this number of subroutines in the list."""
    if count < 1240:
        return 107
    return 1131 if count < 33900 else 32768


# How a routine can end without a fault.
USED_UP = "used up"
RETURNED = "returned"
FINISHED = "finished"


class Meaning:
    """The meaning of one charstring with two lists of subroutines."""

    def __init__(self, global_, local, limit):
        self.subroutines = {"CallGSubr": global_, "CallSubr": local}
        self.phrases_left = limit
        self.stack = []
        self.stored = [0] * STORED_NUMBERS
        self.stems = 0
        self.width = None
        self.width_settled = False
        self.answers = []
        self.width_shown = None
        self.trace = bytearray()
        self.fault = None

    def of_code(self, code):
        """Executes the outermost charstring."""
        try:
            if self.mean(code, 0) == FINISHED:
                self.width_shown = self.width
        except Fault as fault:
            self.fault = fault.number
        return self

    def mean(self, routine, depth):
        """Executes a routine while `depth` calls are open, and returns how it ended."""
        place = 0
        while place < len(routine):
            self.count_phrase()
            start = place
            numbers, operator_place = read_numbers(routine, start)
            name, place = read_operator(routine, operator_place)
            self.stack += numbers
            if name in CALLS:
                self.trace += routine[start:operator_place] + FLAT_CALL
                ending = self.mean(self.callee(name, depth), depth + 1)
                if ending == FINISHED and depth > 0 and place < len(routine):
                    raise Fault(TRAILING_DATA)
                if ending != RETURNED:
                    return ending
            elif name == "Return":
                if depth == 0:
                    raise Fault(RETURN_WITHOUT_CALLER)
                self.trace += routine[start:operator_place] + FLAT_RETURN
                return RETURNED
            elif name == "EndChar":
                if depth > 0 and place < len(routine):
                    raise Fault(TRAILING_DATA)
                self.settle_width(name)
                self.trace += routine[start:place]
                return FINISHED
            else:
                place = self.carry_out(name, routine, place)
                self.trace += routine[start:place]
        return USED_UP

    def count_phrase(self):
        if self.phrases_left is None:
            return
        if self.phrases_left == 0:
            raise TooLong
        self.phrases_left -= 1

    def callee(self, name, depth):
        """Returns the subroutine of a call."""
        subroutines = self.subroutines[name]
        place = pop_whole(self.stack) + bias(len(subroutines))
        if not 0 <= place < len(subroutines):
            raise Fault(MISSING_SUBROUTINE)
        if depth >= DEEPEST:
            raise Fault(TOO_DEEP)
        return subroutines[place]

    def carry_out(self, name, routine, place):
        """Executes an operator that stays in its routine; returns the offset of the next phrase."""
        if name in ALLOWED:
            return self.clear(name, routine, place)
        if name in EFFECTS:
            change_end(name, self.stack)
        elif name == "Index":
            index(self.stack)
        elif name == "Roll":
            roll(self.stack)
        elif name == "Put":
            put(self.stack, self.stored)
        elif name == "Get":
            get(self.stack, self.stored)
        else:
            raise Fault(UNSUPPORTED)
        return place

    def clear(self, name, routine, place):
        """Executes an operator that clears the stack, and records it."""
        if name in STEMS or name in MASKS:
            self.stems += len(self.stack) // 2
            if self.stems > MOST_STEMS:
                raise Fault(TOO_MANY_STEMS)
        if name in MASKS:
            place += (self.stems + 7) // 8
            if place > len(routine):
                raise Fault(CUT_SHORT)
        count = taken(name, len(self.stack))
        if count is None:
            raise Fault(MALFORMED_OPERANDS)
        self.settle_width(name)
        self.answers.append((name, self.stack[len(self.stack) - count:]))
        self.width_shown = self.width
        self.stack.clear()
        return place

    def settle_width(self, name):
        if self.width_settled:
            return
        self.width_settled = True
        length = len(self.stack)
        above = beneath_width(name, length)
        if length > above:
            self.width = self.stack[length - above - 1]


# The lines that the program prints.


def shown(bits):
    return str(bits // ONE) if bits % ONE == 0 else f"{bits}/65536"


def run_lines(meaning):
    lines = [" ".join([name, *map(shown, operands)]) for name, operands in meaning.answers]
    lines.append("end" if meaning.fault is None else f"fault {meaning.fault}")
    lines.append("width none" if meaning.width_shown is None else f"width {shown(meaning.width_shown)}")
    return lines


def flat_line(meaning):
    if meaning.fault is not None:
        return f"fault {meaning.fault}"
    return f"flat {meaning.trace.hex()}" if meaning.trace else "flat"


def evaluate(code, global_, local, limit=None):
    """Returns the meaning of a charstring; raises TooLong if it takes more phrases than the limit."""
    return Meaning(global_, local, limit).of_code(code)


def run(code, global_, local, limit=None):
    """Returns the lines that the program prints for `run`."""
    return run_lines(evaluate(code, global_, local, limit))


def flat(code, global_, local, limit=None):
    """Returns the line that the program prints for `flat`."""
    return flat_line(evaluate(code, global_, local, limit))
