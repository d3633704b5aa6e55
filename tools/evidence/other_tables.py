"""Explains why FreeType 2.12.1 gets other coordinates and advances than the rules give, for changed `fvar`, `avar` and `HVAR` tables.

This module is for tools/evidence/changed_variable.py. The rules are those of tools/evidence/axes.py, in integers; they must give the
program's value. FreeType deviates from them in the ways named below; with all of these the result must be FreeType's value. A reason is
the smallest set of deviations that turns one value into the other, for a coordinate within 2^-14. There is no reason if either value is
not as computed.
"""

import itertools

import axes

PAST = "a value past an end of the axis that is its default (FreeType has -1 or 1 there, the rules the default, 0)"
ORDER = "an axis out of order (FreeType has -1 or 1 for what is not the default, the rules here 0)"
TAGS = "two axes of one tag (the last value of the tag counts for both here, FreeType takes values by their numbers)"
CUT = "a table avar that is cut or too short for its axes (left out here)"
OTHER_AVAR = "a table avar of another minor version, with its reserved bytes set or of another count of axes (left out by FreeType)"
REQUIRED = "a segment map without its entries for -1, 0 and 1 (it changes nothing here)"
ENTRIES = "a segment map with entries out of order or twice (the first entry that is not below counts here, FreeType's is the first above)"
COORDINATES = [PAST, ORDER, TAGS, CUT, OTHER_AVAR, REQUIRED, ENTRIES]

FAR = "other coordinates, for a reason above"
NEAR = "coordinates that are rounded to 2^-14 here and not by FreeType"
WRAPS = "a sum past 16 bits, or an advance below 0 or past 65,535 (FreeType wraps)"


class Left(Exception):
    """Why FreeType ignores a table."""


def signed(number, size):
    return number - (1 << 8 * size) if number >> (8 * size - 1) else number


class File:
    """A file, and the location of a table in it."""

    def __init__(self, data, span):
        self.data, (self.start, self.length) = data, span

    def at(self, place, size):
        """Returns a number of the table, or of the bytes after it in the file."""
        place += self.start
        if place < 0 or place + size > len(self.data):
            raise Left("a place past the file")
        return int.from_bytes(self.data[place:place + size], "big")

    def signed_at(self, place, size):
        return signed(self.at(place, size), size)


# ---- coordinates


def axes_of(fvar):
    """Returns the tag and the minimum, default and maximum of each axis."""
    places = [fvar.at(4, 2) + 20 * i for i in range(fvar.at(8, 2))]
    return [(fvar.at(place, 4), [fvar.signed_at(place + 4 * k, 4) for k in (1, 2, 3)]) for place in places]


def maps_of(avar):
    """Returns the segment map of each axis, and whether one is truncated; FreeType reads 0 there."""
    maps, place, is_cut = [], 8, avar.length < 8
    for _ in range(0 if is_cut else avar.at(6, 2)):
        inside = lambda at: avar.at(at, 2) if at + 2 <= avar.length else 0
        count = inside(place)
        is_cut = is_cut or place + 2 + 4 * count > avar.length
        if count * 4 > avar.length:
            return None, True
        entries = [(signed(inside(place + 2 + 4 * i), 2), signed(inside(place + 4 + 4 * i), 2)) for i in range(count)]
        maps.append(entries)
        place += 2 + 4 * count
    return maps, is_cut


def maps_taken(avar, count, ways):
    """Returns the maps that are used, or None if the table is ignored."""
    maps, is_cut = maps_of(avar)
    if OTHER_AVAR in ways and (avar.at(0, 4) != 0x10000 or avar.at(4, 4) != count):
        return None
    if maps is None or (is_cut and CUT not in ways) or avar.at(0, 2) != 1:
        return None
    return maps


def normalized(ends, value, ways):
    minimum, default, maximum = ends
    is_out = not minimum <= default <= maximum
    if is_out and ORDER in ways or not is_out and PAST in ways and default in (minimum, maximum):
        if value > default and (is_out or value >= maximum):
            return 65536
        if value < default and (is_out or value <= minimum):
            return -65536
    return axes.normalized(ends, value)


def mul_div(a, b, c):
    """Rounds to the nearest integer, halves away from 0; returns a huge number for a division by 0."""
    sign = -1 if (a < 0) ^ (b < 0) ^ (c < 0) else 1
    return sign * ((abs(a) * abs(b) + abs(c) // 2) // abs(c) if c else 0x7FFFFFFF)


def first_above(entries, at):
    """Interpolates as FreeType does: between the first entry above `at`, ignoring entry 0, and the one before it."""
    entries = [(start * 4, to * 4) for start, to in entries]
    for (before, left), (start, to) in zip(entries, entries[1:]):
        if at < start:
            return mul_div(at - before, to - left, start - before) + left
    return at


def mapped(entries, at, ways):
    known = [entries[i:i + 1] for i in (axes.first_from(entries, end) for end in (-16384, 0, 16384))]
    is_required = known == [[(end, end)] for end in (-16384, 0, 16384)]
    if not is_required:
        return first_above(entries, at) if REQUIRED in ways else at
    is_rising = all(a < b for (a, _), (b, _) in zip(entries, entries[1:]))
    return first_above(entries, at) if ENTRIES in ways and not is_rising else axes.mapped(entries, at)


def coordinate(fvar, avar, asked, axis, ways):
    """Returns a coordinate in 16.16."""
    all_axes = axes_of(fvar)
    tag, ends = all_axes[axis]
    value = asked[axis] if TAGS in ways else [value for (other, _), value in zip(all_axes, asked) if other == tag][-1]
    at = normalized(ends, value, ways)
    maps = maps_taken(avar, len(all_axes), ways)
    return mapped(maps[axis], at, ways) if maps and axis < len(maps) else at


def fewest(ways, reaches):
    """Returns the smallest set of deviations that satisfies a condition, or None."""
    for size in range(len(ways) + 1):
        for chosen in itertools.combinations(ways, size):
            if reaches(chosen):
                return "; ".join(chosen)
    return None


def why_coordinate(data, spans, axis, asked, told):
    """Returns the reason of a differing coordinate; `told` is ours, in 2.14, and FreeType's, in 16.16."""
    fvar, avar = (File(data, spans[tag]) for tag in (b"fvar", b"avar"))
    ours, theirs = told
    if axes.shortened(coordinate(fvar, avar, asked, axis, ())) != ours:
        return None
    if coordinate(fvar, avar, asked, axis, COORDINATES) != theirs:
        return None
    return fewest(COORDINATES, lambda ways: abs(4 * axes.shortened(coordinate(fvar, avar, asked, axis, ways)) - theirs) <= 4)


# ---- advances


def regions_of(hvar, store):
    """Returns the offset of the store's region list, its numbers of axes and regions, and the offsets of the item variation data, with
    FreeType's checks."""
    if hvar.at(store, 2) != 1:
        raise Left("another format of the store")
    count = hvar.at(store + 6, 2)
    if not count:
        raise Left("no item variation data")
    places = [store + hvar.at(store + 8 + 4 * i, 4) for i in range(count)]
    place = store + hvar.at(store + 2, 4)
    return place, hvar.at(place, 2), hvar.at(place + 2, 2), places


def data_at(hvar, place, regions):
    """Returns the offset of the delta sets of item variation data, their number, the number of wide deltas and the region indexes, with
    FreeType's checks."""
    items, sizes, count = (hvar.at(place + k, 2) for k in (0, 2, 4))
    if sizes % 32768 > count:
        raise Left("more wide deltas than regions")
    if count > regions:
        raise Left("more regions of item variation data than the list has")
    indexes = [hvar.at(place + 6 + 2 * i, 2) for i in range(count)]
    if any(index >= regions for index in indexes):
        raise Left("a region past the list")
    if sizes >= 32768:
        raise Left("long words")
    row = count + sizes
    if count and items and hvar.start + place + 6 + 2 * count + items * row > len(hvar.data):
        raise Left("a place past the file")
    return place + 6 + 2 * count, items, sizes, indexes


def index_of(hvar, place, data, glyph):
    """Returns the indexes of a glyph if FreeType accepts the whole map."""
    form, entry_form = hvar.at(place, 1), hvar.at(place + 1, 1)
    if form > 1:
        raise Left("another format of the map")
    count = hvar.at(place + 2, 2 + 2 * form)
    if entry_form & 0xC0:
        raise Left("an entry format with reserved bits")
    size, bits = (entry_form >> 4 & 3) + 1, (entry_form & 15) + 1
    if count * size > hvar.length:
        raise Left("more entries of the map than the table has")
    entries = [divmod(hvar.at(place + 4 + 2 * form + size * i, size), 1 << bits) for i in range(count)]
    if any(outer >= len(data) or inner >= data[outer][1] for outer, inner in entries):
        raise Left("an entry of the map past the item variation data or their delta sets, of any glyph")
    return entries[min(glyph, count - 1)] if entries else (0, glyph)


def taken(hvar, count_of_axes, glyph):
    """Returns the deltas of a glyph and the region of each as FreeType reads them; raises Left if it ignores the table."""
    if hvar.at(0, 2) != 1:
        raise Left("another version")
    place, count, regions, places = regions_of(hvar, hvar.at(4, 4))
    if count != count_of_axes:
        raise Left("regions of another count of axes than fvar")
    if regions >= 32768:
        raise Left("more than 32,767 regions")
    hvar.at(place + 4, regions * count * 6)
    data = [data_at(hvar, at, regions) for at in places]
    outer, inner = index_of(hvar, hvar.at(8, 4), data, glyph) if hvar.at(8, 4) else (0, glyph)
    if inner >= data[outer][1]:
        raise Left("no delta set of the glyph")
    first, _, wide, indexes = data[outer]
    row = first + inner * (len(indexes) + wide)
    deltas = [hvar.signed_at(row + 2 * j, 2) if j < wide else hvar.signed_at(row + wide + j, 1) for j in range(len(indexes))]
    span = lambda region, axis: [hvar.signed_at(place + 4 + (region * count + axis) * 6 + k, 2) * 4 for k in (0, 2, 4)]
    return deltas, [[span(region, axis) for axis in range(count)] for region in indexes]


def delta_set(hvar, glyph):
    """Returns the deltas of a glyph and the region of each by the rules; None for a region index that is too large."""
    store = hvar.at(4, 4)
    list_at = store + hvar.at(store + 2, 4)
    count, regions = hvar.at(list_at, 2), hvar.at(list_at + 2, 2)
    outer, inner = 0, glyph
    if hvar.at(8, 4):
        place = hvar.at(8, 4)
        form, entry_form = hvar.at(place, 1), hvar.at(place + 1, 1)
        entries, size = hvar.at(place + 2, 2 + 2 * form), (entry_form >> 4 & 3) + 1
        if entries:
            at = place + 4 + 2 * form + size * min(glyph, entries - 1)
            outer, inner = divmod(hvar.at(at, size), 1 << (entry_form & 15) + 1)
    place = store + hvar.at(store + 8 + 4 * outer, 4)
    sizes, used = hvar.at(place + 2, 2), hvar.at(place + 4, 2)
    wide, size = sizes % 32768, 2 if sizes >= 32768 else 1
    row = place + 6 + 2 * used + inner * (used + wide) * size
    deltas = [hvar.signed_at(row + 2 * size * j, 2 * size) if j < wide else hvar.signed_at(row + (wide + j) * size, size) for j in range(used)]
    span = lambda region, axis: [hvar.signed_at(list_at + 4 + (region * count + axis) * 6 + k, 2) * 4 for k in (0, 2, 4)]
    indexes = [hvar.at(place + 6 + 2 * j, 2) for j in range(used)]
    return deltas, [[span(region, axis) for axis in range(count)] if region < regions else None for region in indexes]


def total(deltas, regions, coordinates):
    """Returns the sum in whole units; spans and coordinates are in 16.16."""
    at = [*coordinates, *[0] * 64]
    return (sum(delta * (axes.scalar(region, at)[0] if region is not None else 0) for delta, region in zip(deltas, regions)) + 32768) >> 16


def advance(hvar, count, glyph, coordinates, left):
    """Returns the delta by the rules, or as FreeType reads the table."""
    if not left:
        return total(*delta_set(hvar, glyph), coordinates)
    try:
        return total(*taken(hvar, count, glyph), coordinates)
    except Left:
        return 0


def wrapped(delta, standard):
    """Returns what FreeType adds to the advance in `hmtx`."""
    return (standard + signed(delta % 65536, 2)) % 65536 - standard


def why_left(hvar, count, glyph):
    try:
        taken(hvar, count, glyph)
    except Left as why:
        return f"HVAR left out by FreeType: {why}"
    return "deltas as FreeType reads them"


def why_advance(data, spans, glyph, asked, told):
    """Returns the reason of a differing advance; `told` is our delta, FreeType's, the advance in `hmtx`, and FreeType's coordinates."""
    fvar, avar, hvar = (File(data, spans[tag]) for tag in (b"fvar", b"avar", b"HVAR"))
    ours, theirs, standard, *there = told
    here = [4 * axes.shortened(coordinate(fvar, avar, asked, axis, ())) for axis in range(len(there))]
    place = FAR if any(abs(a - b) > 4 for a, b in zip(here, there)) else NEAR
    left = why_left(hvar, len(axes_of(fvar)), glyph)

    def with_ways(ways):
        delta = advance(hvar, len(axes_of(fvar)), glyph, there if place in ways else here, left in ways)
        return wrapped(delta, standard) if WRAPS in ways else delta

    ways = [place, left, WRAPS]
    if with_ways(()) != ours or with_ways(ways) != theirs:
        return None
    return fewest(ways, lambda chosen: with_ways(chosen) == theirs)
