"""CFF fonts (.otf files with a `CFF ` or `CFF2` table) and the outlines of their glyphs.

The work is done by a shared library whose source is proved: for any bytes each call returns, reads nothing outside of them, and
gives the result that its contract states. This module calls it through ctypes, and needs nothing else.

    import postscript

    font = postscript.Font.open("font.otf")
    glyph = font.glyph_of("A")
    print(glyph.advance, glyph.bounds, glyph.svg_path())
    glyph.draw(pen)  # a fontTools pen, or anything with its four methods
    print(len(font), font.names[:3], font.cmap[0x41], [glyph.advance for glyph in font])

    variable = postscript.VariableFont.open("variable.otf")
    print(variable.axes, variable.at(wght=650).glyph_of("A").svg_path())
    static = variable.at(wght=650).file()  # the bytes of a font file

Units. Coordinates, bounds and advances are in font units, usually 1000 to the em. They are multiples of 1/65536, so a float
holds them exactly. Glyphs and faces are numbered from 0, and characters are Unicode code points.

Errors. A call that fails raises `Error`: `status` says why, and `glyph` for which glyph, if it is about one.

Memory. A font is read in place from `bytes`, a `bytearray`, a `memoryview`, an `mmap`, or any object with contiguous bytes. The
font and its glyphs keep the object alive, so close an mmap after they are gone (`del font`). Do not modify the buffer, or truncate
a mapped file, while the font is in use.

Threads. The library keeps no state between calls, and the GIL is released during each call. Threads may share a font and its
glyphs, and draw at the same time.

The library is the file named by the environment variable POSTSCRIPT_LIBRARY, or libpostscript.so.0 next to this module, or the
one that the Makefile of the C bindings builds, or the system's. A library of another version raises an `ImportError`.
"""

from __future__ import annotations

import ctypes
import enum
import mmap
import os
import warnings
from ctypes import POINTER, Structure, byref, c_char_p, c_int, c_int32, c_int64, c_size_t, c_ssize_t
from ctypes import c_uint8, c_uint16, c_uint32, c_uint64, c_void_p
from pathlib import Path
from typing import Any, Callable, Dict, Iterable, Iterator, List, Mapping, NamedTuple, Optional, Protocol, Sequence, Tuple, Type, Union

__all__ = [
    "FEATURES", "LIMIT", "VERSION", "Axis", "Bounds", "Buffer", "CharacterMap", "Error", "Font", "Glyph", "Instance", "LayoutWarning",
    "Operation", "Pen", "Place", "Point", "Segment", "SegmentPen", "Status", "VariableFont", "VariableGlyph", "WriteError", "draw",
    "faces", "version",
]  # fmt: skip

__version__ = "0.3.0"

#: The version of this module and of its library: major, minor and patch number.
VERSION = (0, 3, 0)

#: The layout features that a subset keeps by default: those that hb-subset 6.0.0 keeps.
FEATURES: Tuple[str, ...] = tuple(
    (
        "rvrn ccmp liga locl mark mkmk rlig frac numr dnom calt clig curs kern rclt valt "
        "vert vkrn vpal vrt2 ltra ltrm rtla rtlm rand jalt Harf HARF Buzz BUZZ init medi "
        "fina isol med2 fin2 fin3 cswh mset stch ljmo vjmo tjmo nukt akhn rphf rkrf pref "
        "blwf half abvf pstf cfar vatu cjct pres abvs blws psts haln dist abvm blwm"
    ).split()
)

#: Objects that are read without a copy. Any other object with contiguous bytes works too.
Buffer = Union[bytes, bytearray, memoryview, mmap.mmap]

#: A point in font units. Both coordinates are multiples of 1/65536, so they are exact.
Point = Tuple[float, float]

#: A segment of an outline, as in fontTools' RecordingPen: a pen's method and its points.
Segment = Tuple[str, Tuple[Point, ...]]


class Bounds(NamedTuple):
    """A rectangle, in font units."""

    left: float
    bottom: float
    right: float
    top: float


class Operation(NamedTuple):
    """An operation of a glyph: the operator's name and its operands, which are exact multiples of 1/65536. At `hintmask` and
    `cntrmask` it also has the operands of the stems that the mask implies, and the bytes of the mask, one bit per stem (Technical Note
    5177, "Hint Operators")."""

    operator: str
    operands: Tuple[float, ...]
    stems: Tuple[float, ...] = ()
    mask: bytes = b""


class Pen(Protocol):
    """A pen that draws a glyph. The pens of fontTools have these methods."""

    def moveTo(self, pt: Point) -> None: ...

    def lineTo(self, pt: Point) -> None: ...

    def curveTo(self, *points: Point) -> None: ...

    def closePath(self) -> None: ...


class SegmentPen:
    """A pen that records segments, in the form of `Glyph.segments`. `draw` is the way back."""

    def __init__(self) -> None:
        self.segments: List[Segment] = []

    def moveTo(self, pt: Point) -> None:
        self.segments.append(("moveTo", (pt,)))

    def lineTo(self, pt: Point) -> None:
        self.segments.append(("lineTo", (pt,)))

    def curveTo(self, *points: Point) -> None:
        self.segments.append(("curveTo", points))

    def closePath(self) -> None:
        self.segments.append(("closePath", ()))


def draw(segments: Iterable[Segment], pen: Pen) -> None:
    """Draws an outline with a pen, one call per segment, in order."""
    for method, points in segments:
        getattr(pen, method)(*points)


class Status(enum.IntEnum):
    """The status of a call: OK, or the cause of the error. postscript.h explains each."""

    OK = 0
    UNEXPECTED_EOF = 1
    IO = 2
    MEMORY = 3
    TAPE_STUCK = 4
    MALFORMED_OFFSET = 5
    MALFORMED_INDEX = 6
    MALFORMED_NUMBER = 7
    OUT_OF_RANGE_NUMBER = 8
    UNKNOWN_OPERATOR = 9
    MALFORMED_CHAR_SET = 10
    UNKNOWN_CHAR_SET_FORMAT = 11
    UNKNOWN_CHAR_STRING_FORMAT = 12
    MALFORMED_OPERATION = 13
    MISSING_OPERATION = 14
    OUT_OF_RANGE_OFFSET = 15
    UNSUPPORTED = 16
    EXPECTED_OPERAND = 17
    EXPECTED_INTEGER = 18
    EXPECTED_MORE_OPERANDS = 19
    MALFORMED_OPERANDS = 20
    INVALID_OPERAND = 21
    MISSING_SUBROUTINE = 22
    RETURN_WITHOUT_CALLER = 23
    TRAILING_DATA = 24
    TOO_DEEP = 25
    OVERFLOW = 26
    ZERO_DIVISOR = 27
    NEGATIVE_ROOT = 28
    TOO_MANY_STEMS = 29
    ALREADY_FAILED = 30
    NO_GLYPH = 31
    NO_ROOM = 32
    CUT_FILE = 33
    UNKNOWN_FILE = 34
    NO_FACE = 35
    NO_TABLE = 36
    NO_MAP = 37
    NO_NAME = 38
    NO_STATUS = 39
    REFUSED_GLYPH = 40
    SEVERAL_FONTS = 41
    NO_PART = 42
    NO_GLYPHS = 43
    TOO_LARGE = 45
    TOO_LONG = 46
    NO_CODE = 47
    NO_ACCENTS = 48
    NO_COMPONENT = 49
    NESTED_ACCENT = 50
    NO_AXIS = 51
    NO_INSTANCE = 52
    TOO_MANY_COORDINATES = 53
    CUT_FVAR = 54
    UNKNOWN_FVAR = 55
    CUT_AVAR = 56
    UNKNOWN_AVAR = 57
    CUT_HVAR = 58
    UNKNOWN_HVAR = 59
    NO_ADVANCES = 60
    CFF2_HEADER = 61
    CFF2_VERSION = 62
    CFF2_DICTIONARY = 63
    CFF2_SUBROUTINES = 64
    CFF2_OFFSET = 65
    CFF2_INDEX = 66
    CFF2_SELECT = 67
    CFF2_STORE = 68
    CFF2_DATA = 69
    NO_CHARACTER = 70
    OVERLAP = 71
    SAME_TAG = 72
    CUT_TABLE = 73
    NOT_VARIABLE = 74
    UNKNOWN_TABLE = 75


def _status(number: int) -> Union[Status, int]:
    return Status(number) if number in set(Status) else number


class Error(Exception):
    """A call failed. The text and `status` say why. `glyph` is the number of the glyph that the call was about, or None."""

    def __init__(self, status: int, text: Optional[str] = None, glyph: Optional[int] = None) -> None:
        super().__init__(_text_of(status) if text is None else text)
        #: a `Status`, or a number that this module does not know
        self.status: Union[Status, int] = _status(status)
        #: the number of a glyph, from 0
        self.glyph: Optional[int] = glyph

    def __reduce__(self) -> Tuple[Any, ...]:
        return type(self), (int(self.status), str(self), self.glyph)


class LayoutWarning(UserWarning):
    """A layout table of a subset is lost, since it is too large, or costs more than the limit, or is malformed. Or some of its lookups are
    dropped, since their formats are unknown, or because of their classes or sets of marks."""


class WriteError(Error):
    """A font was not written. `glyph` is the glyph that caused it, or None, as for `Status.TOO_LARGE`. For `Status.REFUSED_GLYPH`, `cause` is the error of
    that glyph. `character` is the code point for `Status.NO_CHARACTER`, and `table` the tag for `Status.NO_TABLE` and `SAME_TAG`, and of
    `Place.file` also for `CUT_TABLE` and `UNKNOWN_TABLE`."""

    def __init__(self, status: int, glyph: int, cause: int) -> None:
        means_glyph = status in (Status.REFUSED_GLYPH, Status.NO_GLYPH, Status.NO_PART, Status.NO_NAME)
        text = _text_of(cause if status == Status.REFUSED_GLYPH else status)
        self.character: Optional[int] = glyph if status == Status.NO_CHARACTER else None
        means_table = glyph != 0 and status in (Status.NO_TABLE, Status.SAME_TAG, Status.CUT_TABLE, Status.UNKNOWN_TABLE)
        self.table: Optional[str] = glyph.to_bytes(4, "big").decode("latin-1") if means_table else None
        if means_glyph:
            text = f"glyph {glyph}: {text}"
        elif self.character is not None:
            text = f"U+{glyph:04X}: {text}"
        elif self.table is not None:
            text = f"table {self.table!r}: {text}"
        super().__init__(status, text, glyph if means_glyph else None)
        self._told = int(status), glyph, int(cause)
        self.cause: Optional[Union[Status, int]] = _status(cause) if status == Status.REFUSED_GLYPH else None

    def __reduce__(self) -> Tuple[Any, ...]:
        return type(self), self._told


#: operators by code
_OPERATORS = {
    0x01: "hstem", 0x03: "vstem", 0x04: "vmoveto", 0x05: "rlineto", 0x06: "hlineto", 0x07: "vlineto", 0x08: "rrcurveto",
    0x12: "hstemhm", 0x13: "hintmask", 0x14: "cntrmask", 0x15: "rmoveto", 0x16: "hmoveto", 0x17: "vstemhm", 0x18: "rcurveline",
    0x19: "rlinecurve", 0x1A: "vvcurveto", 0x1B: "hhcurveto", 0x1E: "vhcurveto", 0x1F: "hvcurveto", 0x0C22: "hflex",
    0x0C23: "flex", 0x0C24: "hflex1", 0x0C25: "flex1",
}  # fmt: skip


#: the default limit of a font: how many units a call may spend on a glyph
LIMIT = 20_000_000

#: how many times the limit a whole font may cost when it is written
_GLYPHS = 20

#: the numbers of psf_file_subset for the names of a subset; with "all" the table is copied
_NAMES = {"short": 1, "licence": 2, "all": 0, None: 0}


class _Part(Structure):
    _fields_ = [("local_subroutines", c_uint64), ("default_width", c_int64), ("nominal_width", c_int64)]


class _Font(Structure):
    _fields_ = [
        ("char_strings", c_uint64),
        ("global_subroutines", c_uint64),
        ("font_dictionaries", c_uint64),
        ("fd_select", c_uint64),
        ("part", _Part),
        ("glyphs", c_uint64),
        ("is_cid", c_uint32),
        ("limit", c_uint64),
    ]


class _Segment(Structure):
    _fields_ = [("kind", c_uint32)] + [(name, c_int32) for name in ("x1", "y1", "x2", "y2", "x", "y")]


class _Glyph(Structure):
    _fields_ = [
        ("advance", c_int64),
        ("left", c_int32),
        ("bottom", c_int32),
        ("right", c_int32),
        ("top", c_int32),
        ("has_bounds", c_uint32),
        ("has_width", c_uint32),
    ]


class _Bounds(Structure):
    _fields_ = [(name, c_int32) for name in ("left", "bottom", "right", "top")] + [("has_bounds", c_uint32)]


class _Operation(Structure):
    _fields_ = [(name, c_uint64) for name in ("first", "count", "stems", "mask")] + [("operator_code", c_uint32)]


class _Character(Structure):
    _fields_ = [("character", c_uint32), ("glyph", c_uint32)]


class _Axis(Structure):
    _fields_ = [
        ("tag", c_uint32),
        ("minimum", c_int32),
        ("default_value", c_int32),
        ("maximum", c_int32),
        ("is_hidden", c_uint32),
        ("name", c_uint32),
    ]


class _Instance(Structure):
    _fields_ = [("name", c_uint32), ("flags", c_uint32), ("postscript_name", c_int32)]


class _Layout(Structure):
    _fields_ = [("gsub", c_int32), ("gpos", c_int32), ("gdef", c_int32), ("kern", c_int32), ("left_out", c_uint64)]


class _Refusal(Structure):
    _fields_ = [("glyph", c_uint64), ("cause", c_int32)]


def _load() -> ctypes.CDLL:
    """Loads the library, if it has this module's version."""
    own = Path(__file__).resolve().parent
    places = (own / "libpostscript.so.0", own.parents[1] / "c" / "build" / "libpostscript.so")
    named = os.environ.get("POSTSCRIPT_LIBRARY")
    place = named or next((str(place) for place in places if place.exists()), "libpostscript.so.0")
    try:
        library = ctypes.CDLL(place)
        library.psf_version.argtypes, library.psf_version.restype = [], c_uint32
    except (OSError, AttributeError) as e:
        raise ImportError(f"postscript {__version__} finds no library: {e}") from e
    number = library.psf_version()
    if _three(number) != VERSION:
        raise ImportError(f"postscript {__version__} wants a library of its own version: {place} is {'.'.join(map(str, _three(number)))}")
    return library


def _three(number: int) -> Tuple[int, int, int]:
    return number >> 16, number >> 8 & 255, number & 255


class _PyBuffer(Structure):
    """Py_buffer, from Python's buffer protocol."""

    _fields_ = [
        ("buf", c_void_p),
        ("obj", c_void_p),
        ("len", c_ssize_t),
        ("itemsize", c_ssize_t),
        ("readonly", c_int),
        ("ndim", c_int),
        ("format", c_char_p),
        ("shape", c_void_p),
        ("strides", c_void_p),
        ("suboffsets", c_void_p),
        ("internal", c_void_p),
    ]


_get_buffer = ctypes.pythonapi.PyObject_GetBuffer
_get_buffer.argtypes, _get_buffer.restype = [ctypes.py_object, POINTER(_PyBuffer), c_int], c_int
_release_buffer = ctypes.pythonapi.PyBuffer_Release
_release_buffer.argtypes, _release_buffer.restype = [POINTER(_PyBuffer)], None

#: an address for empty input, since no pointer may be null
_NOTHING = ctypes.create_string_buffer(1)


class _Held:
    """The bytes of an object, which is kept alive as long as this is."""

    def __init__(self, source: Buffer) -> None:
        self._is_held, self._buffer = False, _PyBuffer()
        _get_buffer(source, byref(self._buffer), 0)
        self._is_held = True
        self.size = int(self._buffer.len)
        self.place = int(self._buffer.buf) if self.size else ctypes.addressof(_NOTHING)

    def __del__(self, release: Callable[[Any], None] = _release_buffer, reference: Callable[[Any], Any] = byref) -> None:
        if self._is_held:
            release(reference(self._buffer))


class _View:
    """A part of the bytes of an object, in place."""

    def __init__(self, held: _Held, place: int, size: int) -> None:
        self._held = held
        #: the arguments of a call: address and length
        self.told = held.place + place, size

    @classmethod
    def of(cls: Type[_View], source: Buffer) -> _View:
        held = _Held(source)
        return cls(held, 0, held.size)

    def part(self, place: int, size: int) -> _View:
        return _View(self._held, self.told[0] - self._held.place + place, size)

    def __len__(self) -> int:
        return self.told[1]

    def copied(self) -> bytes:
        return ctypes.string_at(*self.told)


_library = _load()
_bytes, _size, _sizes, _room = c_void_p, c_size_t, POINTER(c_size_t), POINTER(c_uint8)
for _name, _arguments in {
    "psf_status_text": [c_int32, _room, _size, _sizes],
    "psf_file_faces": [_bytes, _size, _sizes],
    "psf_file_table": [_bytes, _size, _size, c_uint32, _sizes, _sizes],
    "psf_map_glyph": [_bytes, _size, c_uint32, _sizes],
    "psf_map_characters": [_bytes, _size, POINTER(_Character), _size, _sizes],
    "psf_font_open": [_bytes, _size, POINTER(_Font)],
    "psf_font_fits": [_bytes, _size, POINTER(c_uint64)],
    "psf_glyph_outline": [_bytes, _size, POINTER(_Font), _size, POINTER(_Segment), _size, _sizes, POINTER(_Glyph)],
    "psf_glyph_bounds": [_bytes, _size, POINTER(_Font), _size, POINTER(_Bounds)],
    "psf_glyph_flat": [_bytes, _size, POINTER(_Font), _size, _room, _size, _sizes],
    "psf_glyph_operations": [_bytes, _size, POINTER(_Font), _size, POINTER(_Operation), _size, _sizes, POINTER(c_int32), _size, _sizes],
    "psf_font_flat": [_bytes, _size, c_uint64, _room, _size, _sizes, POINTER(_Refusal)],
    "psf_font_subset": [_bytes, _size, _sizes, _size, c_uint32, c_uint64, _room, _size, _sizes, POINTER(_Refusal)],
    "psf_file_flat": [_bytes, _size, _size, c_uint64, _room, _size, _sizes, POINTER(_Refusal)],
    "psf_file_subset": [
        _bytes, _size, _size, POINTER(c_uint32), _size, _sizes, _size, POINTER(c_uint32), _size, c_uint32, c_uint32, c_uint32, c_uint64,
        _room, _size, _sizes, POINTER(_Refusal),
    ],  # fmt: skip
    "psf_file_subset_layout": [
        _bytes, _size, _size, POINTER(c_uint32), _size, _sizes, _size, POINTER(c_uint32), _size, c_uint32, c_uint32, c_uint32, c_uint32,
        POINTER(c_uint32), _size, c_uint32, c_uint64, _room, _size, _sizes, POINTER(_Layout), POINTER(_Refusal),
    ],  # fmt: skip
    "psf_glyph_name": [_bytes, _size, _size, _room, _size, _sizes],
    "psf_font_identifiers": [_bytes, _size, POINTER(c_int32), _size, _sizes],
    "psf_font_string": [_bytes, _size, c_uint16, _room, _size, _sizes],
    "psf_named_glyph": [_bytes, _size, _bytes, _size, _sizes],
    "psf_variation_axis": [_bytes, _size, _size, _size, POINTER(_Axis), _sizes],
    "psf_variation_instance": [_bytes, _size, _size, _size, POINTER(_Instance), POINTER(c_int32), _size, _sizes],
    "psf_variable_outline": [
        _bytes, _size, _size, POINTER(c_int32), _size, _size, c_uint64, POINTER(_Segment), _size, _sizes, POINTER(_Bounds),
    ],
    "psf_location_scalars": [_bytes, _size, _size, POINTER(c_int32), _size, c_uint64, POINTER(c_uint32), _size, _sizes],
    "psf_location_outline": [
        _bytes, _size, POINTER(c_uint32), _size, _size, c_uint64, POINTER(_Segment), _size, _sizes, POINTER(_Bounds),
    ],
    "psf_variable_glyphs": [_bytes, _size, _size, _sizes],
    "psf_variable_advance": [_bytes, _size, _size, POINTER(c_int32), _size, _size, c_uint64, POINTER(c_int64)],
    "psf_file_instance": [
        _bytes, _size, _size, POINTER(c_int32), _size, c_uint32, c_uint64, _room, _size, _sizes, POINTER(_Refusal),
    ],
}.items():
    getattr(_library, _name).argtypes = _arguments
    getattr(_library, _name).restype = c_int32


def _bytes_of(call: Callable[..., int], glyph: Optional[int] = None) -> bytes:
    """Returns the bytes that a call writes, with a larger buffer if the first is too small."""
    room, count = 64, c_size_t()
    while True:
        text = (c_uint8 * room)()
        status = call(text, room, byref(count))
        if status == Status.OK:
            return bytes(text[: count.value])
        if status != Status.NO_ROOM:
            raise Error(status, glyph=glyph)
        room = count.value


def _name_of(call: Callable[..., int], glyph: Optional[int] = None) -> Optional[str]:
    """Returns the name that a call writes, or None if there is none."""
    try:
        return _bytes_of(call, glyph).decode("ascii", "backslashreplace")
    except Error as e:
        if e.status == Status.NO_NAME:
            return None
        raise


def _font_of(least: int, call: Callable[..., int]) -> bytes:
    """Returns the font that a call writes, with a larger buffer if the first is too small."""
    room, count, refusal = least, c_size_t(), _Refusal()
    while True:
        font = (c_uint8 * room)()
        status = call(font, room, byref(count), byref(refusal))
        if status == Status.OK:
            return bytes(memoryview(font)[: count.value])
        if status != Status.NO_ROOM:
            raise WriteError(status, int(refusal.glyph), int(refusal.cause))
        room = count.value


def _tags_of(tags: Iterable[str]) -> Any:
    """Returns tags as big-endian numbers."""
    numbers = [int.from_bytes(tag.encode("latin-1").ljust(4), "big") for tag in tags]
    return (c_uint32 * len(numbers))(*numbers)


def _tell_lost(layout: _Layout) -> None:
    """Warns of layout tables and lookups that are lost."""
    for tag, status in (("GSUB", layout.gsub), ("GPOS", layout.gpos), ("GDEF", layout.gdef), ("kern", layout.kern)):
        if status > 2:
            warnings.warn(f"{tag} is lost: {_text_of(status)}", LayoutWarning, stacklevel=3)
    if layout.left_out:
        warnings.warn(f"lookups of GSUB that are dropped: {layout.left_out}", LayoutWarning, stacklevel=3)


def _rows_of(cmap: _View) -> List[_Character]:
    """Lists all characters of a `cmap` table with their glyphs; none if no subtable is supported."""
    room, count = 1024, c_size_t()
    while True:
        rows = (_Character * room)()
        status = _library.psf_map_characters(*cmap.told, rows, room, byref(count))
        if status == Status.OK:
            return list(rows[: count.value])
        if status == Status.NO_MAP:
            return []
        if status != Status.NO_ROOM:
            raise Error(status)
        room = count.value


def _text_of(status: int) -> str:
    text, count = (c_uint8 * 80)(), c_size_t()
    if _library.psf_status_text(status, text, 80, byref(count)) != Status.OK:
        return f"status {status}"
    return bytes(text[: count.value]).decode("ascii")


def _checked(status: int, glyph: Optional[int] = None) -> None:
    if status != Status.OK:
        raise Error(status, glyph=glyph)


def version() -> Tuple[int, int, int]:
    """Returns the version of the library: major, minor and patch number."""
    return _three(_library.psf_version())


def faces(file: Buffer) -> int:
    """Returns the number of faces in an OpenType file. Raises `Status.CUT_FILE` or `UNKNOWN_FILE`."""
    count, view = c_size_t(), _View.of(file)
    _checked(_library.psf_file_faces(*view.told, byref(count)))
    return count.value


def _table(file: _View, face: int, tag: bytes) -> _View:
    place, size = c_size_t(), c_size_t()
    _checked(_library.psf_file_table(*file.told, face, int.from_bytes(tag, "big"), byref(place), byref(size)))
    return file.part(place.value, size.value)


class CharacterMap(Mapping[int, int]):
    """The characters of a font and their glyphs: a mapping from code points to glyph numbers, from the best subtable of `cmap`.

    A lookup is one call of the library. Listing all characters is one call too, and its result is kept."""

    def __init__(self, cmap: Optional[_View]) -> None:
        self._cmap = cmap
        self._listed: Optional[Dict[int, int]] = None

    def _glyph(self, character: int) -> int:
        """Returns the glyph of a character, or 0. Raises `Status.NO_MAP` if the font has no supported `cmap` subtable."""
        if self._cmap is None:
            raise Error(Status.NO_MAP)
        glyph = c_size_t()
        _checked(_library.psf_map_glyph(*self._cmap.told, character, byref(glyph)))
        return glyph.value

    def __getitem__(self, character: int) -> int:
        if self._listed is not None:
            return self._listed[character]
        try:
            glyph = self._glyph(character) if 0 <= character < 0x110000 else 0
        except Error as e:
            if e.status != Status.NO_MAP:
                raise
            glyph = 0
        if glyph == 0:
            raise KeyError(character)
        return glyph

    def _characters(self) -> Dict[int, int]:
        if self._listed is None:
            self._listed = {row.character: row.glyph for row in _rows_of(self._cmap)} if self._cmap is not None else {}
        return self._listed

    def __iter__(self) -> Iterator[int]:
        return iter(self._characters())

    def __len__(self) -> int:
        return len(self._characters())


class Font:
    """A font: its `CFF ` table, and its `cmap` table if it has one. The bytes are not copied.

    `len(font)` is the number of glyphs, `font[7]` is the glyph with that number, and a `for` loop visits all of them."""

    def __init__(self, cff: Union[Buffer, _View], cmap: Union[Buffer, _View, None] = None, limit: int = LIMIT) -> None:
        self._view = cff if isinstance(cff, _View) else _View.of(cff)
        self._map = cmap if isinstance(cmap, _View) or cmap is None else _View.of(cmap)
        self._font = _Font()
        _checked(_library.psf_font_open(*self._view.told, byref(self._font)))
        self._font.limit = limit
        self._file: Optional[_View] = None
        self._face = 0
        #: the characters with their glyphs
        self.cmap = CharacterMap(self._map)

    def __repr__(self) -> str:
        return f"<Font of {len(self)} glyphs>"

    @classmethod
    def open(cls: Type[Font], path: Union[str, os.PathLike[str]], face: int = 0, limit: int = LIMIT) -> Font:
        """Opens a face of an OpenType file by its path. The whole file is read. Raises the errors of `from_bytes`, and `OSError`
        if the file cannot be read."""
        return cls.from_bytes(Path(path).read_bytes(), face, limit)

    @classmethod
    def from_bytes(cls: Type[Font], file: Buffer, face: int = 0, limit: int = LIMIT) -> Font:
        """Opens a face of an OpenType file by its bytes. Raises `Status.CUT_FILE`, `UNKNOWN_FILE`, `NO_FACE`, `NO_TABLE` if it has
        no `CFF ` table, and an error from 1 to 15 if the table is malformed."""
        view = _View.of(file)
        cff, cmap = _table(view, face, b"CFF "), None
        try:
            cmap = _table(view, face, b"cmap")
        except Error as e:
            if e.status != Status.NO_TABLE:
                raise
        font = cls(cff, cmap, limit)
        font._file, font._face = view, face
        return font

    def __len__(self) -> int:
        return int(self._font.glyphs)

    @property
    def cff(self) -> bytes:
        """A copy of the `CFF ` table."""
        return self._view.copied()

    @property
    def names(self) -> List[Optional[str]]:
        """The name of each glyph, as in `Glyph.name`."""
        if self.is_cid_keyed:
            return [None] * len(self)
        identifiers = self._identifiers()
        strings = {identifier: self._string(identifier) for identifier in set(identifiers)}
        return [strings[identifier] for identifier in identifiers]

    @property
    def cids(self) -> List[Optional[int]]:
        """The CID of each glyph of a CID-keyed font. None for a glyph without one, and for all glyphs of other fonts."""
        if not self.is_cid_keyed:
            return [None] * len(self)
        return [identifier if identifier >= 0 else None for identifier in self._identifiers()]

    def _identifiers(self) -> List[int]:
        """The SID or CID of each glyph, or -1."""
        room, count = len(self), c_size_t()
        identifiers = (c_int32 * room)()
        _checked(_library.psf_font_identifiers(*self._view.told, identifiers, room, byref(count)))
        return identifiers[: count.value]

    def _string(self, identifier: int) -> Optional[str]:
        """The string of a SID, or None."""
        if identifier < 0:
            return None
        return _name_of(lambda *lent: _library.psf_font_string(*self._view.told, identifier, *lent))

    def __getitem__(self, glyph: int) -> Glyph:
        if not 0 <= glyph < len(self):
            raise IndexError(glyph)
        return Glyph(self, glyph)

    def __iter__(self) -> Iterator[Glyph]:
        return (Glyph(self, glyph) for glyph in range(len(self)))

    @property
    def is_cid_keyed(self) -> bool:
        """Whether the glyphs have CIDs instead of names."""
        return bool(self._font.is_cid)

    @property
    def limit(self) -> int:
        """How many units a call may spend on a glyph with its components; by default `LIMIT`. An operator costs one unit per byte,
        with the numbers before it, a roll 4,096 more, a sqrt 8 more. A small font can nest subroutine calls so that a glyph takes
        years; the limit stops it, with `Status.TOO_LONG`."""
        return int(self._font.limit)

    def cost(self, limit: int) -> Optional[int]:
        """Returns how many units the runs of all glyphs cost together. None if they cost more than `limit`."""
        left = c_uint64(limit)
        status = _library.psf_font_fits(*self._view.told, byref(left))
        if status == Status.TOO_LONG:
            return None
        _checked(status)
        return limit - left.value

    def fits(self, limit: int) -> bool:
        """Returns whether all glyphs end, or have an error, within `limit` units that they share."""
        return self.cost(limit) is not None

    @property
    def _limit_of_all(self) -> int:
        """How many units a whole font may cost."""
        return min(self.limit * _GLYPHS, 2**64 - 1)

    def flat(self) -> bytes:
        """Returns a `CFF ` table with the same glyphs and no subroutines. Each draws the same, with the same advance, codes, and name
        or CID. Raises `WriteError`, also if the font does not pass `fits` with 20 times the limit."""
        cff, limit = self._view, self._limit_of_all
        return _font_of(2 * len(cff) + 1024, lambda *lent: _library.psf_font_flat(*cff.told, limit, *lent))

    def subset(self, glyphs: Iterable[int], keep_numbers: bool = False) -> bytes:
        """Returns a `CFF ` table with `.notdef`, these glyphs, and the components of `seac` glyphs among them, without subroutines.
        Glyphs get new numbers in ascending order. With `keep_numbers` they keep their numbers, and all others are empty. Raises
        `WriteError`, as `flat` does, but only these glyphs share the limit."""
        cff, limit, numbers = self._view, self._limit_of_all, list(glyphs)
        named = (c_size_t * len(numbers))(*numbers)
        return _font_of(
            len(cff) + 1024, lambda *lent: _library.psf_font_subset(*cff.told, named, len(numbers), int(keep_numbers), limit, *lent)
        )

    def _whole(self) -> _View:
        if self._file is None:
            raise ValueError("the font was opened from a CFF table, not from a font file")
        return self._file

    def flat_file(self) -> bytes:
        """Returns a font file with this face, without subroutines. All other tables are copied, except for the digital signature.
        Raises `WriteError`, as `flat` does, and for `Status.OVERLAP`; and `ValueError` if the font was not opened from a file."""
        file, limit = self._whole(), self._limit_of_all
        return _font_of(2 * len(file) + 1024, lambda *lent: _library.psf_file_flat(*file.told, self._face, limit, *lent))

    def subset_file(
        self,
        text: str = "",
        unicodes: Iterable[int] = (),
        glyphs: Iterable[Union[int, str, bytes]] = (),
        keep_numbers: bool = False,
        ignore_missing: bool = False,
        tables: Iterable[str] = ("OS/2", "head"),
        features: Union[str, Iterable[str], None] = FEATURES,
        exact: bool = False,
        names: Optional[str] = "short",
    ) -> bytes:
        """Returns a font file with only some characters and glyphs of this face: those of `text` and `unicodes`, and `glyphs` with all
        their characters. A glyph is a number or a name; a name means the first glyph with it. The file also has `.notdef` and the
        components of `seac` glyphs. Each glyph is drawn, named and measured as before.
        The file has the tables that every font needs, copies of `tables`, and layout tables: `GSUB` with the substitutions of
        `features`, a list of tags or "*" for all; `GPOS` with the positions of these; `GDEF`; `kern`; and the tables for vertical text. With
        None for `features` there are none. With old numbers, `GSUB`, `GPOS` and `GDEF` are copied, and the others if `tables` names them.
        The glyphs that these substitutions can make, and the glyphs of variation sequences, are kept too. Unless `exact` is set, so are
        the characters that a shaper may use for text of the given ones. docs/subsets.md says what is left out. A `LayoutWarning` names
        each lost table, and the number of dropped lookups.

        The `name` table has the names 1 to 6, 16, 17, 21, 22 and 25, without those that only repeat a better one. With "licence" for
        `names` it also has 0, 7, 13 and 14: copyright, trademark, licence and licence URL. It is copied if it is truncated, has more
        than 1,000 names, or has no space for these. With "all" it is copied, and with None there is none, unless "name" is among
        `tables`.

        Glyphs get new numbers in ascending order, unless `keep_numbers` is set. Raises `Error` with `Status.NO_GLYPH` for a name that
        no glyph has. Raises `WriteError`: `Status.NO_CHARACTER` for a
        character without a glyph, unless `ignore_missing` is set; `NO_GLYPHS` if nothing is left; `NO_TABLE`,
        `NO_MAP`, `NO_ADVANCES`, `CUT_TABLE` and `SAME_TAG` for the tables; and the errors of `subset`. Raises `ValueError` if the font
        was not opened from a file, or for other `names`."""
        file, limit = self._whole(), self._limit_of_all
        if names not in _NAMES:
            raise ValueError(f"names: {names!r} is none of {', '.join(map(repr, _NAMES))}")
        asked, numbers = [*map(ord, text), *unicodes], [self._number_of(glyph) for glyph in glyphs]
        copied = _tags_of([*tables, *["name"] * (names == "all")])
        characters, named = (c_uint32 * len(asked))(*asked), (c_size_t * len(numbers))(*numbers)
        choice = (
            *file.told, self._face, characters, len(asked), named, len(numbers), copied, len(copied), int(ignore_missing),
            int(keep_numbers), _NAMES[names],
        )  # fmt: skip
        if features is None:
            return _font_of(len(file) + 1024, lambda *lent: _library.psf_file_subset(*choice, limit, *lent))
        tags, every, layout = _tags_of(() if features == "*" else features), int(features == "*"), _Layout()
        written = _font_of(
            len(file) + 1024,
            lambda *lent: _library.psf_file_subset_layout(*choice, int(exact), tags, len(tags), every, limit, *lent[:3], byref(layout), lent[3]),
        )
        _tell_lost(layout)
        return written

    def glyph_of(self, character: str) -> Glyph:
        """Returns the glyph of a character, or glyph 0. Raises `Status.NO_MAP`."""
        return Glyph(self, self.cmap._glyph(ord(character)))

    def glyph_named(self, name: Union[str, bytes]) -> Glyph:
        """Returns the first glyph with a name. Raises `Status.NO_GLYPH` if there is none."""
        text = name.encode() if isinstance(name, str) else name
        glyph = c_size_t()
        _checked(_library.psf_named_glyph(*self._view.told, text, len(text), byref(glyph)))
        return Glyph(self, glyph.value)

    def _number_of(self, glyph: Union[int, str, bytes]) -> int:
        """Returns the number of a glyph that is given by its number or its name."""
        if not isinstance(glyph, (str, bytes)):
            return glyph
        try:
            return self.glyph_named(glyph).number
        except Error as e:
            raise Error(e.status, f"glyph {glyph!r}: {e}") from None


class Glyph:
    """A glyph of a font. It is drawn on first use.

    A `seac` glyph, whose `endchar` names a base and an accent (Technical Note 5177, Appendix C), is drawn with both. Its advance
    is its own. All three share the limit of the font.

    Errors: `Status.NO_GLYPH`; `NO_PART` if FDSelect gives a glyph of a CID-keyed font no Font DICT; `TOO_LONG` beyond the limit;
    `NO_CODE`, `NO_ACCENTS`, `NO_COMPONENT` and `NESTED_ACCENT` for a `seac` glyph; and those from 1 to 30."""

    def __init__(self, font: Font, number: int) -> None:
        #: the font, and the number in it, from 0
        self.font, self.number = font, number
        self._drawn: Optional[Tuple[List[Segment], _Glyph]] = None

    def __repr__(self) -> str:
        return f"Glyph({self.number})"

    def _told(self) -> Tuple[List[Segment], _Glyph]:
        if self._drawn is None:
            self._drawn = self._draw()
        return self._drawn

    def _draw(self) -> Tuple[List[Segment], _Glyph]:
        cff, font = self.font._view, self.font._font
        room, count, info = 64, c_size_t(), _Glyph()
        while True:
            segments = (_Segment * room)()
            status = _library.psf_glyph_outline(*cff.told, byref(font), self.number, segments, room, byref(count), byref(info))
            if status == Status.OK:
                return [_segment(s) for s in segments[: count.value]], info
            if status != Status.NO_ROOM:
                raise Error(status, glyph=self.number)
            room = count.value

    @property
    def segments(self) -> List[Segment]:
        """The outline: contours, each from a `moveTo` to a `closePath`."""
        return self._told()[0]

    @property
    def advance(self) -> float:
        """The advance, in font units."""
        return float(self._told()[1].advance / 65536)

    @property
    def bounds(self) -> Optional[Bounds]:
        """The bounds of all points, including control points, or None."""
        return _bounds(self._told()[1])

    @property
    def tight_bounds(self) -> Optional[Bounds]:
        """The bounds of the lines and curves, at most 1/65536 unit too large, or None. Includes the components of a `seac` glyph."""
        told = _Bounds()
        _checked(_library.psf_glyph_bounds(*self.font._view.told, byref(self.font._font), self.number, byref(told)), self.number)
        return _bounds(told)

    @property
    def name(self) -> Optional[str]:
        """The name, or None. Bytes outside ASCII are written as `\\x` and two digits."""
        cff = self.font._view
        return _name_of(lambda *lent: _library.psf_glyph_name(*cff.told, self.number, *lent), self.number)

    def flat_code(self) -> bytes:
        """Returns the charstring without subroutine calls. With any subroutines it has the operations and the width of the glyph.
        Raises `Error` with `Status.TOO_LONG` beyond the limit."""
        cff, font = self.font._view, byref(self.font._font)
        return _bytes_of(lambda *lent: _library.psf_glyph_flat(*cff.told, font, self.number, *lent), self.number)

    def operations(self) -> List[Operation]:
        """Returns the operations in order: subroutines are called, the width is removed, and arithmetic is done. `endchar` is not
        included. A `seac` glyph has only its own. Raises `Error` with `Status.TOO_LONG` beyond the limit."""
        cff, font = self.font._view, byref(self.font._font)
        room, operand_room, count, operand_count = 64, 256, c_size_t(), c_size_t()
        while True:
            rows, operands = (_Operation * room)(), (c_int32 * operand_room)()
            status = _library.psf_glyph_operations(
                *cff.told, font, self.number, rows, room, byref(count), operands, operand_room, byref(operand_count)
            )
            if status == Status.OK:
                return [_operation(row, operands) for row in rows[: count.value]]
            if status != Status.NO_ROOM:
                raise Error(status, glyph=self.number)
            room, operand_room = count.value, operand_count.value

    def draw(self, pen: Pen) -> None:
        """Draws the outline with a fontTools pen."""
        draw(self.segments, pen)

    def svg_path(self) -> str:
        """Returns SVG path data. The y axis goes up, so show it under `scale(1 -1)`."""
        return _path(self.segments)


class Axis(NamedTuple):
    """An axis of a variable font. Its values are user coordinates, exact multiples of 1/65536."""

    tag: str
    minimum: float
    default: float
    maximum: float
    is_hidden: bool
    #: its name ID in the `name` table
    name_id: int


class Instance(NamedTuple):
    """A named instance of a variable font: axis values for `VariableFont.at`."""

    coordinates: Dict[str, float]
    #: its name ID in the `name` table, and that of its PostScript name, or None
    name_id: int
    postscript_name_id: Optional[int]


def _outlines(file: _View, face: int) -> _View:
    """The `CFF2` table, or the `CFF ` table."""
    try:
        return _table(file, face, b"CFF2")
    except Error as e:
        if e.status != Status.NO_TABLE:
            raise
        return _table(file, face, b"CFF ")


class VariableFont:
    """A face with a `CFF2` or `CFF ` table. The bytes of the file are not copied. `at` selects axis values and gives access to the
    glyphs there. A font with a `CFF ` table has no axes, and `at()` is its only location.

        font = postscript.VariableFont.open("font.otf")
        print([axis.tag for axis in font.axes])
        glyph = font.at(wght=650).glyph_of("A")
        print(glyph.advance, glyph.bounds, glyph.svg_path())"""

    def __init__(self, file: Union[Buffer, _View], face: int = 0, limit: int = LIMIT) -> None:
        self._view = file if isinstance(file, _View) else _View.of(file)
        #: the index of the face, from 0
        self.face = face
        #: how many units a glyph may cost, and separately its location and its advance: each number and operator costs one unit per
        #: byte, a blend one more per number on the stack; a location costs one per region, and per axis; an advance costs one for each
        #: region of the glyph's deltas and each axis
        self.limit = limit
        _outlines(self._view, face)
        #: the axes, in order
        self.axes: Tuple[Axis, ...] = tuple(self._axes())
        #: the characters with their glyphs
        self.cmap = CharacterMap(self._cmap())

    def __len__(self) -> int:
        """The number of glyphs. Raises errors from `Status.CFF2_HEADER` to `CFF2_STORE`, or those of `Font`."""
        count = c_size_t()
        _checked(_library.psf_variable_glyphs(*self._view.told, self.face, byref(count)))
        return count.value

    def __repr__(self) -> str:
        return f"<VariableFont of {len(self.axes)} axes>"

    @classmethod
    def open(cls: Type[VariableFont], path: Union[str, os.PathLike[str]], face: int = 0, limit: int = LIMIT) -> VariableFont:
        """Opens a face of an OpenType file by its path. The whole file is read. Raises the errors of `from_bytes`, and `OSError`
        if the file cannot be read."""
        return cls(Path(path).read_bytes(), face, limit)

    @classmethod
    def from_bytes(cls: Type[VariableFont], file: Buffer, face: int = 0, limit: int = LIMIT) -> VariableFont:
        """Opens a face of an OpenType file by its bytes. Raises `Status.CUT_FILE`, `UNKNOWN_FILE`, `NO_FACE`, `NO_TABLE` if it has
        neither table, `CUT_FVAR` and `UNKNOWN_FVAR`. Other tables are read when they are needed."""
        return cls(file, face, limit)

    def _cmap(self) -> Optional[_View]:
        try:
            return _table(self._view, self.face, b"cmap")
        except Error as e:
            if e.status != Status.NO_TABLE:
                raise
            return None

    def _axes(self) -> Iterator[Axis]:
        """The axes; none without an `fvar` table."""
        number = 0
        while True:
            told, count = _Axis(), c_size_t()
            status = _library.psf_variation_axis(*self._view.told, self.face, number, byref(told), byref(count))
            if status in (Status.NO_AXIS, Status.NO_TABLE):
                return
            _checked(status)
            tag = told.tag.to_bytes(4, "big").decode("latin-1")
            values = told.minimum / 65536, told.default_value / 65536, told.maximum / 65536
            yield Axis(tag, *values, bool(told.is_hidden), told.name)
            number += 1

    @property
    def instances(self) -> List[Instance]:
        """The named instances, in order."""
        found: List[Instance] = []
        while True:
            told, count = _Instance(), c_size_t()
            numbers = (c_int32 * len(self.axes))()
            status = _library.psf_variation_instance(
                *self._view.told, self.face, len(found), byref(told), numbers, len(numbers), byref(count)
            )
            if status in (Status.NO_INSTANCE, Status.NO_TABLE):
                return found
            _checked(status)
            coordinates = {axis.tag: number / 65536 for axis, number in zip(self.axes, numbers)}
            found.append(Instance(coordinates, told.name, None if told.postscript_name < 0 else told.postscript_name))

    def at(self, coordinates: Mapping[str, float] = {}, **more: float) -> Place:
        """Selects axis values, as user coordinates: `font.at(wght=650)`, or `font.at(font.instances[0].coordinates)`. Missing axes
        have their defaults. Values are rounded to 1/65536 and clamped to their axis. Raises `Status.NO_AXIS` for an unknown tag."""
        return Place(self, {**coordinates, **more})


class Place:
    """A variable font at given axis values, from `VariableFont.at`. `place[7]` is the glyph with that number."""

    def __init__(self, font: VariableFont, asked: Mapping[str, float]) -> None:
        if not {axis.tag for axis in font.axes} >= set(asked):
            raise Error(Status.NO_AXIS)
        #: the font
        self.font = font
        #: the value of each axis
        self.coordinates: Dict[str, float] = {
            axis.tag: max(axis.minimum, min(axis.maximum, asked.get(axis.tag, axis.default))) for axis in font.axes
        }
        numbers = [round(self.coordinates[axis.tag] * 65536) for axis in font.axes]
        self._numbers = (c_int32 * len(numbers))(*numbers)
        self._located: Optional[Tuple[int, Optional[Tuple[Any, ...]]]] = None

    def __repr__(self) -> str:
        return f"Place({self.coordinates})"

    def __len__(self) -> int:
        return len(self.font)

    def __iter__(self) -> Iterator[VariableGlyph]:
        return map(self.glyph, range(len(self)))

    def _location(self) -> Optional[Tuple[Any, ...]]:
        """The `CFF2` table and the scalars of the location, computed once for the limit of the font. None on an error, or without the
        table."""
        limit = self.font.limit
        if self._located is None or self._located[0] != limit:
            self._located = limit, self._locate(limit)
        return self._located[1]

    def _locate(self, limit: int) -> Optional[Tuple[Any, ...]]:
        file, face, numbers = self.font._view, self.font.face, self._numbers
        room, count = 16, c_size_t()
        while True:
            scalars = (c_uint32 * room)()
            status = _library.psf_location_scalars(*file.told, face, numbers, len(numbers), limit, scalars, room, byref(count))
            if status == Status.OK:
                return _table(file, face, b"CFF2"), scalars, count.value
            if status != Status.NO_ROOM:
                return None
            room = count.value

    def glyph(self, number: int) -> VariableGlyph:
        """Returns a glyph by its number, from 0. If there is no such glyph, drawing it raises an error."""
        if number < 0:
            raise IndexError(number)
        return VariableGlyph(self, number)

    def __getitem__(self, number: int) -> VariableGlyph:
        return self.glyph(number)

    def file(self, rounded: bool = False) -> bytes:
        """Returns a font file with a `CFF ` table of this location: a static font. Its glyphs, metrics, positions and names are those at
        the location, and it has no tables of variations. With `rounded`, each point is rounded to whole units.

            Path("Semi.otf").write_bytes(font.at(wght=650).file())

        All glyphs together may cost 20 times the limit of the font, and a glyph a fortieth of the limit. Raises `WriteError`:
        `Status.NOT_VARIABLE` if the face has no `CFF2` table, or a `CFF ` table too; `NO_TABLE`, `CUT_TABLE` and `UNKNOWN_TABLE` for a
        missing or malformed table; `REFUSED_GLYPH` and `NO_PART` for a glyph; `TOO_LONG` beyond the limit; those from `CFF2_HEADER` to
        `CFF2_DATA`; and `TOO_LARGE`."""
        view, numbers = self.font._view, self._numbers
        limit = min(self.font.limit * _GLYPHS, 2**64 - 1)
        return _font_of(
            2 * len(view) + 1024,
            lambda *lent: _library.psf_file_instance(*view.told, self.font.face, numbers, len(numbers), int(rounded), limit, *lent),
        )

    def glyph_of(self, character: str) -> VariableGlyph:
        """Returns the glyph of a character, or glyph 0. Raises `Status.NO_MAP`."""
        return VariableGlyph(self, self.font.cmap._glyph(ord(character)))


class VariableGlyph:
    """A glyph at given axis values. It is drawn on first use.

    Errors: `Status.NO_GLYPH`, also if the glyph has no Font DICT; `TOO_LONG` beyond the limit; `CUT_AVAR`, `UNKNOWN_AVAR`, and those
    from `CFF2_HEADER` to `CFF2_DATA`, for a malformed table; and those from 1 to 30."""

    def __init__(self, place: Place, number: int) -> None:
        #: the location, and the number in the font, from 0
        self.place, self.number = place, number
        self._drawn: Optional[Tuple[List[Segment], _Bounds]] = None

    def __repr__(self) -> str:
        return f"VariableGlyph({self.number})"

    def _lent(self) -> Tuple[Any, ...]:
        font, numbers = self.place.font, self.place._numbers
        return (*font._view.told, font.face, numbers, len(numbers), self.number)

    def _told(self) -> Tuple[List[Segment], _Bounds]:
        if self._drawn is None:
            self._drawn = self._draw()
        return self._drawn

    def _draw(self) -> Tuple[List[Segment], _Bounds]:
        room, count, bounds = 64, c_size_t(), _Bounds()
        limit, location = self.place.font.limit, self.place._location()
        while True:
            segments = (_Segment * room)()
            lent = limit, segments, room, byref(count), byref(bounds)
            if location is None:
                status = _library.psf_variable_outline(*self._lent(), *lent)
            else:
                table, scalars, many = location
                status = _library.psf_location_outline(*table.told, scalars, many, self.number, *lent)
            if status == Status.OK:
                return [_segment(s) for s in segments[: count.value]], bounds
            if status != Status.NO_ROOM:
                raise Error(status, glyph=self.number)
            room = count.value

    @property
    def segments(self) -> List[Segment]:
        """The outline: contours, each from a `moveTo` to a `closePath`."""
        return self._told()[0]

    @property
    def advance(self) -> float:
        """The advance, in font units: `hmtx` plus the `HVAR` delta, rounded to the nearest unit. Raises `Status.TOO_LONG` if the deltas
        of the glyph cost more than the limit of the font. Further errors: `Status.NO_TABLE`, `NO_ADVANCES`, `CUT_HVAR` and
        `UNKNOWN_HVAR`."""
        advance = c_int64()
        _checked(_library.psf_variable_advance(*self._lent(), self.place.font.limit, byref(advance)), self.number)
        return float(advance.value)

    @property
    def bounds(self) -> Optional[Bounds]:
        """The bounds of all points, including control points, or None."""
        return _bounds(self._told()[1])

    def draw(self, pen: Pen) -> None:
        """Draws the outline with a fontTools pen."""
        draw(self.segments, pen)

    def svg_path(self) -> str:
        """Returns SVG path data. The y axis goes up, so show it under `scale(1 -1)`."""
        return _path(self.segments)


def _path(segments: Iterable[Segment]) -> str:
    letters = {"moveTo": "M", "lineTo": "L", "curveTo": "C", "closePath": "Z"}
    return "".join(letters[method] + " ".join(f"{n:.10g}" for point in points for n in point) for method, points in segments)


def _bounds(told: Union[_Glyph, _Bounds]) -> Optional[Bounds]:
    if not told.has_bounds:
        return None
    return Bounds(told.left / 65536, told.bottom / 65536, told.right / 65536, told.top / 65536)


def _operation(row: _Operation, numbers: Sequence[int]) -> Operation:
    stems, mask = row.first + row.count, row.first + row.count + row.stems
    return Operation(
        _OPERATORS.get(row.operator_code, hex(row.operator_code)),
        tuple(bits / 65536 for bits in numbers[row.first : stems]),
        tuple(bits / 65536 for bits in numbers[stems:mask]),
        bytes(numbers[mask : mask + row.mask]),
    )


def _segment(s: _Segment) -> Segment:
    to = (s.x / 65536, s.y / 65536)
    if s.kind == 0:
        return "moveTo", (to,)
    if s.kind == 1:
        return "lineTo", (to,)
    if s.kind == 2:
        return "curveTo", ((s.x1 / 65536, s.y1 / 65536), (s.x2 / 65536, s.y2 / 65536), to)
    return "closePath", ()
