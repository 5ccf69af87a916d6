"""Burmelox from Python: floors under polynomials, checked and searched by the proved library.

    import burmelox
    claim = burmelox.claim(1, 0, [((0,), 1), ((1,), -2), ((2,), 1)])    # 1 - 2x + x^2, floor 0
    proof = burmelox.proof(1, 1, [((0,), (2,), (1, 1, -2))])
    print(burmelox.claim_text(claim), end="")
    print(burmelox.check(claim, proof).rows)

Sheets are bytes, as docs/FORMAT.md has them. What is refused raises Refused. The functions keep no
state, so any thread may call them. Needs the shared library and nothing else; library() tells
where it is looked for.
"""

import ctypes
import ctypes.util
import os
import struct
from collections import namedtuple
from ctypes import POINTER, byref, c_char_p, c_int32, c_int64, c_size_t, c_uint32, c_uint64
from pathlib import Path

__version__ = "0.7.0"

PAGE_LENGTH = 2920

# A buffer of this length has room for every text of its kind.
MOST_CLAIM_TEXT = 4781
MOST_PROOF_TEXT = 31520
MOST_LIMITS_TEXT = 395
MOST_PROFILE_TEXT = 48

SHEETS = {
    1: "claim",
    2: "proof",
    3: "output",
    4: "offsets",
    5: "range",
    6: "limits",
    7: "page",
    8: "profile",
    9: "buffer",
}


class Profile(namedtuple("Profile", "exponent weight rows")):
    """The greatest exponent, weight and number of rows that a site allows."""

    __slots__ = ()


Profile.FULL = Profile(120, 1 << 30, 256)

# An accepted proof: its number of rows, and the exact proof.
Accepted = namedtuple("Accepted", "rows exact")

# The same of the highest floor that was found, and how many floors were tried.
Found = namedtuple("Found", "floor tried rows exact")


class Refused(Exception):
    """A refusal: the sheet at fault by its name, the number, and the index of a term, row or variable.

    The page is that of a check with a page, where one was written.
    """

    def __init__(self, answer, page=None):
        self.sheet = SHEETS.get(answer >> 32, str(answer >> 32))
        self.number = answer >> 16 & 0xFFFF
        self.index = answer & 0xFFFF
        self.page = page
        super().__init__(f"refused {self.number} at {self.index} ({self.sheet})")


def claim(n, floor, terms, mask=0):
    """A claim in bytes. Terms are pairs of exponents and coefficient, in any order."""
    terms = sorted((_point(n, point), coefficient) for point, coefficient in terms)
    sheet = struct.pack("<BBBBi", n, len(terms), mask, 0, floor)
    sheet += b"".join(point for point, _ in terms)
    return sheet + b"".join(struct.pack("<i", coefficient) for _, coefficient in terms)


def proof(n, scale, rows):
    """A proof in bytes. Rows are v, w and the weights (p, q, r)."""
    sheet = struct.pack("<BBHI", n, 0, len(rows), scale)
    sheet += b"".join(_point(n, v) + _point(n, w) for v, w, _ in rows)
    return sheet + b"".join(struct.pack("<3i", *weights) for _, _, weights in rows)


def limits(entries):
    """Limits in bytes. Entries are power, L and m of each variable, or None for an unlimited one."""
    entries = [entry or (0, 0, 0) for entry in entries]
    sheet = struct.pack("<B", len(entries))
    sheet += b"".join(struct.pack("<BH", power, limit) for power, limit, _ in entries)
    return sheet + b"".join(struct.pack("<I", multiplier) for _, _, multiplier in entries)


def _point(n, exponents):
    """A point in bytes: n exponents, one byte each."""
    if len(exponents) != n:
        raise ValueError(f"a point of {n} variables has no {len(exponents)} exponents")
    return bytes(exponents)


def check(claim, proof, limits=None, profile=Profile.FULL):
    """Checks the proof of the claim within the limits, under the profile."""
    output = ctypes.create_string_buffer(len(proof))
    answer = library().burmelox_check(
        *_sheets(claim, proof, limits), _profile(profile), output, len(proof)
    )
    return Accepted(_accepted(answer), output.raw)


def check_page(claim, proof, limits=None, profile=Profile.FULL):
    """Checks as check does. Gives what is accepted, and the page; Refused has the page too."""
    output = ctypes.create_string_buffer(len(proof))
    page = ctypes.create_string_buffer(PAGE_LENGTH)
    answer = library().burmelox_check_page(
        *_sheets(claim, proof, limits), _profile(profile), output, len(proof), page, PAGE_LENGTH
    )
    text = page.raw.decode("ascii")
    return Accepted(_accepted(answer, text), output.raw), text


def evaluate(claim, offsets, profile=Profile.FULL):
    """The exact value of the claim's polynomial at the offsets, one for each variable."""
    offsets = (c_int32 * len(offsets))(*_fitting(c_int32, offsets))
    value = c_int64()
    answer = library().burmelox_evaluate(
        *_sheet(claim), _profile(profile), offsets, len(offsets), byref(value)
    )
    _accepted(answer)
    return value.value


def search(claim, proof, lo, hi, limits=None, profile=Profile.FULL):
    """The highest floor from lo to hi that the proof shows within the limits, under the profile."""
    output = ctypes.create_string_buffer(len(proof))
    floor, tried = c_int64(), c_uint32()
    answer = library().burmelox_search(
        *_sheets(claim, proof, limits),
        _profile(profile),
        *_fitting(c_int64, (lo, hi)),
        output,
        len(proof),
        byref(floor),
        byref(tried),
    )
    return Found(floor.value, tried.value, _accepted(answer), output.raw)


def claim_text(claim):
    """The claim as text."""
    return _text(library().burmelox_claim_text, MOST_CLAIM_TEXT, *_sheet(claim))


def proof_text(proof):
    """The proof as text."""
    return _text(library().burmelox_proof_text, MOST_PROOF_TEXT, *_sheet(proof))


def limits_text(limits):
    """The limits as text."""
    return _text(library().burmelox_limits_text, MOST_LIMITS_TEXT, *_sheet(limits))


def profile_text(profile=Profile.FULL):
    """The profile as text."""
    return _text(library().burmelox_profile_text, MOST_PROFILE_TEXT, _profile(profile))


_loaded = None


def library(path=None):
    """The shared library, loaded at the first call. A path loads that one, for later calls too.

    Without a path it is the one that BURMELOX_LIBRARY names, else lib/libburmelox.so of the prefix
    that this file was installed under, else the one that make builds in this file's repository,
    else the system's.
    """
    global _loaded
    if path is not None or _loaded is None:
        _loaded = _declared(ctypes.CDLL(os.fspath(path or _library_path())))
    return _loaded


def _library_path():
    named = os.environ.get("BURMELOX_LIBRARY")
    if named:
        return named
    folders = list(Path(__file__).resolve().parents)
    installed = [folder / "lib/libburmelox.so" for folder in folders[3:4]]
    built = [folder / "target/staticlib/libburmelox.so" for folder in folders[1:2]]
    for path in installed + built:
        if path.exists():
            return path
    found = ctypes.util.find_library("burmelox")
    if found is None:
        raise OSError("libburmelox.so is not found: run make, or name it in BURMELOX_LIBRARY")
    return found


class _Profile(ctypes.Structure):
    _fields_ = [("exponent", c_uint32), ("weight", c_uint32), ("rows", c_uint32)]


def _declared(loaded):
    """The library with the types of its functions, as include/burmelox.h has them."""
    sheet = [c_char_p, c_size_t]
    check = [*sheet * 3, _Profile]
    types = {
        "check": [*check, *sheet],
        "check_page": [*check, *sheet * 2],
        "evaluate": [*sheet, _Profile, POINTER(c_int32), c_size_t, POINTER(c_int64)],
        "search": [*check, c_int64, c_int64, *sheet, POINTER(c_int64), POINTER(c_uint32)],
        "claim_text": sheet * 2,
        "proof_text": sheet * 2,
        "limits_text": sheet * 2,
        "profile_text": [_Profile, *sheet],
    }
    for name, arguments in types.items():
        function = getattr(loaded, f"burmelox_{name}")
        function.argtypes = arguments
        function.restype = c_uint64
    return loaded


def _sheet(sheet):
    """A sheet as the library takes it, its bytes and their number."""
    sheet = bytes(memoryview(sheet))
    return sheet, len(sheet)


def _sheets(claim, proof, given):
    """The three sheets of a check. Without limits no variable of the claim is limited."""
    if given is None:
        given = limits([None] * (claim[0] if claim else 0))
    return *_sheet(claim), *_sheet(proof), *_sheet(given)


def _fitting(kind, numbers):
    """The numbers, which ctypes would cut to the type's size without a word."""
    for number in numbers:
        if kind(number).value != number:
            raise OverflowError(f"{number} does not fit into {ctypes.sizeof(kind)} bytes")
    return numbers


def _profile(profile):
    return _Profile(*_fitting(c_uint32, profile))


def _accepted(answer, page=None):
    """An answer that is no refusal."""
    if answer >= 1 << 16:
        raise Refused(answer, page)
    return answer


def _text(function, most, *arguments):
    buffer = ctypes.create_string_buffer(most)
    length = _accepted(function(*arguments, buffer, most))
    return buffer.raw[:length].decode("ascii")
