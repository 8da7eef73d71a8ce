"""Succinct data structures, proved in Rattle. Their translation to plain Rust, which pip builds unless there is a proved
archive, and this layer are tested.

    bits = vers.RsVec([1, 0, 1, 1])
    bits.rank1(3), bits.select1(2), bits[0], len(bits)       # 2, 3, 1, 4
    bits.each("rank1", places)                               # many at once, numpy arrays in and out

Answers are numbers, or None if there is no such element. A query takes a number or an array of numbers. Errors are the
exceptions Refused, Unknown, NoMemory and Shared; for bytes that are no saved form, a subclass of Refused that names the
reason. A number outside 0 to 2**64 - 1 raises OverflowError, another type TypeError, and a position outside a list in
brackets IndexError; the text names the position in an array. The module `vers.parts` queries lists in saved parts.
"""

from ._faults import (
    BadLength, BadPadding, BadSum, NoMemory, NotAscending, NotAText, NotOurs, Occupied, OtherKind, OtherVersion,
    Refused, Shared, TooShort, Unknown, Vacant, VersError,
)
from ._bases import NONE
from ._lists import (
    BinaryRmq, BitVec, BpTree, EliasFanoVec, FastRmq, InvertedIndex, PlainNumbers, Postings, RsVec, SparseRSVec,
    TextIndex, WaveletMatrix, load,
)

__version__ = "0.31.0"

__all__ = [
    "BadLength", "BadPadding", "BadSum", "BinaryRmq", "BitVec", "BpTree", "EliasFanoVec", "FastRmq", "InvertedIndex",
    "NONE", "NoMemory", "NotAText", "NotAscending", "NotOurs", "Occupied", "OtherKind", "OtherVersion", "PlainNumbers",
    "Postings", "Refused", "RsVec", "Shared", "SparseRSVec", "TextIndex", "TooShort", "Unknown", "Vacant", "VersError",
    "WaveletMatrix", "load",
]
