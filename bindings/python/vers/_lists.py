"""The lists of the library, by the names of the crate vers-vecs."""

from __future__ import annotations

import os
from array import array
from itertools import chain, compress, count, takewhile
from typing import Any, Iterable, Iterator, List, Literal, Optional, Tuple, Union

from . import _buffers, _codes as codes, _fasta, _files, _library as library
from ._bases import NONE, Ascending, Bits, Fixed, Shared, bits_of
from ._buffers import Held, Numbers, number, signed_number
from ._faults import NoMemory, OtherKind, Refused
from ._files import Path
from ._queries import COMBINED, Query, finished, query

# the queries of each class by name, as `each` takes them
_BitVecQuery = Literal["get", "get_bits"]
_RsVecQuery = Literal[
    "get", "get_bits", "rank1", "rank0", "select1", "select0", "successor1", "successor0", "predecessor1", "predecessor0",
]
_SparseQuery = Literal["get", "rank1", "rank0", "select1"]
_SortedQuery = Literal["get", "rank", "has", "predecessor", "successor", "delta"]
_SymbolsQuery = Literal[
    "get", "rank", "rank_range", "select", "select_offset", "quantile", "range_min", "range_max", "range_median",
    "predecessor", "successor",
]
_MinimaQuery = Literal["get", "range_min"]
_NumbersQuery = Literal["get"]
_TreeQuery = Literal[
    "is_open", "excess", "close", "open", "enclose", "node_handle", "parent", "first_child", "last_child",
    "next_sibling", "previous_sibling", "level_next", "level_prev", "level_ancestor", "node_index", "has_node",
    "is_leaf", "depth", "subtree_size", "is_ancestor", "level_leftmost", "level_rightmost",
]
_PostingsQuery = Literal["get", "rank", "cost", "contains", "next_at_least", "cheapest"]
_InvertedQuery = Literal["pair_number", "count", "get", "rank", "contains", "next_at_least"]

# the greatest width that the library takes as an argument
_MOST_WIDTH = (1 << 32) - 1
# by name: the queries by which `RsVec` finds a neighbour, and the step to it
_NEIGHBOURS = {
    "successor1": (codes.RANK1, codes.SELECT1, 1), "predecessor1": (codes.RANK1, codes.SELECT1, -1),
    "successor0": (codes.RANK0, codes.SELECT0, 1), "predecessor0": (codes.RANK0, codes.SELECT0, -1),
}


def _words(words: Numbers, length: Optional[int]) -> Tuple[Held, int]:
    """Words of 64 bits, and a length that these have."""
    plain = _buffers.plain(words)
    size = _buffers.item_size(plain)
    if size not in (None, 8) and len(plain):
        raise TypeError(f"a word has 8 bytes, and the items of this buffer have {size}: pass a `.view('u8')` of it, "
                        "and pack bits by numpy.packbits with bitorder='little'")
    held = _buffers.held(plain, "word")
    count = 64 * held.size if length is None else number(length, "the length")
    if count > 64 * held.size:
        bits, size_shown = 64 * held.size, _buffers.counted(held.size, "words")
        raise Refused(f"the length is {count}, above the {bits} bits of {size_shown}")
    return held, count


class BitVec(Bits[_BitVecQuery]):
    """A list of bits that can change: `BitVec([1, 0, 1])`. A change while another thread runs `each` raises Shared."""

    _items = "bits"
    _kind = codes.KIND_GROWING

    def __new__(cls, bits: Iterable[Any] = ()) -> Any:
        """Makes a list of bits: of truth values and of the numbers 0 and 1, or of a text of these two digits."""
        return cls._made(library.growing_build, *bits_of(bits))

    @classmethod
    def from_words(cls, words: Numbers, length: Optional[int] = None) -> BitVec:
        """Makes a list of the first `length` bits of words of 64 bits, or of all of them. The lowest bit of a word
        comes first. Refuses a length above that of the words, and a buffer whose items don't have 8 bytes."""
        made: BitVec = cls._made(library.growing_build, *_words(words, length))
        return made

    @classmethod
    def from_zeros(cls, length: int) -> BitVec:
        """Makes a list of zeros. Raises NoMemory if there are too many."""
        count = number(length, "the length")
        try:
            return cls.from_words(array("Q", [0]) * (count // 64 + 1), count)
        except MemoryError:
            raise NoMemory(f"there is no memory for {_buffers.counted(count, 'bits')}") from None

    @query(codes.GET_BITS)
    def get_bits(self, position: int, count: int) -> Optional[int]:
        """Returns `count` bits from a position on as a number, the first bit as its lowest. None if there are fewer, or
        `count` is 0 or above 64."""
        return self._find_by(codes.GET_BITS, position, count)

    def _change(self, code: int, a: int, b: int = 0, why: Optional[str] = None) -> None:
        library.done(library.change(self._at, code, a, b), why)

    def append(self, bit: Any) -> None:
        """Appends a bit."""
        self._change(codes.PUSH, _buffers.bit(bit))

    def append_bits(self, bits: int, count: int) -> None:
        """Appends the low bits of a number, at most 64, the lowest first."""
        many = number(count, "the count")
        self._change(codes.APPEND, number(bits, "the number"), many, f"the count is {many}, and it is at most 64")

    def extend(self, bits: Iterable[Any]) -> None:
        """Appends bits."""
        words, length = bits_of(bits)
        for position, word in enumerate(words.keeper):
            self.append_bits(word, min(64, length - 64 * position))

    def drop_last(self, count: int) -> None:
        """Drops the last bits, or all of them."""
        self._change(codes.DROP_LAST, number(count, "the count"))

    def __setitem__(self, position: int, bit: Any) -> None:
        if isinstance(position, slice):
            raise TypeError("'BitVec' object doesn't support the assignment of slices")
        at = self._position(position)
        if at >= len(self):
            raise IndexError(f"no item at {position}")
        self._change(codes.SET, at, _buffers.bit(bit))

    def __iter__(self) -> Iterator[int]:
        """Returns the bits, up to the end that the list then has. They are read 4096 at a time, so that a loop may miss
        a change of the next ones."""
        starts = takewhile(lambda start: start < len(self), count(0, 4096))
        return chain.from_iterable(self._part(start, min(start + 4096, len(self))) for start in starts)

    def __delitem__(self, position: Any) -> None:
        raise TypeError("'BitVec' object doesn't support item deletion; `drop_last` drops the last bits")

    def flip(self, position: int) -> None:
        """Changes the bit at a position, from the end if it is negative. Raises IndexError if there is none."""
        self[position] = not self[position]

    def count_ones(self) -> int:
        """Returns the number of ones, by words."""
        return sum(bin(int.from_bytes(words.tobytes(), "little")).count("1") for words in self._contents())

    def count(self, value: Any) -> int:
        """Returns the number of bits that equal a value, by words."""
        bit = _buffers.equal_number(value)
        ones = self.count_ones() if bit in (0, 1) else 0
        return len(self) - ones if bit == 0 else ones

    def __copy__(self) -> BitVec:
        return BitVec(self)

    def __deepcopy__(self, _: Any) -> BitVec:
        return BitVec(self)


class RsVec(Fixed[_RsVecQuery], Bits[_RsVecQuery]):
    """A list of bits with rank and select: `RsVec([1, 0, 1])`, or `RsVec.from_words`."""

    _items = "bits"
    _kind = codes.KIND_BITS

    def __new__(cls, bits: Iterable[Any]) -> Any:
        """Makes a list of bits: of truth values and of the numbers 0 and 1, or of a text of these two digits."""
        return cls._made(library.bits_build, *bits_of(bits))

    @classmethod
    def from_words(cls, words: Numbers, length: Optional[int] = None) -> RsVec:
        """Makes a list of the first `length` bits of words of 64 bits, or of all of them. The lowest bit of a word
        comes first. Refuses a length above that of the words, and a buffer whose items don't have 8 bytes."""
        made: RsVec = cls._made(library.bits_build, *_words(words, length))
        return made

    @query(codes.GET_BITS)
    def get_bits(self, position: int, count: int) -> Optional[int]:
        """Returns `count` bits from a position on as a number, the first bit as its lowest; 0 for no bits. None if
        there are fewer, or `count` is above 64."""
        return self._find_by(codes.GET_BITS, position, count)

    @query(codes.RANK1, True)
    def rank1(self, position: int) -> int:
        """Returns the number of ones before a position; all of them past the end."""
        return self._number(codes.RANK1, position)

    @query(codes.RANK0, True)
    def rank0(self, position: int) -> int:
        """Returns the number of zeros before a position; all of them past the end."""
        return self._number(codes.RANK0, position)

    @query(codes.SELECT1, True)
    def select1(self, number: int) -> int:
        """Returns the position of the one with an index from 0 on; the length if there is none, while
        `WaveletMatrix.select` returns None."""
        return self._number(codes.SELECT1, number)

    @query(codes.SELECT0, True)
    def select0(self, number: int) -> int:
        """Returns the position of the zero with an index from 0 on; the length if there is none, while
        `WaveletMatrix.select` returns None."""
        return self._number(codes.SELECT0, number)

    def iter1(self) -> Iterator[int]:
        """Returns the positions of the ones, in order."""
        return self._each_below(codes.SELECT1, self.ones())

    def iter0(self) -> Iterator[int]:
        """Returns the positions of the zeros, in order."""
        return self._each_below(codes.SELECT0, self.zeros())

    def ones(self) -> int:
        """Returns the number of ones."""
        return self.rank1(NONE)

    def zeros(self) -> int:
        """Returns the number of zeros."""
        return self.rank0(NONE)

    def count(self, value: Any) -> int:
        """Returns the number of bits that equal a value, by a rank."""
        bit = _buffers.equal_number(value)
        return self.ones() if bit == 1 else self.zeros() if bit == 0 else 0

    def _first_position(self, value: Any, start: int, end: int) -> Optional[int]:
        bit = _buffers.equal_number(value)
        if bit not in (0, 1):
            return None
        rank, select = (codes.RANK1, codes.SELECT1) if bit else (codes.RANK0, codes.SELECT0)
        found = self._number(select, self._number(rank, start))
        return found if found < end else None

    @query(COMBINED, True)
    def successor1(self, position: int) -> Optional[int]:
        """Returns the least position of a one strictly above a position, while `EliasFanoVec.successor` is at or above.
        None if there is none."""
        return self._neighbour("successor1", position)

    @query(COMBINED, True)
    def successor0(self, position: int) -> Optional[int]:
        """Returns the least position of a zero strictly above a position. None if there is none."""
        return self._neighbour("successor0", position)

    @query(COMBINED, True)
    def predecessor1(self, position: int) -> Optional[int]:
        """Returns the greatest position of a one strictly below a position, which may be past the end, while
        `EliasFanoVec.predecessor` is at or below. None if there is none."""
        return self._neighbour("predecessor1", position)

    @query(COMBINED, True)
    def predecessor0(self, position: int) -> Optional[int]:
        """Returns the greatest position of a zero strictly below a position, which may be past the end. None if there
        is none."""
        return self._neighbour("predecessor0", position)

    def _neighbour(self, name: str, position: Any) -> Optional[int]:
        """Returns the answer to a query of a neighbour: the next position of a bit above a position, or below it if
        the step is negative."""
        if _buffers.is_many(position):
            places: Optional[int] = self._asked_many(name, (position,), None)
            return places
        rank, select, step = _NEIGHBOURS[name]
        at = number(position, "the position")
        before = self._number(rank, min(at + 1, NONE)) if step > 0 else self._number(rank, at) - 1
        found = self._number(select, before) if before >= 0 else len(self)
        return found if found < len(self) else None

    def _asked_many(self, name: str, numbers: Tuple[Any, ...], other: Optional[int]) -> Any:
        if name not in _NEIGHBOURS:
            return super()._asked_many(name, numbers, other)
        rank, select, step = _NEIGHBOURS[name]
        columns = _buffers.columns_of(numbers, ["position"])
        if step > 0:
            columns = _buffers.stepped(columns, 1)
        ranks = columns._replace(columns=[self._answers(rank, columns, 0, True)])
        if step < 0:
            ranks = _buffers.stepped(ranks, -1)
        found = self._answers(select, ranks, 0, True)
        return finished(found, self._queries[name], columns.shape, _buffers.positions_of(found, len(self)), other)


class SparseRSVec(Fixed[_SparseQuery]):
    """A list of bits with few ones, by their positions: `SparseRSVec([3, 17], 100)`. Refused if the positions don't
    ascend strictly, or one isn't below the length."""

    _items = "bits"
    _kind = codes.KIND_SPARSE

    def __new__(cls, ones: Numbers, length: int) -> Any:
        """Makes a list of `length` bits, by the positions of its ones."""
        held, bound = _buffers.held(ones, "one"), number(length, "the length")

        def why() -> str:
            return _buffers.descent("one", held, True) or _buffers.not_below("one", held, bound) or "refused"
        return cls._made(library.sparse_build, held, bound, why=why)

    @query(codes.RANK1, True)
    def rank1(self, position: int) -> int:
        """Returns the number of ones before a position; all of them past the end."""
        return self._number(codes.RANK1, position)

    @query(codes.RANK0)
    def rank0(self, position: int) -> int:
        """Returns the number of zeros before a position; all of them past the end."""
        return self._number(codes.RANK0, position)

    @query(codes.SELECT1)
    def select1(self, number: int) -> int:
        """Returns the position of the one with an index from 0 on; the length if there is none, while
        `WaveletMatrix.select` returns None."""
        return self._number(codes.SELECT1, number)

    def iter1(self) -> Iterator[int]:
        """Returns the positions of the ones, in order."""
        return self._each_below(codes.SELECT1, self.rank1(NONE))

    def _contents(self) -> Iterator[Any]:
        yield array("Q", self.iter1())

    def _slice(self, places: range) -> Any:
        return _buffers.narrowed(super()._slice(places), 1)

    def _numpy_part(self, numpy: Any, start: int, end: int) -> Any:
        return super()._numpy_part(numpy, start, end).astype(numpy.uint8)

    def count(self, value: Any) -> int:
        """Returns the number of bits that equal a value, by a rank."""
        bit = _buffers.equal_number(value)
        return self.rank1(NONE) if bit == 1 else self.rank0(NONE) if bit == 0 else 0

    def _first_position(self, value: Any, start: int, end: int) -> Optional[int]:
        bit = _buffers.equal_number(value)
        if bit == 0:
            # past the ones from the start on, which are few
            return super()._first_position(0, start, end)
        found = self.select1(self.rank1(start)) if bit == 1 else end
        return found if found < end else None


class EliasFanoVec(Ascending[_SortedQuery]):
    """Numbers that ascend, equal ones allowed; Refused if they don't. `x in numbers` tests whether x is an element. `&`,
    `|` and `-` make the numbers of both lists, of one at least, and of the left one alone, without repeats."""

    _items = "elements"
    _kind = codes.KIND_SORTED

    def __new__(cls, numbers: Numbers) -> Any:
        """Makes a list of numbers that ascend."""
        held = _buffers.held(numbers)
        return cls._made(library.sorted_build, held, why=lambda: _buffers.descent("number", held, False))

    @query(codes.RANK, True)
    def rank(self, number: int) -> int:
        """Returns the number of elements below a number."""
        return self._number(codes.RANK, number)

    @query(codes.HAS)
    def has(self, number: int) -> bool:
        """Returns whether a number is an element."""
        return self._truth(codes.HAS, number)

    def __contains__(self, value: Any) -> bool:
        element = _buffers.equal_number(value)
        return element is not None and self.has(element)

    def count(self, value: Any) -> int:
        """Returns the number of elements that equal a value, by two ranks."""
        element = _buffers.equal_number(value)
        return 0 if element is None else self._past(element) - self.rank(element)

    def _first_position(self, value: Any, start: int, end: int) -> Optional[int]:
        element = _buffers.equal_number(value)
        if element is None:
            return None
        position = max(self.rank(element), start)
        return position if position < min(self._past(element), end) else None

    def _past(self, element: int) -> int:
        """Returns the number of elements that are at most a number."""
        return self.rank(element + 1) if element < NONE else len(self)

    @query(codes.PREDECESSOR, None)
    def predecessor(self, number: int) -> Optional[int]:
        """Returns the greatest element at or below a number, while `RsVec.predecessor1` is strictly below. None if there
        is none."""
        return self._find(codes.PREDECESSOR, number)

    @query(codes.SUCCESSOR, None)
    def successor(self, number: int) -> Optional[int]:
        """Returns the least element at or above a number, while `RsVec.successor1` is strictly above. None if there is
        none."""
        return self._find(codes.SUCCESSOR, number)

    def __and__(self, other: EliasFanoVec) -> EliasFanoVec:
        return self._combined(other, codes.INTERSECTION)

    def __or__(self, other: EliasFanoVec) -> EliasFanoVec:
        return self._combined(other, codes.UNION)

    def __sub__(self, other: EliasFanoVec) -> EliasFanoVec:
        return self._combined(other, codes.DIFFERENCE)

    def _combined(self, other: EliasFanoVec, joint: int) -> EliasFanoVec:
        if not isinstance(other, EliasFanoVec):
            return NotImplemented
        lists = self.__copy__(), other.__copy__()
        made: EliasFanoVec = EliasFanoVec._made(library.combine, *(it._at for it in lists), joint)
        return made

    @query(codes.DELTA, None)
    def delta(self, position: int) -> Optional[int]:
        """Returns the element at a position less the one before it; the first element itself. None past the end."""
        return self._find(codes.DELTA, position)


class WaveletMatrix(Fixed[_SymbolsQuery]):
    """Symbols, which are numbers of `bits_per_symbol` bits, at most 64. Ranges exclude their end; a query of one that ends
    past the last symbol returns None. A query takes the low bits of a symbol that is wider."""

    _items = "symbols"
    _kind = codes.KIND_SYMBOLS

    def __new__(cls, symbols: Numbers, bits_per_symbol: int, *, truncate: bool = False) -> Any:
        """Makes a list of symbols of a width. Raises Refused for a wider symbol, unless `truncate` takes its low
        bits."""
        held = _buffers.held(symbols, "symbol", library.symbols_builds)
        width = number(bits_per_symbol, "the width")
        size = held.keeper.itemsize
        if width == 0 and held.size:
            raise Refused("the width is 0, and a symbol has at least 1 bit")
        wide = None if truncate or width >= 8 * size else _buffers.above("symbol", held, (1 << width) - 1)
        if wide:
            raise Refused(f"{wide}, the greatest of {width} bits; `truncate` takes the low bits")
        return cls._made(library.symbols_builds[size], held, min(width, _MOST_WIDTH),
                         why=lambda: f"the width is {width}, and it is at most 64")

    def _traits(self) -> Any:
        return len(self), self.bits_per_element()

    def _contents(self) -> Iterator[Any]:
        # the saved form has the bits by levels, and takes less time than the symbols
        return iter([array("B", self.to_bytes())] if self.bits_per_element() else [])

    def _slice(self, places: range) -> Any:
        return _buffers.narrowed(super()._slice(places), self.bits_per_element())

    def count(self, value: Any) -> int:
        """Returns the number of symbols that equal a value, by a rank."""
        symbol = self._symbol(value)
        return 0 if symbol is None else self.rank(len(self), symbol) or 0

    def _first_position(self, value: Any, start: int, end: int) -> Optional[int]:
        symbol = self._symbol(value)
        position = None if symbol is None else self.select_offset(start, 0, symbol)
        return position if position is not None and position < end else None

    def _symbol(self, value: Any) -> Optional[int]:
        """Returns the symbol that equals a value. None if there is none, since a query takes the low bits."""
        symbol = _buffers.equal_number(value)
        return None if symbol is None or symbol >> self.bits_per_element() else symbol

    def bits_per_element(self) -> int:
        """Returns the number of bits of a symbol."""
        return self._number(codes.WIDTH)

    @query(codes.RANK_OF, True)
    def rank(self, end: int, symbol: int) -> Optional[int]:
        """Returns the number of occurrences of a symbol before the position `end`. None past the end."""
        return self._find_by(codes.RANK_OF, end, symbol)

    @query(codes.RANK_RANGE, True)
    def rank_range(self, start: int, end: int, symbol: int) -> Optional[int]:
        """Returns how often a symbol occurs in a range. None if the range starts or ends past the end, or ends before it
        starts."""
        return self._find_by(codes.RANK_RANGE, start, end, symbol)

    @query(codes.SELECT_OF, True)
    def select(self, number: int, symbol: int) -> Optional[int]:
        """Returns the position of occurrence `number` of a symbol. None if there are fewer, while `RsVec.select1`
        returns the length."""
        return self._find_by(codes.SELECT_OF, number, symbol)

    @query(codes.SELECT_FROM, True)
    def select_offset(self, offset: int, number: int, symbol: int) -> Optional[int]:
        """Returns the position of occurrence `number` of a symbol among the positions from `offset` on. None if there
        are fewer."""
        return self._find_by(codes.SELECT_FROM, offset, number, symbol)

    @query(codes.QUANTILE)
    def quantile(self, start: int, end: int, number: int) -> Optional[int]:
        """Returns symbol `number` of a range in ascending order. None if the range has fewer."""
        return self._find_by(codes.QUANTILE, start, end, number)

    @query(codes.LEAST)
    def range_min(self, start: int, end: int) -> Optional[int]:
        """Returns the least symbol of a range without its end, while `FastRmq.range_min` includes the end and returns a
        position. None if the range is empty."""
        return self._find_by(codes.LEAST, start, end)

    @query(codes.GREATEST)
    def range_max(self, start: int, end: int) -> Optional[int]:
        """Returns the greatest symbol of a range. None if the range is empty."""
        return self._find_by(codes.GREATEST, start, end)

    @query(codes.MEDIAN)
    def range_median(self, start: int, end: int) -> Optional[int]:
        """Returns the middle symbol of a range in ascending order, the lower one of two. None if the range is empty."""
        return self._find_by(codes.MEDIAN, start, end)

    @query(codes.SYMBOLS_PREDECESSOR)
    def predecessor(self, start: int, end: int, symbol: int) -> Optional[int]:
        """Returns the greatest symbol of a range not above a symbol. None if there is none."""
        return self._find_by(codes.SYMBOLS_PREDECESSOR, start, end, symbol)

    @query(codes.SYMBOLS_SUCCESSOR)
    def successor(self, start: int, end: int, symbol: int) -> Optional[int]:
        """Returns the least symbol of a range not below a symbol. None if there is none."""
        return self._find_by(codes.SYMBOLS_SUCCESSOR, start, end, symbol)


class FastRmq(Fixed[_MinimaQuery]):
    """A list of values that finds the least of a range, in few bits more."""

    _items = "values"
    _kind = codes.KIND_FAST
    _build = staticmethod(library.fast_rmq_build)

    def __new__(cls, values: Numbers) -> Any:
        """Makes a list of values."""
        return cls._made(cls._build, _buffers.held(values, "value"))

    @query(codes.RANGE_MIN, True)
    def range_min(self, first: int, last: int) -> Optional[int]:
        """Returns the first position of a least value from one position to another, both included, while
        `WaveletMatrix.range_min` excludes the end and returns a symbol. None if that is no range of the list."""
        return self._find_by(codes.RANGE_MIN, first, last)


class BinaryRmq(FastRmq):
    """A list of values that finds the least of a range by a table, of 4 bytes for each value and power of two."""

    _kind = codes.KIND_BINARY
    _build = staticmethod(library.binary_rmq_build)


class PlainNumbers(Ascending[_NumbersQuery]):
    """Plain numbers, which some calls return."""

    _items = "numbers"

    def __reduce__(self) -> Any:
        return _plain_again, (self[:],)


def _plain_again(numbers: Any) -> Any:
    """Returns numbers as a call returned them: documents and positions, which ascend strictly, or symbols of a text. Those
    of `first_places`, in neither order nor width, are the array that they are pickled as."""
    try:
        same = Postings(numbers)
    except Refused:
        return numbers if max(numbers) >> 16 else TextIndex(numbers, 16, len(numbers)).extract(0, len(numbers))
    return same.intersect(same)


class BpTree(Shared[_TreeQuery]):
    """Trees as parentheses: `BpTree("(()())")`, or as bits, 1 for a parenthesis that opens. A node is the position at
    which it opens. Queries of nodes raise Refused if the parentheses aren't balanced, or no node opens at such a
    position."""

    _items = "parentheses"
    _kind = codes.KIND_TREE

    def __new__(cls, parentheses: Iterable[Any]) -> Any:
        """Makes trees of parentheses: of a text of them, of a text of 1 and 0, or of bits."""
        return cls._made(library.tree_build, *bits_of(parentheses, "01)("))

    def _shown(self, items: Any, more: str) -> str:
        return "".join(")("[it] for it in items) + more[2:]

    def _reason(self, code: int, a: int, b: int) -> str:
        if code == codes.EXCESS:
            return f"position {a} is past the end of {_buffers.counted(len(self), 'parentheses')}"
        if not self.is_balanced():
            return "the parentheses are not balanced"
        return f"no node opens at position {a if not self.has_node(a) else b}"

    def _first_refused(self, asked: Query, queries: _buffers.Columns) -> Optional[int]:
        if not asked.is_optional:
            return 0
        if asked.code in (codes.LEVEL_LEFTMOST, codes.LEVEL_RIGHTMOST):
            return None if self.is_balanced() else 0
        if not codes.PARENT <= asked.code <= codes.SUBTREE_SIZE:
            return None
        nodes = queries.columns[0]
        if isinstance(nodes, int):
            return None if self.has_node(nodes) else 0
        are_nodes = self._answers(codes.HAS_NODE, queries._replace(columns=[nodes]), 0, True)
        refused = _buffers.positions_of(are_nodes, 0)
        return int(refused[0]) if len(refused) else None

    @classmethod
    def from_words(cls, words: Numbers, length: Optional[int] = None) -> BpTree:
        """Makes a list of the first `length` bits of words of 64 bits, or of all of them. The lowest bit of a word
        comes first. Refuses a length above that of the words, and a buffer whose items don't have 8 bytes."""
        made: BpTree = cls._made(library.tree_build, *_words(words, length))
        return made

    @query(codes.GET)
    def is_open(self, position: int) -> Optional[bool]:
        """Returns whether the parenthesis at a position opens. None past the end."""
        found: Any = self._find(codes.GET, position)
        return found == 1 if type(found) is int else found

    def root(self) -> Optional[int]:
        """Returns the first root, which is position 0. None if there are no parentheses."""
        return 0 if len(self) else None

    def size(self) -> int:
        """Returns the number of ones, which is the number of nodes if the parentheses are balanced."""
        return self._number(codes.SIZE)

    def is_balanced(self) -> bool:
        """Returns whether the parentheses are balanced."""
        return self._number(codes.IS_BALANCED) == 1

    @query(codes.EXCESS, True, 1 << 63)
    def excess(self, position: int) -> int:
        """Returns the number of ones less that of zeros, up to a position and at it. Raises Refused past the end."""
        value = self._number(codes.EXCESS, position)
        return value - (1 << 64) if type(value) is int and value >> 63 else value

    @query(codes.CLOSE, True)
    def close(self, position: int) -> Optional[int]:
        """Returns the position that closes the parenthesis that opens at a position; for one that closes, the position
        that closes the pair around it. None if there is none."""
        return self._find(codes.CLOSE, position)

    @query(codes.OPEN, True)
    def open(self, position: int) -> Optional[int]:
        """Returns the position that opens the parenthesis that closes at a position; for one that opens, its parent. None
        if there is none."""
        return self._find(codes.OPEN, position)

    @query(codes.ENCLOSE, True)
    def enclose(self, position: int) -> Optional[int]:
        """Returns the position at which the nearest pair around a position opens. None if there is none."""
        return self._find(codes.ENCLOSE, position)

    @query(codes.NODE_HANDLE, True)
    def node_handle(self, number: int) -> int:
        """Returns the position of the one with an index from 0 on, which is the node of that index in preorder if the
        parentheses are balanced; the length if there is none."""
        return self._number(codes.NODE_HANDLE, number)

    def fwd_search(self, position: int, rise: int) -> Optional[int]:
        """Returns the first position past `position` at which the excess has risen by `rise`, which may be negative. None
        if there is none."""
        return self._search(codes.FWD_SEARCH, position, rise)

    def bwd_search(self, position: int, rise: int) -> Optional[int]:
        """Returns the last position before `position` before which the excess is `rise` more, which may be negative. None
        if there is none, or `position` is past the end."""
        return self._search(codes.BWD_SEARCH, position, rise)

    def _search(self, code: int, position: int, rise: int) -> Optional[int]:
        return self._find_by(code, number(position, "the position"), signed_number(rise, "the rise") % (1 << 64))

    @query(codes.PARENT, True)
    def parent(self, node: int) -> Optional[int]:
        """Returns the parent of a node. None for a root."""
        return self._find(codes.PARENT, node)

    @query(codes.FIRST_CHILD, True)
    def first_child(self, node: int) -> Optional[int]:
        """Returns the first child of a node. None for a leaf."""
        return self._find(codes.FIRST_CHILD, node)

    @query(codes.LAST_CHILD, True)
    def last_child(self, node: int) -> Optional[int]:
        """Returns the last child of a node. None for a leaf."""
        return self._find(codes.LAST_CHILD, node)

    @query(codes.NEXT_SIBLING, True)
    def next_sibling(self, node: int) -> Optional[int]:
        """Returns the sibling after a node. None for the last one."""
        return self._find(codes.NEXT_SIBLING, node)

    @query(codes.PREVIOUS_SIBLING, True)
    def previous_sibling(self, node: int) -> Optional[int]:
        """Returns the sibling before a node. None for the first one."""
        return self._find(codes.PREVIOUS_SIBLING, node)

    def children(self, node: int) -> Iterator[int]:
        """Returns the children of a node, in order."""
        child = self.first_child(node)
        while child is not None:
            yield child
            child = self.next_sibling(child)

    def dfs_iter(self) -> Iterator[int]:
        """Returns the nodes in preorder: the positions of the ones."""
        return self._each_below(codes.NODE_HANDLE, self.size())

    @query(codes.LEVEL_NEXT, True)
    def level_next(self, node: int) -> Optional[int]:
        """Returns the next node of the same depth. None if there is none."""
        return self._find(codes.LEVEL_NEXT, node)

    @query(codes.LEVEL_PREV, True)
    def level_prev(self, node: int) -> Optional[int]:
        """Returns the previous node of the same depth. None if there is none."""
        return self._find(codes.LEVEL_PREV, node)

    @query(codes.LEVEL_ANCESTOR, True)
    def level_ancestor(self, node: int, levels: int) -> Optional[int]:
        """Returns the ancestor of a node that is `levels` up; the node itself for 0. None if there is none."""
        return self._find_by(codes.LEVEL_ANCESTOR, node, levels)

    @query(codes.NODE_INDEX, True)
    def node_index(self, node: int) -> int:
        """Returns the index of a node in preorder."""
        return self._number(codes.NODE_INDEX, node)

    @query(codes.HAS_NODE)
    def has_node(self, position: int) -> bool:
        """Returns whether the parentheses are balanced and a node opens at a position."""
        return self._truth(codes.HAS_NODE, position)

    @query(codes.IS_LEAF)
    def is_leaf(self, node: int) -> bool:
        """Returns whether a node has no children."""
        return self._truth(codes.IS_LEAF, node)

    @query(codes.DEPTH, True)
    def depth(self, node: int) -> int:
        """Returns the number of ancestors of a node."""
        return self._number(codes.DEPTH, node)

    @query(codes.SUBTREE_SIZE, True)
    def subtree_size(self, node: int) -> int:
        """Returns the number of nodes of the subtree of a node, with the node."""
        return self._number(codes.SUBTREE_SIZE, node)

    @query(codes.IS_ANCESTOR)
    def is_ancestor(self, ancestor: int, node: int) -> bool:
        """Returns whether one node is above another, or is that node."""
        return self._truth(codes.IS_ANCESTOR, ancestor, node)

    @query(codes.LEVEL_LEFTMOST, True)
    def level_leftmost(self, depth: int) -> Optional[int]:
        """Returns the first node of a depth, which is 0 for roots. None if no node is so deep."""
        return self._find(codes.LEVEL_LEFTMOST, depth)

    @query(codes.LEVEL_RIGHTMOST, True)
    def level_rightmost(self, depth: int) -> Optional[int]:
        """Returns the last node of a depth, which is 0 for roots. None if no node is so deep."""
        return self._find(codes.LEVEL_RIGHTMOST, depth)


class Postings(Ascending[_PostingsQuery]):
    """Documents, which ascend strictly, each with a cost; Refused if they don't. `x in postings` asks for one. `&`, `|`
    and `-` make the documents of both lists, of one at least, and of the left one alone. Each has its cost in the left
    list, or in the right one if only that has it."""

    _items = "documents"
    _kind = codes.KIND_POSTINGS

    def __new__(cls, documents: Numbers, costs: Optional[Numbers] = None) -> Any:
        """Makes a list of documents, with as many costs, or costs of 0."""
        held = _buffers.held(documents, "document")
        costs_held = _buffers.held(array("Q", bytes(8 * held.size)) if costs is None else costs, "cost")

        def why() -> str:
            return _buffers.descent("document", held, True) or (
                f"{_buffers.counted(held.size, 'documents')} with {_buffers.counted(costs_held.size, 'costs')}")
        return cls._made(library.postings_build, held, costs_held, why=why)

    def _contents(self) -> Iterator[Any]:
        yield from self._parts(0, len(self))
        yield self._costs()

    @query(codes.RANK, True)
    def rank(self, number: int) -> int:
        """Returns the number of documents below a number."""
        return self._number(codes.RANK, number)

    @query(codes.COST)
    def cost(self, position: int) -> Optional[int]:
        """Returns the cost of the document at a position. None past the end."""
        return self._find(codes.COST, position)

    @query(codes.HAS)
    def contains(self, document: int) -> bool:
        """Returns whether a document is in the list."""
        return self._truth(codes.HAS, document)

    def __contains__(self, value: Any) -> bool:
        document = _buffers.equal_number(value)
        return document is not None and self.contains(document)

    def count(self, value: Any) -> int:
        """Returns 1 for a document that the list has, and otherwise 0."""
        return int(value in self)

    def _first_position(self, value: Any, start: int, end: int) -> Optional[int]:
        if value not in self:
            return None
        position = self.rank(int(value))
        return position if start <= position < end else None

    @query(codes.SUCCESSOR, None)
    def next_at_least(self, number: int) -> Optional[int]:
        """Returns the first document not below a number. None if there is none."""
        return self._find(codes.SUCCESSOR, number)

    @query(codes.CHEAPEST, None)
    def cheapest(self, first: int, last: int) -> Optional[int]:
        """Returns the first document of least cost from one number to another, both included. None if there is none."""
        return self._find_by(codes.CHEAPEST, first, last)

    def intersect(self, other: Postings, *more: Postings) -> PlainNumbers:
        """Returns the documents that this list and all the others have, ascending."""
        for it in (other, *more):
            if not isinstance(it, Postings):
                raise TypeError(f"an intersection is with Postings, and not with {type(it).__name__}")
        if more:
            return (self & other).intersect(*more)
        lists = self.__copy__(), other.__copy__()
        made: PlainNumbers = PlainNumbers._made(library.intersect, *(it._at for it in lists))
        return made

    def __and__(self, other: Postings) -> Postings:
        if not isinstance(other, Postings):
            return NotImplemented
        documents = self.intersect(other)._all()
        made: Postings = Postings(documents, self.each("cost", self.each("rank", documents), other=0))
        return made

    def __sub__(self, other: Postings) -> Postings:
        if not isinstance(other, Postings):
            return NotImplemented
        kept = bytearray(b"\1") * len(self)
        for position in self.each("rank", self.intersect(other)._all()):
            kept[position] = 0
        made: Postings = Postings(array("Q", compress(self._all(), kept)), array("Q", compress(self._costs(), kept)))
        return made

    def __or__(self, other: Postings) -> Postings:
        if not isinstance(other, Postings):
            return NotImplemented
        rest = other - self
        is_from_rest = bytearray(len(self) + len(rest))
        for count, below in enumerate(self.each("rank", rest._all())):
            is_from_rest[count + below] = 1
        # each cost is the next of the list that has the document
        sources = iter(self._costs()), iter(rest._costs())
        costs = array("Q", map(next, map(sources.__getitem__, is_from_rest)))
        made: Postings = Postings(array("Q", sorted(self._all() + rest._all())), costs)
        return made

    def _costs(self) -> Any:
        """Returns the costs of all documents, in an array('Q')."""
        return self._answers_from(codes.COST, 0, len(self))


class InvertedIndex(Shared[_InvertedQuery]):
    """An inverted index: ascending documents for each term, `InvertedIndex([0, 0, 2], [3, 7, 3])`. Pairs of a term and a
    document ascend strictly by term, and those of one term by document; Refused if they don't. A term that the index
    doesn't have has no documents."""

    _items = "pairs"
    _kind = codes.KIND_INVERTED

    def __new__(cls, terms: Numbers, documents: Numbers, limit: Optional[int] = None,
                universe: Optional[int] = None) -> Any:
        """Makes the index of terms below `limit` and of as many documents below `universe`. Without these, the limits
        are the greatest term plus 1, and the greatest document plus 1."""
        held, documents_held = _buffers.held(terms, "term"), _buffers.held(documents, "document")
        below = _above_all(held) if limit is None else number(limit, "the limit of terms")
        most = _above_all(documents_held) if universe is None else number(universe, "the limit of documents")

        def why() -> str:
            if held.size != documents_held.size:
                documents_shown = _buffers.counted(documents_held.size, "documents")
                return f"{_buffers.counted(held.size, 'terms')} with {documents_shown}"
            if below * most > NONE:
                return f"the product of the limits {below} and {most} is above {NONE}"
            return (_buffers.not_below("term", held, below) or _buffers.not_below("document", documents_held, most)
                    or _buffers.descent_of_pairs(held, documents_held))
        return cls._made(library.inverted_build, below, most, held, documents_held, why=why)

    def pairs(self) -> Tuple[Any, Any]:
        """Returns the terms of all pairs and their documents, in an array each."""
        universe = self.universe()
        numbers = self._part(0, len(self))
        documents = array("q" if self._is_signed() else "Q", (it % universe for it in numbers))
        return array("Q", (it // universe for it in numbers)), documents

    def tolist(self) -> Any:
        """Returns the pairs of a term and a document as a Python list."""
        return list(zip(*self.pairs()))

    def _traits(self) -> Any:
        return len(self), self.terms(), self.universe()

    def _is_signed(self) -> bool:
        return self.universe() <= 1 << 63

    def _shown(self, items: Any, more: str) -> str:
        return super()._shown([divmod(it, self.universe()) for it in items], more)

    def terms(self) -> int:
        """Returns the number of terms."""
        return self._number(codes.TERMS)

    def universe(self) -> int:
        """Returns the number that all documents are below."""
        return self._number(codes.UNIVERSE)

    @query(codes.GET)
    def pair_number(self, position: int) -> Optional[int]:
        """Returns the pair at a position of all pairs as one number: the term times the universe, plus the document.
        None past the end."""
        return self._find(codes.GET, position)

    @query(codes.COUNT, True)
    def count(self, term: int) -> int:
        """Returns the number of documents of a term."""
        return self._number(codes.COUNT, term)

    @query(codes.TERM_GET, None)
    def get(self, term: int, position: int) -> Optional[int]:
        """Returns the document of a term at a position. None past the end."""
        return self._find_by(codes.TERM_GET, term, position)

    @query(codes.TERM_RANK, True)
    def rank(self, term: int, number: int) -> int:
        """Returns the number of documents of a term that are below a number."""
        found = self._find_by(codes.TERM_RANK, term, number)
        assert found is not None, "the query finds a number"
        return found

    @query(codes.TERM_HAS)
    def contains(self, term: int, document: int) -> bool:
        """Returns whether a term has a document."""
        return self._truth(codes.TERM_HAS, term, document)

    @query(codes.TERM_SUCCESSOR, None)
    def next_at_least(self, term: int, number: int) -> Optional[int]:
        """Returns the first document of a term that is not below a number. None if there is none."""
        return self._find_by(codes.TERM_SUCCESSOR, term, number)

    def documents(self, term: int) -> PlainNumbers:
        """Returns the documents of a term, ascending. `vers.Postings(index.documents(term))` has `&`, `|` and `-`."""
        own, at = self.__copy__(), number(term, "the term")
        made: PlainNumbers = PlainNumbers._made(library.documents, own._at, at)
        return made

    def intersection(self, one: int, *others: int) -> PlainNumbers:
        """Returns the documents that have all of one or more terms, ascending."""
        # the search steps through the documents of the first term
        return self._joined(codes.INTERSECTION, sorted(_terms(one, others), key=self.count))

    def union(self, one: int, *others: int) -> PlainNumbers:
        """Returns the documents that have at least one of one or more terms, ascending."""
        return self._joined(codes.UNION, _terms(one, others))

    def difference(self, one: int, *others: int) -> PlainNumbers:
        """Returns the documents that have the first term and none of the others, ascending."""
        return self._joined(codes.DIFFERENCE, _terms(one, others))

    def _joined(self, joint: int, terms: List[int]) -> PlainNumbers:
        """Returns documents of the first of some terms and of the others."""
        own = self.__copy__()
        made: PlainNumbers = PlainNumbers._made(library.joined, own._at, joint, _buffers.held(terms))
        return made


def _terms(one: Any, others: Tuple[Any, ...]) -> List[int]:
    return [number(it, "the term") for it in (one, *others)]


def _above_all(held: Held) -> int:
    """Returns the least number that is above some numbers, at most 2**64 - 1."""
    if held.size == 0:
        return 0
    greatest = held.keeper.max() if hasattr(held.keeper, "max") else max(held.keeper)
    return min(int(greatest) + 1, NONE)


class TextIndex(Shared[str]):
    """A text of symbols of `bits_per_symbol` bits, at most 16, that counts and locates patterns:
    `TextIndex(b"abracadabra")`. The index keeps one position for each `step`. `pattern in text` is whether a pattern
    occurs. A pattern without symbols occurs at each position and at the end. `from_fasta` makes the index of sequences
    with names."""

    _kind = codes.KIND_TEXT
    _items = "symbols"

    def __new__(cls, symbols: Numbers, bits_per_symbol: int = 8, step: int = 32) -> Any:
        """Makes the index of a text. Raises Refused for a symbol that has more bits."""
        held = _buffers.held(symbols, "symbol", library.text_builds)
        width, kept = number(bits_per_symbol, "the width"), number(step, "the step")

        def why() -> str:
            if not 1 <= width <= 16:
                return f"the width is {width}, and it is from 1 to 16"
            if kept == 0:
                return "the step is 0"
            return _buffers.above("symbol", held, (1 << width) - 1) or f"{held.size} symbols are too many"
        return cls._made(library.text_builds[held.keeper.itemsize], held, min(width, _MOST_WIDTH), kept, why=why)

    @classmethod
    def from_bytes(cls, saved: Any, step: int = 32) -> Any:
        """Rebuilds the index from the bytes that `to_bytes` returned, without a sort. Bytes of a `WaveletMatrix`, as
        versions below 0.18 saved a text, make the index of its symbols, with one position kept for each `step`. Of
        other bytes, raises the kind of Refused that says why."""
        try:
            return super().from_bytes(saved)
        except OtherKind as fault:
            try:
                symbols = WaveletMatrix.from_bytes(saved)
            except OtherKind:
                raise fault from None
            return cls(symbols[:], symbols.bits_per_element(), step)

    @classmethod
    def from_fasta(cls, file: Union[Path, Iterable[bytes]], step: int = 32, *, upper: bool = False) -> TextIndex:
        """Makes the index of the sequences of a FASTA file with their names, as `vers text index --fasta` does, of its
        path or of its lines. The file may be compressed by gzip. Residues are letters, `*` and `-`, and stay as they
        are, unless `upper` makes them upper case. A name is what follows `>` up to a blank, and stays as it is. Raises
        Refused with the number of the first line that is wrong."""
        if not isinstance(file, (str, bytes, os.PathLike)):
            found: TextIndex = cls(_fasta.text_of(file, upper), 8, step)
            return found
        with _files.opened(file) as lines:
            try:
                return cls.from_fasta(lines, step, upper=upper)
            except Refused as fault:
                raise Refused(f"{_files.shown(file)}: {fault}") from None

    def sequences(self) -> List[Tuple[str, int, int]]:
        """Returns the sequences of a FASTA file, whose text `from_fasta` made: the name of each, and the positions at
        which it starts and ends. Raises Refused for another text."""
        known: Optional[List[Tuple[str, int, int]]] = getattr(self, "_known_sequences", None)
        if known is None:
            found = self._sites()
            known = self._known_sequences = [(found.name(self, k), *found.ends(k)) for k in range(len(found))]
        return known[:]

    def site(self, position: int) -> Optional[Tuple[str, int]]:
        """Returns the name of the sequence at a position, and the offset in it from 0 on. None if the position is in a
        name, or past the end. Raises Refused for a text that isn't that of a FASTA file."""
        found = self._sites()
        site = found.site(number(position, "the position"))
        return None if site is None else (found.name(self, site[0]), site[1])

    def sites(self, pattern: Numbers) -> List[Tuple[str, int]]:
        """Returns the name of the sequence and the offset in it for each occurrence of residues, ascending. Raises
        Refused for a pattern of none or of other symbols, and for a text that isn't that of a FASTA file."""
        found, held = self._sites(), _buffers.pattern(pattern)
        _fasta.check_residues(held.keeper.tolist())
        sites = found.sites(self.places(held.keeper))
        names = {k: found.name(self, k) for k in {k for k, _ in sites}}
        return [(names[k], offset) for k, offset in sites]

    def _sites(self) -> _fasta.Sites:
        known: Optional[_fasta.Sites] = getattr(self, "_known_sites", None)
        if known is None:
            known = self._known_sites = _fasta.Sites(self, self.places([_fasta.FEED])[:])
        return known

    def __getitem__(self, position: Any) -> Any:
        """Returns the symbol at a position, which is from the end if it is negative. For a slice, returns an array of
        the narrowest kind that its symbols fit in: of bytes if they have at most 8 bits."""
        if isinstance(position, slice):
            places = range(*position.indices(len(self)))
            first, last = sorted((places[0], places[-1])) if places else (0, -1)
            return _buffers.narrowed(self._part(first, last + 1)[::places.step], self.bits_per_symbol())
        at = self._position(position)
        if at >= len(self):
            raise IndexError(f"no item at {position}")
        return self._part(at, at + 1)[0]

    def __iter__(self) -> Iterator[int]:
        return chain.from_iterable(self._parts(0, len(self)))

    def __reversed__(self) -> Iterator[int]:
        return self._reversed()

    def _traits(self) -> Any:
        return len(self), self.bits_per_symbol()

    def __eq__(self, other: object) -> bool:
        # with the same step the saved forms are equal exactly if the texts are, and take less time
        if isinstance(other, TextIndex) and self._traits() == other._traits() and self.step() == other.step():
            return self.to_bytes() == other.to_bytes()
        return super().__eq__(other)

    def __hash__(self) -> int:
        # the ends are enough, since a text is read by a step for each symbol
        length = len(self)
        return hash((self._traits(), self[:64].tobytes(), self[max(length - 64, 0):].tobytes()))

    def _part(self, start: int, end: int) -> Any:
        return self.extract(start, end)._all()

    def bits_per_symbol(self) -> int:
        """Returns the number of bits of a symbol."""
        return self._number(codes.WIDTH)

    def step(self) -> int:
        """Returns the distance between two sampled positions."""
        return self._number(codes.STEP)

    def count(self, pattern: Numbers) -> int:
        """Returns the number of occurrences of a pattern."""
        held = _buffers.pattern(pattern)
        answer = library.count(self._at, held.address, held.size)
        library.done(answer.status)
        value: int = answer.value
        return value

    def count_each(self, patterns: Iterable[Numbers]) -> Any:
        """Returns the number of occurrences of each of some patterns: an array('q'), or a numpy array for the rows of
        one. In a text of some millions of symbols this takes less time than a `count` of each. Other threads of Python
        run meanwhile."""
        symbols, ends = _buffers.joined(patterns)
        own = self.__copy__()
        library.done(library.count_each(own._at, *symbols[:2], *ends[:2]))
        return ends.keeper

    def __contains__(self, pattern: Any) -> bool:
        return self.count(pattern) > 0

    def places(self, pattern: Numbers) -> PlainNumbers:
        """Returns the positions of a pattern, ascending."""
        held = _buffers.pattern(pattern)
        own = self.__copy__()
        made: PlainNumbers = PlainNumbers._made(library.places, own._at, *held[:2])
        return made

    def first_places(self, pattern: Numbers, limit: int) -> PlainNumbers:
        """Returns the first `limit` positions of a pattern, or all if there are fewer, in the order of the suffixes
        there."""
        held, most = _buffers.pattern(pattern), number(limit, "the limit")
        own = self.__copy__()
        made: PlainNumbers = PlainNumbers._made(library.first_places, own._at, *held[:2], most)
        return made

    def extract(self, start: int, end: int) -> PlainNumbers:
        """Returns the symbols from one position up to another. Raises Refused if the text has no such positions."""
        first, past = number(start, "the start"), number(end, "the end")
        own = self.__copy__()
        made: PlainNumbers = PlainNumbers._made(
            library.extract, own._at, first, past, why=lambda: (
                f"{first} to {past} is no range of {_buffers.counted(len(self), 'symbols')}"))
        return made


# the classes of saved forms; bits are those of a BitVec too, and values those of a BinaryRmq
_LOADED: Tuple[Any, ...] = (
    RsVec, SparseRSVec, EliasFanoVec, WaveletMatrix, FastRmq, BpTree, Postings, InvertedIndex, TextIndex)


def load(path: Path) -> Any:
    """Returns the list of a saved file, of the class of its kind: an `RsVec` of bits, and a `FastRmq` of values. Raises
    what `from_bytes` does, with the path."""
    with open(path, "rb") as file:
        kind = int.from_bytes(file.read(24)[16:], "little")
    return next((it for it in _LOADED if it._kind == kind), RsVec).load(path)
