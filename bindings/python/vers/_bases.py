"""What the lists share: an owner of a list of the library, queries, and the habits of a Python sequence."""

from __future__ import annotations

import ctypes
import difflib
import operator
import sys
from array import array
from itertools import chain
from typing import Any, Callable, Dict, Generic, Iterator, Optional, Sequence, Tuple, Type, TypeVar, Union

from . import _buffers, _codes as codes, _files, _library as library, _queries
from ._buffers import Numbers, number
from ._faults import OtherKind, Refused, Unknown, VersError, fault
from ._files import Path
from ._queries import Query, query

#: The greatest number of 64 bits, 2**64 - 1.
NONE = _buffers.MOST

_asked = library.asked
# how many items `repr` shows
_SHOWN = 8
# the classes by the third word of a saved form
_FORMS = {
    1: "BitVec or RsVec", 2: "EliasFanoVec", 3: "WaveletMatrix", 4: "SparseRSVec", 5: "FastRmq or BinaryRmq", 6: "BpTree",
    7: "Postings", 9: "TextIndex", 10: "InvertedIndex",
}
# the name of a query, of which each class names its own
Q = TypeVar("Q", bound=str)
# the class of a list
L = TypeVar("L", bound="List[Any]")


class List(Generic[Q]):
    """What all lists share: their handle, and queries by code."""

    # the queries by name, and their names by code
    _queries: Dict[str, Query] = {}
    _names: Dict[int, str] = {}
    _items = "items"
    # the kind of saved form, if there is one
    _kind: Optional[int] = None
    # the handle of the library, and its address
    _handle: library.Handle
    _at: int

    def __init_subclass__(cls) -> None:
        """Finds the queries of a class, and adds them to its page of help."""
        super().__init_subclass__()
        found = {name: getattr(getattr(cls, name, None), "query", None) for name in dir(cls)}
        cls._queries = {name: asked for name, asked in found.items() if asked is not None}
        cls._names = {asked.code: name for name, asked in cls._queries.items() if asked.code != _queries.COMBINED}
        if cls._queries and cls.__doc__:
            shown = ", ".join(f"{name}({', '.join(asked.names)})" for name, asked in cls._queries.items())
            cls.__doc__ += f"\n\nQueries of a number or of an array, also by `each`: {shown}."

    def __new__(cls, *_: Any, **__: Any) -> Any:
        raise TypeError(f"{cls.__name__} is made by calls alone")

    @classmethod
    def _made(cls, build: Any, *arguments: Any, why: Optional[Callable[[], str]] = None) -> Any:
        """Returns the list that a call of the library makes from its arguments; `why` gives the reason if they are
        refused."""
        made = object.__new__(cls)
        made._handle = library.Handle()
        made._at = ctypes.addressof(made._handle)
        status = library.built(build, arguments, made)
        if status:
            raise fault(status, why() if why and status == codes.REFUSED else None)
        return made

    def __del__(self, free: Any = library.free) -> None:
        if hasattr(self, "_at"):
            free(self._at)

    def _find(self, code: int, a: int = 0) -> Optional[int]:
        try:
            found: int = _asked(self._at, code, a)
        except (TypeError, OverflowError):
            return self._asked_otherwise(code, a)
        return found if found >= 0 else self._without(found, code, a)

    def _number(self, code: int, a: int = 0) -> int:
        found = self._find(code, a)
        assert found is not None, "the query finds a number"
        return found

    def _truth(self, code: int, a: int, *others: int) -> bool:
        found: Any = self._find_by(code, a, *others) if others else self._find(code, a)
        truth: bool = found == 1 if type(found) is int else found
        return truth

    def _find_by(self, code: int, *numbers: int) -> Optional[int]:
        try:
            found: int = _asked(self._at, code, *numbers)
        except (TypeError, OverflowError):
            return self._asked_otherwise(code, *numbers)
        return found if found >= 0 else self._without(found, code, *numbers)

    def _asked_otherwise(self, code: int, *numbers: Any) -> Optional[int]:
        """Returns the answer to arrays, and to numbers of other types than int. Names the argument that is refused."""
        name = self._names[code]
        if any(map(_buffers.is_many, numbers)):
            answers: Optional[int] = self._asked_many(name, numbers, None)
            return answers
        plain = [number(it, f"the {argument}") for it, argument in zip(numbers, self._queries[name].names)]
        return self._find_by(code, *plain)

    def _without(self, found: int, code: int, a: int, b: int = 0, _: int = 0) -> Optional[int]:
        """Returns None if a query that found a status below 0 has no answer, and otherwise raises its fault."""
        if found == -codes.REFUSED:
            raise Refused(self._reason(code, a, b))
        if found != -codes.ABSENT:
            library.done(-found)
        return None

    def _reason(self, code: int, a: int, b: int) -> str:
        """Returns the reason why a query of two numbers is refused."""
        return f"{self._names[code]} of {a}, {b} is refused"

    def __len__(self) -> int:
        return self._number(codes.LEN)

    def __bool__(self) -> bool:
        return self._length() > 0

    def _length(self) -> int:
        """Returns the length, which `len` can't answer from 2**63 on."""
        return self._number(codes.LEN)

    def to_bytes(self) -> bytes:
        """Returns the saved form, from which `from_bytes` rebuilds the list. Raises TypeError if there is none."""
        while True:
            size = library.saved_size(self._at)
            if size.status:
                raise TypeError(f"{self!r} has no saved form")
            saved = ctypes.create_string_buffer(size.value)
            # another thread may have changed the length meanwhile
            status = library.save(self._at, saved, size.value)
            if status != codes.REFUSED:
                library.done(status)
                return saved.raw

    @classmethod
    def from_bytes(cls, saved: Any) -> Any:
        """Rebuilds the list from the bytes that `to_bytes` returned. Of other bytes, raises the subclass of Refused that
        says why: TooShort, NotOurs, OtherVersion, OtherKind, BadLength, BadSum, BadPadding, NotAscending or
        NotAText."""
        if cls._kind is None:
            raise TypeError(f"{cls.__name__} has no saved form")
        content = bytes(memoryview(saved))
        try:
            return cls._made(library.load, cls._kind, content, len(content))
        except OtherKind:
            kind = int.from_bytes(content[16:24], "little")
            found = _FORMS.get(kind, f"the unknown kind {kind}")
            raise OtherKind(f"the bytes are the saved form of {found}, and not of {cls.__name__}") from None

    def save(self, path: Path) -> None:
        """Writes the saved form to a file, which appears when all of it is on the disk. A file that is replaced keeps
        its permissions, and a link its target. Raises TypeError if there is no saved form, and OSError with the
        path."""
        _files.write(path, self.to_bytes())

    @classmethod
    def load(cls: Type[L], path: Path) -> L:
        """Returns the list of a saved file. Raises what `from_bytes` does, with the path."""
        with open(path, "rb") as file:
            saved = file.read()
        try:
            made: L = cls.from_bytes(saved)
        except VersError as fault:
            raise type(fault)(f"{_files.shown(path)}: {fault}") from None
        return made

    def __reduce__(self) -> Any:
        return type(self).from_bytes, (self.to_bytes(),)

    def heap_size(self) -> int:
        """Returns the number of bytes of the heap that the list takes. Raises Unknown for PlainNumbers,
        whose bytes the library doesn't count."""
        try:
            return self._number(codes.HEAP_SIZE)
        except Unknown:
            raise Unknown(f"the library doesn't count the bytes of {type(self).__name__}") from None

    def tolist(self) -> Any:
        """Returns the items as a Python list."""
        return [it for part in self._parts(0, len(self)) for it in part]

    def _part(self, start: int, end: int) -> Any:
        """Returns the items from one position up to another, in an array."""
        return self._answers_from(codes.GET, start, end)

    def _parts(self, start: int, end: int) -> Iterator[Any]:
        for first in range(start, end, 4096):
            yield self._part(first, min(first + 4096, end))

    def _reversed(self) -> Iterator[int]:
        """Returns the items from the last one to the first one."""
        ends = range(len(self), 0, -4096)
        return chain.from_iterable(self._part(max(end - 4096, 0), end)[::-1] for end in ends)

    def _position(self, position: Any) -> int:
        """Returns a position, which is from the end if it is negative."""
        try:
            at = operator.index(position)
        except TypeError:
            hint = "; `get` takes an array" if "get" in self._queries and _buffers.is_many(position) else ""
            kind = type(position).__name__
            raise TypeError(f"an index is a whole number or a slice, and not of type {kind}{hint}") from None
        at = at + self._length() if at < 0 else at
        if not 0 <= at <= NONE:
            raise IndexError(f"no item at {position}")
        return at

    def _traits(self) -> Any:
        """Returns what equal lists have in common besides their items."""
        return self._length()

    def _contents(self) -> Iterator[Any]:
        """Returns arrays that are equal if the items of the lists are, and the traits."""
        return self._parts(0, len(self))

    def __eq__(self, other: object) -> bool:
        if not isinstance(other, List) or type(other) is not type(self):
            return NotImplemented
        if self._traits() != other._traits():
            return False
        return all(one == another for one, another in zip(self._contents(), other._contents()))

    def __repr__(self) -> str:
        name = type(self).__name__
        try:
            count = self._length()
            shown = self._shown([*self._part(0, min(count, _SHOWN))], ", ..." if count > _SHOWN else "")
        except (AttributeError, VersError):
            # it isn't made yet, or there is no memory
            return f"<vers.{name}>"
        return f"<vers.{name} of {_buffers.counted(count, self._items)}: {shown}>"

    def _shown(self, items: Any, more: str) -> str:
        return f"[{', '.join(map(str, items))}{more}]"

    def each(self, query: Q, *numbers: Union[Numbers, int], other: Optional[int] = None) -> Any:
        """Answers many queries at once, `query` being the name of a method: `bits.each("rank1", places)`.

        Each argument of the query is an array or a list of numbers, or one number for all. If one is a numpy array, all
        are broadcast, and the answers are an array, which is masked at the positions where a single call answers None.
        Otherwise the answers are an array('Q'), an array('q') if they are signed, or a list if they are truths or one
        may be None. With `other`, that number replaces None, and truths are 1 and 0. Other threads of Python run
        meanwhile.

        Raises Refused, with the position, for a query that a single call refuses.
        """
        asked = self._queries.get(query)
        if asked is None:
            near = difflib.get_close_matches(str(query), self._queries, 1, 0.5)
            hint = f"; the nearest is {near[0]!r}" if near else f"; it has {', '.join(self._queries) or 'none'}"
            raise Unknown(f"{type(self).__name__} has no query {query!r}{hint}")
        shown = f"({', '.join(asked.names)})"
        if len(numbers) != len(asked.names):
            raise TypeError(f"{query} takes {shown}, and not {len(numbers)} arguments")
        if not any(map(_buffers.is_many, numbers)):
            for it, name in zip(numbers, asked.names):
                number(it, f"the {name}")
            raise TypeError(f"one of the arguments {shown} has to be an array of numbers")
        return self._asked_many(query, numbers, other)

    def _asked_many(self, name: str, numbers: Tuple[Any, ...], other: Optional[int]) -> Any:
        """Returns the answers to arrays of numbers, as `each` says."""
        asked = self._with_sign(self._queries[name], other)
        columns = _buffers.columns_of(numbers, asked.names)
        answers = self._answers(asked.code, columns, asked.absent, True)
        absent = _buffers.positions_of(answers, asked.absent)
        if len(absent):
            absent = self._absent(asked, columns, absent)
        return _queries.finished(answers, asked, columns.shape, absent, other)

    def _with_sign(self, asked: Query, other: Optional[int]) -> Query:
        """Returns a query that says whether its answers are signed. Those that are items are, if all items are,
        unless `other` needs all 64 bits."""
        if asked.is_signed is not None:
            return asked
        fits = other is None or _buffers.whole_number(other, "other") < 1 << 63
        return asked._replace(is_signed=fits and self._is_signed())

    def _is_signed(self) -> bool:
        """Returns whether the items are elements, documents or positions that are all below 2**63."""
        return False

    def _absent(self, asked: Query, columns: _buffers.Columns, positions: Any) -> Any:
        """Returns the positions whose query has no answer. Raises Refused for the first one that is refused."""
        queries = _buffers.taken(columns, positions)
        refused = self._first_refused(asked, queries)
        if refused is not None:
            a, b = [*(it if isinstance(it, int) else int(it[refused]) for it in queries.columns), 0][:2]
            raise Refused(f"{self._reason(asked.code, a, b)}, in the query at position {positions[refused]}")
        if asked.is_signed:
            return positions
        again = self._answers(asked.code, queries, 0, True)
        found = set(map(int, _buffers.positions_of(again, asked.absent)))
        return [it for k, it in enumerate(positions) if k not in found] if found else positions

    def _first_refused(self, asked: Query, queries: _buffers.Columns) -> Optional[int]:
        """Returns the first query that is refused, of some that found nothing."""
        return None if asked.is_optional or not asked.is_signed else 0

    def _answers(self, code: int, columns: _buffers.Columns, absent: int, keeps: bool) -> Any:
        """Returns the answers of the library to many queries, and `absent` for a query without one. `keeps` the
        arguments."""
        first, *others = columns.columns
        if isinstance(first, int) or not all(isinstance(it, int) for it in others):
            rows = _buffers.rows_of(columns)
            self._batch(library.ask_rows, code, _buffers.address_of(rows), columns.size, absent)
            return _buffers.like(rows[::3], columns)
        answers = _buffers.copied(first) if keeps else first
        b, c = [*others, 0, 0][:2]
        self._batch(library.ask_each, code, _buffers.address_of(answers), columns.size, b, c, absent)
        return answers

    def _each_below(self, code: int, count: int) -> Iterator[int]:
        """Returns the answers of a query to each number below a count."""
        starts = range(0, count, 4096)
        return chain.from_iterable(self._answers_from(code, start, min(start + 4096, count)) for start in starts)

    def _answers_from(self, code: int, start: int, end: int) -> Any:
        """Returns the answers of a query to each number from one up to another, in an array('Q')."""
        numbers = _buffers.numbers_from(start, end)
        return self._answers(code, _buffers.Columns([numbers], len(numbers), None), 0, False)

    def _batch(self, ask: Any, *arguments: Any) -> None:
        handle = library.Handle()
        own = ctypes.addressof(handle)
        library.done(library.clone(self._at, own))
        try:
            library.done(ask(own, *arguments))
        finally:
            library.free(own)


class Shared(List[Q]):
    """A list that doesn't change, so that copies are owners of the same list, and there is a hash."""

    def __copy__(self) -> Any:
        return type(self)._made(library.clone_of, self)

    def __deepcopy__(self, _: Any) -> Any:
        return self.__copy__()

    def __hash__(self) -> int:
        known: Optional[int] = getattr(self, "_hash", None)
        if known is None:
            known = hash((type(self).__name__, self._traits()))
            for part in self._contents():
                known = hash((known, part.tobytes()))
            self._hash = known
        return known


class Items(List[Q], Sequence[int]):
    """A list with access to each item."""

    @query(codes.GET, None)
    def get(self, position: int) -> Optional[int]:
        """Returns the item at a position. None past the end."""
        return self._find(codes.GET, position)

    def __getitem__(self, position: Any) -> Any:
        """Returns the item at a position, which is from the end if it is negative. For a slice, returns an array of
        items: of bytes if they are bits, of the narrowest kind if they are symbols, and signed if they are elements,
        documents or positions that are all below 2**63."""
        if type(position) is not int or not 0 <= position <= NONE:
            if isinstance(position, slice):
                return self._slice(range(*position.indices(self._length())))
            position = self._position(position)
        item = self._find(codes.GET, position)
        if item is None:
            raise IndexError(f"no item at {position}")
        return item

    def _slice(self, places: range) -> Any:
        """Returns the items at some positions, in an array."""
        if places.step == 1:
            return self._answers_from(codes.GET, places.start, places.stop)
        numbers = array("Q", places)
        return self._answers(codes.GET, _buffers.Columns([numbers], len(numbers), None), 0, False)

    def __array__(self, dtype: Any = None, copy: Any = None) -> Any:
        """Returns the items as a numpy array, which is always a copy."""
        if copy is False:
            raise ValueError("the items of a list are copied into an array")
        numpy: Any = sys.modules["numpy"]
        own = numpy.dtype("u1" if self._items == "bits" else "i8" if self._is_signed() else "u8")
        kind = own if dtype is None else numpy.dtype(dtype)
        if kind.itemsize == 0:
            # a text as long as need be
            return self.__array__().astype(kind)
        made = numpy.empty(len(self), kind)
        for start in range(0, made.size, _buffers.CHUNK):
            end = min(start + _buffers.CHUNK, made.size)
            made[start:end] = self._numpy_part(numpy, start, end).view(own)
        return made

    def _numpy_part(self, numpy: Any, start: int, end: int) -> Any:
        """Returns the items from one position up to another, in a numpy array: of 64 bits an item, of bits of 8."""
        places = numpy.arange(start, end, dtype=numpy.uint64)
        return self._answers(codes.GET, _buffers.Columns([places], places.size, places.shape), 0, False)

    def __iter__(self) -> Iterator[int]:
        return chain.from_iterable(self._parts(0, len(self)))

    def __reversed__(self) -> Iterator[int]:
        return self._reversed()

    def index(self, value: Any, start: int = 0, stop: Optional[int] = None) -> int:
        """Returns the first position of an item, from `start` on and below `stop`. Raises ValueError if there is
        none."""
        position = self._first_position(value, *slice(start, stop).indices(self._length())[:2])
        if position is None:
            raise ValueError(f"{value!r} is not in the list")
        return position

    def count(self, value: Any) -> int:
        """Returns the number of items that equal a value."""
        return sum(part.count(value) for part in self._parts(0, self._length()))

    def __contains__(self, value: Any) -> bool:
        return self._first_position(value, 0, self._length()) is not None

    def _first_position(self, value: Any, start: int, end: int) -> Optional[int]:
        """Returns the first position of an item in a range. None if there is none."""
        for k, part in enumerate(self._parts(start, end)):
            if value in part:
                return start + 4096 * k + int(part.index(value))
        return None


class Fixed(Shared[Q], Items[Q]):
    """A list of items that doesn't change."""


class Ascending(Fixed[Q]):
    """Elements, documents or positions. The last one is below 2**63 only if all are."""

    def _slice(self, places: range) -> Any:
        found = super()._slice(places)
        return _buffers.array_of("q", memoryview(found).cast("B")) if self._is_signed() else found

    def _all(self) -> Any:
        """Returns the items in an array('Q')."""
        return self._part(0, len(self))

    def _is_signed(self) -> bool:
        return not self or self[-1] < 1 << 63


class Bits(Items[Q]):
    """A list of bits in words."""

    def _contents(self) -> Iterator[Any]:
        length = len(self)
        for start in range(0, length, 64 * 4096):
            yield self._words(start, min(start + 64 * 4096, length))

    def _words(self, start: int, end: int) -> Any:
        """Returns the bits from one position up to another as words. The last word may have zeros after them."""
        places = array("Q", range(start, end - 63, 64))
        words = self._answers(codes.GET_BITS, _buffers.Columns([places, 64], len(places), None), 0, False)
        rest = (end - start) % 64
        if rest:
            words.append(self._find_by(codes.GET_BITS, end - rest, rest) or 0)
        return words

    def _part(self, start: int, end: int) -> Any:
        return _buffers.flags_of(self._words(start, end), end - start)

    def _slice(self, places: range) -> Any:
        if abs(places.step) > 8:
            return _buffers.narrowed(super()._slice(places), 1)
        found, (first, last) = array("B"), sorted((places[0], places[-1])) if places else (0, -1)
        for start in range(first, last + 1, _buffers.CHUNK):
            found.extend(self._part(start, min(start + _buffers.CHUNK, last + 1)))
        return found if places.step == 1 else found[::places.step]

    def _numpy_part(self, numpy: Any, start: int, end: int) -> Any:
        words = numpy.array(self._words(start, end)).astype("<u8")
        return numpy.unpackbits(words.view(numpy.uint8), bitorder="little")[:end - start]


def bits_of(bits: Any, digits: str = "01") -> Tuple[_buffers.Held, int]:
    """Returns bits as `_buffers.bits_of` has them. A list of bits in words gives these."""
    if not isinstance(bits, Bits):
        return _buffers.bits_of(bits, digits)
    length = len(bits)
    return _buffers.held(bits._words(0, length)), length
