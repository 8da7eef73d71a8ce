"""Lists in parts: saved files that the workers of an engine load, queried as one list.

    parts.save("0.vers", vers.RsVec("1011"))
    parts.save("1.vers", vers.RsVec("0110"))
    with ThreadPoolExecutor() as engine:
        bits = parts.Bits(engine, ["0.vers", "1.vers"])
        bits.rank1(6), bits.select1([0, 3])                      # 4, [0, 5]

An engine is an object with the `map` of `concurrent.futures`, such as a pool of threads or of processes (`Renewed`
replaces a pool that lost a process), or a `Client` of Dask.

- Threads share the parts, which are dropped with the list in parts.
- Each process of a pool loads the parts that its queries use, and keeps the last 1024 (`keep`).
- Dask places each part on a worker, which it prefers for queries. If the worker is lost, another one loads its parts.

The file of a part does not change: if another one has replaced it, a query raises `Refused`. Queries of one position or
number take an array too, and return a list. A query asks each part at most once in a round.

The documentation of each query explains how it merges the answers of parts. The library proves the laws that it names.
For a merge that is called tested, `tests/test_parts.py` only compares answers with plain lists.
"""

from __future__ import annotations

import os
import threading
from bisect import bisect_left, bisect_right
from collections import Counter
from concurrent.futures import BrokenExecutor, Executor
from functools import lru_cache, partial
from itertools import accumulate, repeat
from typing import Any, Callable, Dict, Iterable, List, Optional, Protocol, Sequence, Tuple, Type, Union

from . import _bases, _buffers, _faults, _files, _lists
from ._buffers import Numbers, number
from ._files import Path
from ._queries import many

# makes a list of its saved form, and of further arguments
Load = Callable[..., Any]
# the number of a part, what it is asked, and what is added to its answer; or the answer itself
Route = Union[Tuple[int, int, int], Optional[int]]

# quantiles are found by digits of as many bits, one in each round
_DIGIT = 4


class Engine(Protocol):
    """An object that runs a function on workers."""

    def map(self, __function: Any, *columns: Any) -> Iterable[Any]:
        """Returns the answers of a function to the rows of some columns, in order."""


def save(path: Path, made: _bases.List[Any]) -> None:
    """Writes the saved form of a list to a file, which appears when all of it is written, as `made.save(path)`."""
    made.save(path)


def load(path: Path, kind: Type[_bases.L]) -> _bases.L:
    """Returns the list of a class in a saved file, as `kind.load(path)`: `parts.load("0.vers", vers.RsVec)`."""
    return kind.load(path)


class Renewed:
    """An engine of `make`, which makes another one if the first breaks because it lost a process:
    `Renewed(lambda: ProcessPoolExecutor(4))`. A map that broke runs once more on the new engine."""

    def __init__(self, make: Callable[[], Executor]) -> None:
        self._make, self._engine, self._lock = make, make(), threading.Lock()

    def map(self, function: Any, *columns: Any) -> List[Any]:
        """Returns the answers of a function to the rows of some columns, in order."""
        rows, engine = list(zip(*columns)), self._engine
        try:
            return list(engine.map(function, *zip(*rows)))
        except BrokenExecutor:
            self._replace(engine)
        return list(self._engine.map(function, *zip(*rows)))

    def _replace(self, broken: Executor) -> None:
        with self._lock:
            # another thread may have replaced it
            if self._engine is broken:
                self._engine = self._make()
                broken.shutdown(wait=False)

    def __enter__(self) -> Renewed:
        return self

    def __exit__(self, *_: Any) -> None:
        self._engine.shutdown()


class _Part:
    """A file and the list in it, which the first query loads. Pickles as its path, so that no list is sent."""

    def __init__(self, path: str, load: Load, *more: Any) -> None:
        self._path, self._load, self._more, self._lock = path, load, more, threading.Lock()
        self.sum: Optional[bytes] = None
        self._list: Any = None
        self._size = 0

    def __reduce__(self) -> Any:
        return _of_process, (self._path, self._load, *self._more)

    def __sizeof__(self) -> int:
        """Returns the bytes that another worker would load, which Dask compares before it moves a query."""
        return self._size

    def loaded(self, expected: Optional[bytes] = None) -> Any:
        """Returns the list of a file that ends with an expected sum. Without one, reads the file again."""
        with self._lock:
            if self.sum is None or self.sum != expected:
                with open(self._path, "rb") as file:
                    saved = file.read()
                if expected not in (None, saved[-8:]):
                    raise _faults.Refused(f"the file {self._path} has been replaced")
                if self.sum != saved[-8:]:
                    self._list = self._made(saved)
                    self._size, self.sum = len(saved), saved[-8:]
            return self._list

    def _made(self, saved: bytes) -> Any:
        """Returns the list of a saved form. Names the file if that is refused."""
        try:
            return self._load(saved, *self._more)
        except _faults.VersError as fault:
            raise type(fault)(f"{self._path}: {fault}") from None


_kept = lru_cache(1024)(_Part)


def _of_process(*arguments: Any) -> _Part:
    """Returns the part of some arguments that this process keeps."""
    return _kept(*arguments)


def keep(most: Optional[int]) -> None:
    """Bounds how many parts this process keeps, or removes the bound if `most` is None. A pool of processes takes it as
    its `initializer`."""
    global _kept
    _kept = lru_cache(most)(_Part)


def _is_dask(engine: Any) -> bool:
    """Returns whether an engine is a client of Dask, whose `map` returns futures and takes them as arguments."""
    return hasattr(engine, "scheduler_info")


def _round(engine: Any, function: Any, *columns: Iterable[Any]) -> List[Any]:
    """Returns the answers of workers to rows of arguments."""
    rows = list(zip(*columns))
    if not rows:
        return []
    if _is_dask(engine):
        # the same query is another task, so that no arguments are compared
        return list(engine.gather(engine.map(function, *map(list, zip(*rows)), pure=False)))
    return list(engine.map(function, *zip(*rows)))


def _loaded(*arguments: Any) -> _Part:
    """Returns a part that is loaded, so that its size is known."""
    part = _Part(*arguments)
    part.loaded()
    return part


def _begun(part: _Part, facts: Any) -> Any:
    """Returns the sum of a part's file, and facts of its list."""
    found = facts(part.loaded())
    return part.sum, found


def _call(part: _Part, expected: bytes, name: str, *arguments: Any) -> Any:
    """Returns the answer of the list of a part to a query by name."""
    return getattr(part.loaded(expected), name)(*arguments)


class _Files:
    """Parts on an engine, with the facts of each."""

    def __init__(self, engine: Any, paths: Iterable[Path], facts: Any, load: Load, *more: Any) -> None:
        if isinstance(paths, (str, bytes, os.PathLike)):
            raise TypeError(f"the paths of parts are a list, and not one path: [{paths!r}]")
        rows = [(_files.shown(it), load, *more) for it in paths]
        self._engine = engine
        self._parts: List[Any] = [_Part(*it) for it in rows]
        if rows and _is_dask(engine):
            # a query goes to the worker that has the part, as the futures among its arguments say
            self._parts = engine.map(_loaded, *map(list, zip(*rows)))
        begun = _round(engine, _begun, self._parts, repeat(facts))
        self._sums, self.facts = [it for it, _ in begun], [it for _, it in begun]

    def __len__(self) -> int:
        return len(self._parts)

    def columns(self, chosen: Iterable[int]) -> List[List[Any]]:
        """Returns the parts of some numbers, and the sums of their files."""
        numbers = list(chosen)
        return [[self._parts[k] for k in numbers], [self._sums[k] for k in numbers]]

    def ask(self, function: Any, chosen: Iterable[int], *columns: Iterable[Any]) -> List[Any]:
        """Returns the answers of some parts, each to its row of arguments."""
        return _round(self._engine, function, *self.columns(chosen), *columns)

    def call(self, name: str, chosen: Iterable[int], *columns: Iterable[Any]) -> List[Any]:
        """Returns the answers of some parts to a query by name."""
        return self.ask(_call, chosen, repeat(name), *columns)


def _sums(numbers: Iterable[int]) -> List[int]:
    """Returns the sums of the first numbers, from none to all of them."""
    return [0, *accumulate(numbers)]


def _route(bounds: List[int], asked: int, added: Optional[List[int]], absent: Optional[int]) -> Route:
    """Returns the route of a number to the part between whose bounds it is, less the lower bound; `absent` from the
    last bound on."""
    part = bisect_right(bounds, asked) - 1
    return (part, asked - bounds[part], added[part] if added else 0) if asked < bounds[-1] else absent


class _Parts:
    """A list in parts, whose facts begin with their lengths. `_starts` are their starts, and its length."""

    def __init__(self, engine: Engine, paths: Iterable[Path], facts: Any, load: Load) -> None:
        self._files = _Files(engine, paths, facts, load)
        self._lengths = [it[0] for it in self._files.facts]
        self._starts = _sums(self._lengths)

    def __len__(self) -> int:
        return self._starts[-1]

    @many
    def get(self, position: int) -> Optional[int]:
        """Returns the item at a position. None past the end. Queries one part. The merge is tested."""
        item: Optional[int] = self._asked("get", position, lambda it: _route(self._starts, it, None, None))
        return item

    def _asked(self, name: str, asked: Any, route: Callable[[int], Route], *others: Any) -> Any:
        """Returns the answers to a number or to an array of numbers, each by its route, with other arguments."""
        if not _buffers.is_many(asked):
            return self._asked(name, [asked], route, *others)[0]
        answers: List[Any] = [route(number(it)) for it in asked]
        by_part: Dict[int, List[int]] = {}
        for position, it in enumerate(answers):
            if isinstance(it, tuple):
                by_part.setdefault(it[0], []).append(position)
        numbers = [[answers[it][1] for it in positions] for positions in by_part.values()]
        found = self._files.call(name, by_part, numbers, *map(repeat, others))
        for positions, part_answers in zip(by_part.values(), found):
            for position, answer in zip(positions, part_answers):
                added = answers[position][2]
                answers[position] = answer + added if added and answer is not None else answer
        return answers

    def _pieces(self, start: int, end: int) -> List[List[int]]:
        """Returns the parts that have elements of a range, with the start and the end of the range in each."""
        spans = enumerate(zip(self._starts, self._starts[1:]))
        rows = [(k, max(start, first) - first, min(end, past) - first) for k, (first, past) in spans]
        return [list(it) for it in zip(*(row for row in rows if row[1] < row[2]))] or [[], [], []]


def _counted(bits: _lists.RsVec) -> Tuple[int, int, int]:
    """Returns the length, and the numbers of zeros and of ones."""
    return len(bits), bits.zeros(), bits.ones()


class Bits(_Parts):
    """Bits in parts, each a saved `RsVec`. A query asks one part."""

    def __init__(self, engine: Engine, paths: Iterable[Path]) -> None:
        super().__init__(engine, paths, _counted, _lists.RsVec.from_bytes)
        # how many zeros and ones there are before each part, and in all
        self._before = [_sums(it[bit] for it in self._files.facts) for bit in (1, 2)]

    @many
    def rank1(self, position: int) -> int:
        """Returns how many ones precede a position; all of them past the end. Merged by the law `CountsOfSpansAddUp`:
        the ones before the part, plus those in it before the position."""
        return self._rank(1, position)

    @many
    def rank0(self, position: int) -> int:
        """Returns how many zeros precede a position; all of them past the end. Merged as `rank1`."""
        return self._rank(0, position)

    @many
    def select1(self, number: int) -> int:
        """Returns the position of a one by its number from 0 on; the length if there are no more. Merged by the law
        `CountsOfSpansAddUp`: its number is that in its part, plus the ones before the part."""
        return self._select(1, number)

    @many
    def select0(self, number: int) -> int:
        """Returns the position of a zero by its number from 0 on; the length if there are no more. Merged as
        `select1`."""
        return self._select(0, number)

    def ones(self) -> int:
        """Returns the number of ones. Queries no part. Merged by the law `CountsOfSpansAddUp`."""
        return self._before[1][-1]

    def zeros(self) -> int:
        """Returns the number of zeros. Queries no part. Merged by the law `CountsOfSpansAddUp`."""
        return self._before[0][-1]

    def _rank(self, bit: int, places: Any) -> int:
        before = self._before[bit]
        count: int = self._asked(f"rank{bit}", places, lambda it: _route(self._starts, it, before, before[-1]))
        return count

    def _select(self, bit: int, numbers: Any) -> int:
        before = self._before[bit]
        position: int = self._asked(f"select{bit}", numbers, lambda it: _route(before, it, self._starts, len(self)))
        return position


def _ends(elements: Any) -> Tuple[int, int, int]:
    """Returns the length, and the first and the last element if there are any."""
    return (len(elements), elements[0], elements[-1]) if len(elements) else (0, 0, 0)


class _Ascending(_Parts):
    """Numbers in parts that ascend. A query asks one part."""

    def __init__(self, engine: Engine, paths: Iterable[Path], load: Load, is_strict: bool) -> None:
        super().__init__(engine, paths, _ends, load)
        # the parts that have elements, with the first and the last one of each
        self._full = [k for k, length in enumerate(self._lengths) if length]
        self._firsts = [self._files.facts[k][1] for k in self._full]
        self._lasts = [self._files.facts[k][2] for k in self._full]
        for part, last, first in zip(self._full[1:], self._lasts, self._firsts[1:]):
            if first < last + is_strict:
                raise _faults.NotAscending(f"part {part} begins with {first} after {last}")

    def _from(self, asked: int, absent: Optional[int], is_position: bool = False) -> Route:
        """Returns the route of a number to the first part with an element at or above it."""
        at = bisect_left(self._lasts, asked)
        if at == len(self._full):
            return absent
        part = self._full[at]
        return part, asked, self._starts[part] if is_position else 0

    @many
    def rank(self, number: int) -> int:
        """Returns how many elements are below a number. Merged by the laws `FirstElementsAreBelow` and
        `OtherElementsAreNotBelow`: all elements of the parts before are below it, and none of the parts after."""
        count: int = self._asked("rank", number, lambda it: self._from(it, len(self), True))
        return count


class Sorted(_Ascending):
    """Numbers that ascend, in parts that ascend, each a saved `EliasFanoVec`. A query asks one part."""

    def __init__(self, engine: Engine, paths: Iterable[Path]) -> None:
        super().__init__(engine, paths, _lists.EliasFanoVec.from_bytes, False)

    @many
    def has(self, number: int) -> bool:
        """Returns whether a number is an element. Merged as `successor`."""
        truth: bool = self._asked("has", number, lambda it: self._from(it, False))
        return truth

    @many
    def successor(self, number: int) -> Optional[int]:
        """Returns the least element at or above a number. None if there is none. Merged by the law
        `LeastNotBelowIsLeast`: it is in the first part whose last element is at or above the number."""
        element: Optional[int] = self._asked("successor", number, lambda it: self._from(it, None))
        return element

    @many
    def predecessor(self, number: int) -> Optional[int]:
        """Returns the greatest element at or below a number. None if there is none. Merged by the law
        `GreatestNotAboveIsGreatest`: it is in the last part whose first element is at or below the number."""
        def route(asked: int) -> Route:
            at = bisect_right(self._firsts, asked) - 1
            return (self._full[at], asked, 0) if at >= 0 else None
        element: Optional[int] = self._asked("predecessor", number, route)
        return element


def _common(part: _Part, expected: bytes, other: _Part, other_sum: bytes) -> Any:
    """Returns the documents that two parts have, in an array."""
    return part.loaded(expected).intersect(other.loaded(other_sum))[:]


class Postings(_Ascending):
    """Documents in parts that ascend, each a saved `vers.Postings`. A query of a number asks one part."""

    def __init__(self, engine: Engine, paths: Iterable[Path]) -> None:
        super().__init__(engine, paths, _lists.Postings.from_bytes, True)

    @many
    def contains(self, document: int) -> bool:
        """Returns whether a document is in the list. Merged as `next_at_least`."""
        truth: bool = self._asked("contains", document, lambda it: self._from(it, False))
        return truth

    @many
    def next_at_least(self, number: int) -> Optional[int]:
        """Returns the first document at or above a number. None if there is none. Merged by the law
        `LeastNotBelowIsLeast`: it is in the first part whose last document is at or above the number."""
        document: Optional[int] = self._asked("next_at_least", number, lambda it: self._from(it, None))
        return document

    def intersect(self, other: Postings) -> List[int]:
        """Returns the documents that another list has too, ascending. Asks each pair of parts whose ranges of documents
        overlap. The merge is tested: the answers of the pairs, one after another."""
        own, others = 0, 0
        pairs = []
        while own < len(self._full) and others < len(other._full):
            if self._firsts[own] <= other._lasts[others] and other._firsts[others] <= self._lasts[own]:
                pairs.append((self._full[own], other._full[others]))
            if self._lasts[own] <= other._lasts[others]:
                own += 1
            else:
                others += 1
        chosen = other._files.columns(it for _, it in pairs)
        return [it for found in self._files.ask(_common, [it for it, _ in pairs], *chosen) for it in found]


def _wide(symbols: _lists.WaveletMatrix) -> Tuple[int, int]:
    """Returns the length and the width."""
    return len(symbols), symbols.bits_per_element()


def _below(part: _Part, expected: bytes, start: int, end: int, limits: List[int]) -> List[int]:
    """Returns how many symbols of a range of a part are below each of some limits, by bisections over its quantiles."""
    symbols, counts, low = part.loaded(expected), [], 0
    for limit in limits:
        # the limits ascend, and so do the counts
        high = end - start
        while low < high:
            middle = (low + high) // 2
            if symbols.quantile(start, end, middle) < limit:
                low = middle + 1
            else:
                high = middle
        counts.append(low)
    return counts


class Symbols(_Parts):
    """Symbols in parts, each a saved `WaveletMatrix`, all of one width."""

    def __init__(self, engine: Engine, paths: Iterable[Path]) -> None:
        super().__init__(engine, paths, _wide, _lists.WaveletMatrix.from_bytes)
        widths = sorted({width for _, width in self._files.facts})
        if len(widths) > 1:
            raise _faults.Refused(f"the parts have symbols of {widths[0]} and of {widths[1]} bits")
        self._width = widths[0] if widths else 0

    def rank(self, end: Any, symbol: int) -> Any:
        """Returns how often a symbol occurs before the position `end`. None past the end. Asks the parts up to the last
        such position at once. The merge is tested: the counts of the parts before, plus that in the part."""
        if not _buffers.is_many(end):
            return self.rank([end], symbol)[0]
        # the part that an end is in, or ends; -1 for the end 0
        cut = [(bisect_left(self._starts, it) - 1, it) for it in map(number, end)]
        inside = [(part, it - self._starts[part]) for part, it in cut if 0 <= part < len(self._files)]
        # each part answers all of its positions, and the ends in it
        asked = [[it] for it in self._lengths[:max((part for part, _ in inside), default=-1) + 1]]
        for part, it in inside:
            asked[part].append(it)
        counts = self._files.call("rank", range(len(asked)), asked, repeat(number(symbol)))
        before, answers = _sums(it[0] for it in counts), [iter(it[1:]) for it in counts]
        return [0 if part < 0 else None if it > len(self) else before[part] + next(answers[part]) for part, it in cut]

    def rank_range(self, start: int, end: int, symbol: int) -> Optional[int]:
        """Returns how often a symbol occurs in a range. None if the range starts past the last position, ends before it
        starts, or ends past the end. Asks the parts of the range. The merge is tested: the sum of their counts."""
        if not number(start) <= number(end) <= len(self) or start == len(self):
            return None
        chosen, starts, ends = self._pieces(start, end)
        count: int = sum(self._files.call("rank_range", chosen, starts, ends, repeat(number(symbol))))
        return count

    def count(self, symbol: int) -> int:
        """Returns how often a symbol occurs. Asks all parts. The merge is tested: the sum of their counts."""
        return sum(self._counts(symbol))

    def _counts(self, symbol: int) -> List[int]:
        """Returns how often a symbol occurs in each part."""
        return self._files.call("rank", range(len(self._files)), self._lengths, repeat(number(symbol)))

    def select(self, number: Any, symbol: int) -> Any:
        """Returns the position of occurrence `number` of a symbol. None if there are fewer. Asks all parts for counts,
        and then one part. The merge is tested: its number is that in its part, plus the occurrences before the part."""
        before = _sums(self._counts(symbol))
        return self._asked("select", number, lambda it: _route(before, it, self._starts, None), symbol)

    def quantile(self, start: int, end: int, number: int) -> Optional[int]:
        """Returns symbol `number` of a range in ascending order. None if the range has fewer, or ends past the end.
        Asks the parts of the range, in a round for each 4 bits of a symbol. Merged by the law `KthBySizeIsKth`: the
        greatest number that at most `number` symbols are below. That the counts of the parts add up is tested."""
        for it in (start, end, number):
            _buffers.number(it)
        if not (end <= len(self) and start + number < end):
            return None
        chosen, starts, ends = self._pieces(start, end)
        symbol = 0
        for shift in reversed(range(0, self._width, _DIGIT)):
            limits = [symbol + (digit << shift) for digit in range(1, 1 << _DIGIT)]
            counts = self._files.ask(_below, chosen, starts, ends, repeat(limits))
            symbol += bisect_right([sum(it) for it in zip(*counts)], number) << shift
        return symbol


def _edges(overlap: int, text: _lists.TextIndex) -> Tuple[int, int, Any, Any]:
    """Returns the length and the width of a text, and its first and last symbols."""
    length = len(text)
    shared = min(overlap, length)
    return length, text.bits_per_symbol(), text.extract(0, shared)[:], text.extract(length - shared, length)[:]


def _own_places(part: _Part, expected: bytes, pattern: List[int], own: int) -> Any:
    """Returns the positions of a pattern among a part's own symbols, in an array."""
    found = part.loaded(expected).places(pattern)
    return found[:bisect_left(found, own)]


def _by_document(part: _Part, expected: bytes, starts: _Part, starts_sum: bytes, pattern: List[int],
                 own: int) -> Dict[int, int]:
    """Returns how often a pattern occurs in each document among a part's own symbols. The document that begins before
    the part is number -1. An occurrence that goes on in another document belongs to none."""
    places = _own_places(part, expected, pattern, own)
    begins = starts.loaded(starts_sum)
    # the documents that begin up to the first symbol of an occurrence, and up to its last one
    first, last = (begins.rank([it + more for it in places]) for more in (1, len(pattern)))
    return dict(Counter(it - 1 for it, other in zip(first, last) if it == other))


class Texts:
    """A text in parts. Each is a saved `TextIndex` of its own symbols and of the `overlap` symbols that follow, or of all
    that follow if they are fewer: `text[start:end + overlap]`. Of a saved `WaveletMatrix` of these symbols a worker makes
    the index, which keeps one position for each `step`. A query asks all parts.

    `documents` are paths as well: for each part a saved `EliasFanoVec` of the positions in it, the overlap included, at
    which a document begins."""

    def __init__(self, engine: Engine, paths: Iterable[Path], overlap: int, step: int = 32,
                 documents: Iterable[Path] = ()) -> None:
        self._overlap = number(overlap, "the overlap")
        index = _lists.TextIndex.from_bytes
        self._files = _Files(engine, paths, partial(_edges, self._overlap), index, number(step, "the step"))
        self._own = self._own_lengths()
        self._starts = _sums(self._own)
        self._documents = _Files(engine, documents, len, _lists.EliasFanoVec.from_bytes)
        if len(self._documents) not in (0, len(self._files)):
            raise _faults.Refused(f"there are {len(self._files)} parts, and {len(self._documents)} of documents")
        # how many documents begin before each part
        self._before = _sums(self._documents.call("rank", range(len(self._documents)), self._own))

    def __len__(self) -> int:
        return self._starts[-1]

    def _own_lengths(self) -> List[int]:
        """Returns how many symbols of each part are its own. Keeps an index of the overlap of each part."""
        own: List[int] = []
        self._shared = []
        following: Any = []
        for part, (length, width, head, tail) in reversed(list(enumerate(self._files.facts))):
            shared = min(self._overlap, sum(own))
            overlap = tail[max(len(tail) - shared, 0):]
            if list(overlap) != list(following[:shared]):
                raise _faults.Refused(f"part {part} does not end with the first {shared} symbols of the next parts")
            own.append(length - shared)
            self._shared.append(_lists.TextIndex(overlap, width, 1))
            following = head
        return own[::-1]

    def _pattern(self, pattern: Numbers) -> List[int]:
        symbols = [number(it, "a symbol") for it in pattern]
        if len(symbols) > self._overlap + 1:
            most = self._overlap + 1
            raise _faults.Refused(f"the pattern has {len(symbols)} symbols, and by the overlap it may have {most}")
        return symbols

    def count(self, pattern: Numbers) -> int:
        """Returns how often a pattern of at most `overlap` + 1 symbols occurs; Refused if it has more. The merge is
        tested: the sum of the parts' counts, less the occurrences in overlaps, which the next parts count too."""
        symbols = self._pattern(pattern)
        counted: int = sum(self._files.call("count", range(len(self._files)), repeat(symbols)))
        # the pattern of no symbols is at the end too
        return counted - sum(it.count(symbols) for it in self._shared) + (not symbols)

    def places(self, pattern: Numbers) -> List[int]:
        """Returns the positions of a pattern, ascending. Refused as by `count`. The merge is tested: the positions of
        occurrences that begin in a part's own symbols, one part after another."""
        symbols = self._pattern(pattern)
        found = self._files.ask(_own_places, range(len(self._files)), repeat(symbols), self._own)
        places = [start + it for start, part in zip(self._starts, found) for it in part]
        return places if symbols else [*places, len(self)]

    def by_document(self, pattern: Numbers) -> Dict[int, int]:
        """Returns how often a pattern occurs in each document that has it, by ascending numbers of documents. An
        occurrence that goes on in another document counts nowhere. Refused as by `count`, and for no symbols. The merge
        is tested: the sum of the parts' counts of a document."""
        symbols, size = self._pattern(pattern), len(self._documents)
        if not symbols or size != len(self._files):
            raise _faults.Refused("the pattern has no symbols" if not symbols else "no documents were passed")
        starts = self._documents.columns(range(size))
        found = self._files.ask(_by_document, range(size), *starts, repeat(symbols), self._own)
        counts: Dict[int, int] = Counter()
        for before, part in zip(self._before, found):
            for document, count in part.items():
                counts[before + document] += count
        # the symbols before the first document belong to none
        counts.pop(-1, None)
        return dict(counts)
