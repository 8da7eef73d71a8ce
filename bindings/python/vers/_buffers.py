"""Numbers of a caller as arrays of 64 bits that the library reads or writes."""

import contextlib
import ctypes
import functools
import operator
import sys
from array import array
from itertools import accumulate, islice
from typing import Any, Container, Iterable, Iterator, NamedTuple, Optional, Sequence, Tuple

#: Anything that has whole numbers: a list, an array, a numpy array, another object with a buffer.
Numbers = Iterable[int]

MOST = (1 << 64) - 1
# how many items are converted at once, which bounds the memory at work; a multiple of 64
CHUNK = 1 << 16
_NOWHERE = ctypes.c_uint64(0)
# the formats of whole numbers without a sign and with one, and the arrays of unsigned ones by the bytes of an item
_UNSIGNED = {order + letter for order in ("", "<", "=", "@") for letter in "BHILQN"}
_SIGNED = {order + letter for order in ("", "=", "@") for letter in "lqn"}
_KINDS = {1: "B", 2: "H", 4: "I", 8: "Q"}
# the digits of the bits 0 and 1, and the bits of these digits, as tables of bytes
_DIGITS = b"01" + bytes(254)
_FLAGS = bytes(48) + b"\0\1" + bytes(206)
# what a bit may be that is a character: a digit or a parenthesis
_CHARACTERS = "01()"


class Held(NamedTuple):
    """Numbers in memory: their address, how many, and the object that keeps them there."""

    address: int
    size: int
    keeper: Any


def number(value: Any, what: str = "the number") -> int:
    """Returns a number that fits into 64 bits."""
    whole = whole_number(value, what)
    if 0 <= whole <= MOST:
        return whole
    raise OverflowError(f"{what} is {whole}, and numbers are from 0 to 2**64 - 1")


def signed_number(value: Any, what: str = "the number") -> int:
    """Returns a number that fits into 64 bits with a sign."""
    whole = whole_number(value, what)
    if -(1 << 63) <= whole < 1 << 63:
        return whole
    raise OverflowError(f"{what} is {whole}, and signed numbers are from -2**63 to 2**63 - 1")


def bit(value: Any, what: str = "the bit") -> int:
    """Returns a bit: a truth value, or the number 0 or 1."""
    numpy = sys.modules.get("numpy")
    is_truth = numpy is not None and isinstance(value, numpy.bool_)
    whole = int(value) if is_truth else whole_number(value, what)
    if whole in (0, 1):
        return whole
    hint = next((f"; pass {it!r} in a text, not in bytes" for it in _CHARACTERS if ord(it) == whole), "")
    raise ValueError(f"{what} is {whole}, and bits are 0 or 1{hint}")


def whole_number(value: Any, what: str) -> int:
    """Returns an integer."""
    try:
        return operator.index(value)
    except TypeError:
        raise TypeError(f"{what} is of type {type(value).__name__}, and not a whole number") from None


def item_size(numbers: Any) -> Optional[int]:
    """Returns the bytes of an item of a buffer. None if the numbers are no buffer."""
    try:
        return memoryview(numbers).itemsize
    except (TypeError, ValueError):
        return None


def equal_number(item: Any) -> Optional[int]:
    """Returns the number from 0 to 2**64 - 1 that equals an item. None if there is none."""
    try:
        whole = int(item)
        return whole if whole == item and 0 <= whole <= MOST else None
    except (TypeError, ValueError, OverflowError):
        return None


def counted(count: int, items: str) -> str:
    """Returns a count of items, whose name is singular if there is one."""
    one = {"parentheses": "parenthesis"}.get(items, items[:-1])
    return f"{count} {one if count == 1 else items}"


def is_many(value: Any) -> bool:
    """Returns whether an argument is an array of numbers instead of one number."""
    try:
        iter(value)
    except TypeError:
        return False
    return not isinstance(value, str)


def _numpy_of(numbers: Any) -> Any:
    """Returns the module numpy if the numbers are one of its arrays, else None."""
    numpy = sys.modules.get("numpy")
    return numpy if numpy is not None and isinstance(numbers, numpy.ndarray) else None


def plain(numbers: Any) -> Any:
    """Returns the numpy array of an object with `__array__` that is no sequence, such as a Series of pandas; other
    numbers as they are, also the lists of this package."""
    numpy = sys.modules.get("numpy")
    if numpy is None or not hasattr(numbers, "__array__") or isinstance(numbers, (numpy.ndarray, Sequence)):
        return numbers
    return numpy.asarray(numbers)


def copied(numbers: Any, what: str = "number", sizes: Container[int] = (8,)) -> Any:
    """Returns the numbers in an array of their own: a numpy array of the same shape for one, or for an object that
    has one, otherwise an array. Its items have as many bytes as those of the caller's buffer if `sizes` has that
    number, and otherwise 8."""
    numbers = plain(numbers)
    numpy = _numpy_of(numbers)
    if numpy is not None:
        checked = _checked(numpy, numbers, what)
        size = checked.dtype.itemsize if checked.dtype.kind == "u" and checked.dtype.itemsize in sizes else 8
        return numpy.array(checked, dtype=f"u{size}", order="C")
    if isinstance(numbers, str):
        hint = "; encode it: b'..'" if what == "symbol" else ""
        raise TypeError(f"a text is not a list of numbers: the {what} at position 0 is of type str{hint}")
    try:
        view = memoryview(numbers)
        view[:1].tolist()
    except (TypeError, NotImplementedError):
        return _gathered(numbers, what)
    if view.itemsize in sizes and view.c_contiguous:
        if view.format in _UNSIGNED:
            return array_of(_KINDS[view.itemsize], view.cast("B"))
        if view.itemsize == 8 and view.format in _SIGNED and _has_no_sign(view.cast("B")):
            return array_of("Q", view.cast("B"))
    return _gathered(view, what)


def _has_no_sign(numbers: memoryview) -> bool:
    """Returns whether none of some signed numbers of 64 bits is negative, by the bytes that have their signs."""
    signs = numbers[7 if sys.byteorder == "little" else 0::8].tobytes()
    return not signs.translate(None, bytes(range(128)))


def _gathered(numbers: Any, what: str) -> Any:
    """Returns the numbers of an iterable in an array('Q'): of a list at once, of others some at a time."""
    if isinstance(numbers, list):
        with contextlib.suppress(TypeError, OverflowError):
            return array("Q", numbers)
    made = array("Q")
    for chunk in _chunks(numbers, what):
        try:
            made.fromlist(chunk)
        except (TypeError, OverflowError):
            start = len(made)
            made.fromlist([number(it, _entry(what, start + k)) for k, it in enumerate(chunk)])
    return made


def _entry(what: str, position: int) -> str:
    """Names one of some numbers by its position in their array, for a message."""
    return f"the {'number' if what == 'position' else what} at position {position}"


def _chunks(items: Any, what: str) -> Iterator[Any]:
    """Returns the items of an iterable as lists of `CHUNK`, the last one of fewer."""
    try:
        remaining = iter(items)
    except TypeError:
        raise TypeError(f"the {what}s are of type {type(items).__name__}, which is not iterable") from None
    while True:
        chunk = list(islice(remaining, CHUNK))
        if not chunk:
            return
        yield chunk


def _checked(numpy: Any, numbers: Any, what: str) -> Any:
    """Returns a numpy array of integers without a mask. Raises the fault of the first number that is none. Without
    items, an array of any type is one of integers."""
    mask = numpy.ma.getmask(numbers)
    if mask is not numpy.ma.nomask and mask.any():
        raise TypeError(f"{_entry(what, first(mask))} is masked")
    numbers = numpy.asarray(numbers)
    if numbers.dtype.kind == "O":
        return numpy.array(_gathered(numbers.ravel().tolist(), what), dtype=numpy.uint64).reshape(numbers.shape)
    if numbers.dtype.kind not in "iub":
        if numbers.size:
            raise TypeError(f"an array of {numbers.dtype} has no whole numbers")
        return numpy.zeros(numbers.shape, numpy.uint64)
    if numbers.dtype.kind == "i" and numbers.size and numbers.min() < 0:
        position = first(numbers < 0)
        number(numbers.flat[position], _entry(what, position))
    return numbers


def first(mask: Any) -> int:
    """Returns the first position of a true item in a numpy array."""
    return int(mask.reshape(-1).argmax())


def array_of(kind: str, content: Any) -> Any:
    """Returns an array of a kind, of the bytes of its items."""
    made = array(kind)
    made.frombytes(content)
    return made


def numbers_from(start: int, end: int) -> Any:
    """Returns the numbers from one up to another, in an array('Q'), without an object for each."""
    made = array("Q")
    while start < end:
        first = start & 0xFFFF
        count = min(end - start, 0x10000 - first)
        part = bytearray(_low_bytes()[8 * first:8 * (first + count)])
        for k, byte in enumerate((start >> 16).to_bytes(6, "little"), 2):
            part[k::8] = bytes([byte]) * count
        made.frombytes(part)
        start += count
    if sys.byteorder != "little":
        made.byteswap()
    return made


@functools.lru_cache(maxsize=None)
def _low_bytes() -> bytes:
    """Returns the numbers below 2**16, each in 8 bytes, the lowest first."""
    numbers = array("Q", range(0x10000))
    if sys.byteorder != "little":
        numbers.byteswap()
    return numbers.tobytes()


def narrowed(numbers: Any, bits: int) -> Any:
    """Returns the numbers of an array('Q') that have some bits, in an array of the narrowest kind that has these."""
    size = next(it for it in _KINDS if 8 * it >= bits)
    parts = memoryview(numbers).cast("B").cast(_KINDS[size])
    # the part with the low bits is the first one of each number, or the last one
    step = 8 // size
    return array_of(_KINDS[size], parts[0 if sys.byteorder == "little" else step - 1::step].tobytes())


def address_of(made: Any) -> int:
    """Returns the address of the numbers of an array of `copied`, and some address for those of an empty one."""
    at = made.ctypes.data if _numpy_of(made) is not None else made.buffer_info()[0]
    return int(at) or ctypes.addressof(_NOWHERE)


def held(numbers: Any, what: str = "number", sizes: Container[int] = (8,)) -> Held:
    """Returns the numbers in an array of their own, so that no other thread writes them while the library reads. The
    array is that of `copied`. Raises ValueError for an array of several dimensions."""
    _refuse_dimensions(numbers, what)
    return _held(copied(numbers, what, sizes))


def pattern(symbols: Any) -> Held:
    """Returns the symbols of a pattern, as `held`."""
    _refuse_dimensions(symbols, "symbol", "; use count_each for rows")
    return held(symbols, "symbol")


def _refuse_dimensions(numbers: Any, what: str, hint: str = "") -> None:
    """Raises ValueError for an array or a buffer of several dimensions."""
    dimensions = getattr(numbers, "ndim", 1)
    if isinstance(dimensions, int) and dimensions > 1:
        raise ValueError(f"the {what}s have {dimensions} dimensions, and a list has one{hint}")


def joined(patterns: Any) -> Tuple[Held, Held]:
    """Returns the symbols of some patterns, one pattern after another, and the end of each with a sign: as numpy
    arrays for the rows of one."""
    patterns = plain(patterns)
    if not is_many(patterns) and not isinstance(patterns, str):
        raise TypeError(f"the patterns are of type {type(patterns).__name__}, which is not iterable")
    numpy = _numpy_of(patterns)
    if numpy is not None and patterns.ndim == 2:
        rows, length = patterns.shape
        ends = numpy.arange(1, rows + 1, dtype=numpy.int64) * length
        return _held(copied(patterns, "symbol")), _held(ends)
    if numpy is not None and patterns.size and patterns.dtype.kind not in "OSU":
        raise ValueError(f"the patterns have the shape {patterns.shape}, and rows of symbols have two dimensions")
    if isinstance(patterns, (list, tuple)) and all(type(it) is bytes for it in patterns):
        return _held(array("Q", list(b"".join(patterns)))), _held(array("q", accumulate(map(len, patterns))))
    numbers, ends = array("Q"), array("q")
    for k, it in enumerate(patterns):
        if not is_many(it) and not isinstance(it, str):
            raise TypeError(f"the pattern at position {k} is of type {type(it).__name__}, and not a list of symbols")
        numbers.frombytes(pattern(it).keeper.tobytes())
        ends.append(len(numbers))
    return _held(numbers), _held(ends)


def _held(made: Any) -> Held:
    return Held(address_of(made), len(made) if _numpy_of(made) is None else int(made.size), made)


def bits_of(bits: Any, digits: str = "01") -> Tuple[Held, int]:
    """Returns bits as words of 64 bits, the first as the lowest bit, and how many they are.

    A text is read by its characters: of each pair of `digits`, the first one is 0 and the second one is 1.
    """
    _refuse_dimensions(bits, "bit")
    bits = bits if isinstance(bits, str) else plain(bits)
    numpy = _numpy_of(bits)
    words, count = array("Q"), 0
    for flags in _flags_of_text(bits, digits) if isinstance(bits, str) else _flags(bits):
        packed = _packed(flags) if numpy is None else numpy.packbits(flags, bitorder="little").tobytes()
        words.frombytes(packed + bytes(-len(packed) % 8))
        count += len(flags)
    if sys.byteorder != "little":
        words.byteswap()
    return _held(words), count


def _packed(flags: bytes) -> bytes:
    """Returns bits, each a byte that is 0 or 1, as bytes of eight, the first as the lowest bit."""
    return int(flags[::-1].translate(_DIGITS), 2).to_bytes((len(flags) + 7) // 8, "little")


def flags_of(words: Any, count: int) -> Any:
    """Returns the first bits of words in an array of bytes that are 0 or 1."""
    if sys.byteorder != "little":
        words.byteswap()
    digits = f"{int.from_bytes(words.tobytes(), 'little'):0{count + 1}b}"
    return array_of("B", digits[:-count - 1:-1].encode().translate(_FLAGS))


def _flags(bits: Any) -> Iterator[Any]:
    """Returns the bits of an iterable, each a byte that is 0 or 1; of a numpy array, in such arrays."""
    numpy = _numpy_of(bits)
    if numpy is not None:
        yield from _flags_of_array(numpy, bits)
        return
    start = 0
    for chunk in _pieces(bits):
        flags = _bytes_of(chunk)
        if flags is None or flags.translate(None, b"\0\1"):
            flags = bytes(bit(it, f"the bit at position {start + k}") for k, it in enumerate(chunk))
        yield flags
        start += len(chunk)


def _pieces(bits: Any) -> Iterator[Any]:
    """Returns the items of an iterable by `CHUNK`: parts of a buffer of bytes, otherwise lists."""
    try:
        view = memoryview(bits)
    except TypeError:
        return _chunks(bits, "bit")
    if view.ndim != 1 or view.format[-1:] not in ("b", "B", "?"):
        return _chunks(bits, "bit")
    return (view[start:start + CHUNK] for start in range(0, len(view), CHUNK))


def _flags_of_array(numpy: Any, bits: Any) -> Iterator[Any]:
    """Returns the bits of a numpy array, in arrays of bytes that are 0 or 1."""
    flat = _checked(numpy, bits, "bit").reshape(-1)
    for start in range(0, flat.size, CHUNK):
        chunk = flat[start:start + CHUNK]
        if chunk.max() > 1:
            position = first(chunk > 1)
            bit(chunk[position], f"the bit at position {start + position}")
        yield chunk.astype(numpy.uint8)


def _bytes_of(chunk: Any) -> Optional[bytes]:
    """Returns numbers as bytes. None if one of them isn't an integer of 8 bits."""
    try:
        return bytes(chunk)
    except (TypeError, ValueError, DeprecationWarning):
        return None


def _flags_of_text(text: str, digits: str) -> Iterator[bytes]:
    """Returns the bits of a text, as bytes that are 0 or 1."""
    known = digits.encode()
    values = bytes.maketrans(known, b"\0\1" * (len(known) // 2))
    for start in range(0, len(text), CHUNK):
        # a character outside ASCII becomes a question mark
        chunk = text[start:start + CHUNK].encode("ascii", "replace")
        wrong = chunk.translate(None, known)
        if wrong:
            position, shown = start + chunk.index(wrong[:1]), " or ".join(digits)
            raise ValueError(f"the character at position {position} is {text[position]!r}, and bits are {shown}")
        yield chunk.translate(values)


def above(what: str, numbers: Held, most: int) -> str:
    """Says which of some numbers is above a bound, or nothing if none is."""
    said = _first_above(what, numbers, most)
    return said and f"{said}, and above {most}"


def not_below(what: str, numbers: Held, limit: int) -> str:
    """Says which of some numbers isn't below a limit, or nothing if all are."""
    said = _first_above(what, numbers, limit - 1)
    return said and f"{said}, and not below {limit}"


def _first_above(what: str, numbers: Held, most: int) -> str:
    """Says which is the first of some numbers that is above a bound, or nothing if none is."""
    made = numbers.keeper
    if numbers.size == 0 or int(made.max() if _numpy_of(made) is not None else max(made)) <= most:
        return ""
    position = first(made > most) if _numpy_of(made) is not None else next(k for k, it in enumerate(made) if it > most)
    return f"{_entry(what, position)} is {_flat(made)[position]}"


def descent(what: str, numbers: Held, is_strict: bool) -> str:
    """Says at which position numbers don't ascend, or nothing if they do."""
    flat = _flat(numbers.keeper)
    for position in range(1, numbers.size):
        before, after = int(flat[position - 1]), int(flat[position])
        if after < before:
            return f"the {what}s descend at position {position}: {after} after {before}"
        if is_strict and after == before:
            return f"the {what}s do not ascend strictly at position {position}: {after} twice"
    return ""


def descent_of_pairs(terms: Held, documents: Held) -> str:
    """Says at which position pairs don't ascend strictly, or nothing if they do."""
    before: Optional[Tuple[int, int]] = None
    for position, (term, document) in enumerate(zip(_flat(terms.keeper), _flat(documents.keeper))):
        pair = int(term), int(document)
        if before is not None and pair <= before:
            return (f"the pair at position {position} is {pair}, after {before}: sort by term, then document, without "
                    "repeats")
        before = pair
    return ""


def _flat(made: Any) -> Any:
    """Returns the numbers of an array, one after another."""
    return made if _numpy_of(made) is None else made.reshape(-1)


class Columns(NamedTuple):
    """The arguments of many queries: each is a number for all, or an array of as many as there are queries."""

    columns: Sequence[Any]
    size: int
    # the shape of the answers if they are a numpy array
    shape: Optional[Tuple[int, ...]]


def columns_of(arguments: Sequence[Any], names: Sequence[str]) -> Columns:
    """Returns the arguments of many queries. Those of numpy are broadcast."""
    columns = [copied(it, name) if is_many(it) else number(it, f"the {name}") for it, name in zip(arguments, names)]
    arrays = [it for it in columns if not isinstance(it, int)]
    numpy = next((found for found in map(_numpy_of, arrays) if found is not None), None)
    if numpy is None:
        sizes = {len(it) for it in arrays}
        if len(sizes) > 1:
            raise ValueError(f"the arrays differ in length: {' and '.join(map(str, sorted(sizes)))}")
        return Columns(columns, sizes.pop(), None)
    shape = numpy.broadcast(*map(numpy.asarray, arrays)).shape
    flat = [it if isinstance(it, int) else numpy.ascontiguousarray(numpy.broadcast_to(it, shape)).reshape(-1)
            for it in columns]
    return Columns(flat, next(it.size for it in flat if not isinstance(it, int)), shape)


def rows_of(columns: Columns) -> Any:
    """Returns the numbers of queries, three in a row."""
    rows = array("Q", bytes(24 * columns.size))
    for position, column in enumerate(columns.columns):
        same = isinstance(column, int)
        rows[position::3] = array("Q", [column]) * columns.size if same else array_of("Q", column.tobytes())
    return rows


def like(answers: Any, columns: Columns) -> Any:
    """Answers in an array('Q') as an array of the kind that the queries came in."""
    if columns.shape is None:
        return answers
    numpy: Any = sys.modules["numpy"]
    return numpy.frombuffer(answers, dtype=numpy.uint64)


def stepped(columns: Columns, step: int) -> Columns:
    """Returns a column of the next numbers, at most 2**64 - 1, or of those before, which of 0 is 2**64 - 1."""
    made = columns.columns[0]
    numpy = _numpy_of(made)
    if numpy is None:
        made = array("Q", [min(it + 1, MOST) if step > 0 else (it - 1) % (1 << 64) for it in made])
    else:
        made = made + (made < MOST).astype(numpy.uint64) if step > 0 else made - numpy.uint64(1)
    return columns._replace(columns=[made])


def positions_of(answers: Any, value: int) -> Any:
    """Returns the positions of a number in an array."""
    numpy = _numpy_of(answers)
    if numpy is not None:
        return numpy.flatnonzero(answers == numpy.uint64(value))
    return [k for k, it in enumerate(answers) if it == value] if answers.count(value) else []


def put(answers: Any, positions: Any, value: Any) -> None:
    """Writes a value over an array or a list at some positions."""
    if _numpy_of(answers) is not None:
        answers[positions] = value
        return
    for position in positions:
        answers[position] = value


def taken(columns: Columns, positions: Any) -> Columns:
    """Returns the queries at some positions."""
    def part(column: Any) -> Any:
        if isinstance(column, int):
            return column
        return column[positions] if _numpy_of(column) is not None else array("Q", [column[k] for k in positions])
    return Columns([part(it) for it in columns.columns], len(positions), (len(positions),) if columns.shape else None)
