"""The queries behind methods, which take a number or an array, and which `each` finds by name."""

from __future__ import annotations

import sys
from typing import Any, Callable, NamedTuple, Optional, Protocol, Tuple, TypeVar, overload

from . import _buffers
from ._buffers import Numbers

R_co = TypeVar("R_co", covariant=True)
T = TypeVar("T")

# the code of a query that is put together from others
COMBINED = -1


class Query(NamedTuple):
    """A query: its code, its arguments by name, and the kind of its answers."""

    code: int
    names: Tuple[str, ...]
    # whether an answer is a truth, a number with a sign (a count or a position), or may be None; `is_signed` is None if
    # the answers are items, which are signed in lists whose items are all below 2**63
    is_truth: bool
    is_signed: Optional[bool]
    is_optional: bool
    # the number that the library writes if there is no answer
    absent: int


class Answers(list):  # type: ignore[type-arg]
    """Answers that are truths, or of which one may be None."""

    def tolist(self) -> Any:
        """Returns a plain list of them, as an array answers too."""
        return list(self)


class _One(Protocol[R_co]):
    @overload
    def __call__(self, __a: int) -> R_co: ...
    @overload
    def __call__(self, __a: Numbers) -> Any: ...


class _Two(Protocol[R_co]):
    @overload
    def __call__(self, __a: int, __b: int) -> R_co: ...
    @overload
    def __call__(self, __a: Numbers, __b: int) -> Any: ...
    @overload
    def __call__(self, __a: int, __b: Numbers) -> Any: ...
    @overload
    def __call__(self, __a: Numbers, __b: Numbers) -> Any: ...


class _Three(Protocol[R_co]):
    @overload
    def __call__(self, __a: int, __b: int, __c: int) -> R_co: ...
    @overload
    def __call__(self, __a: Numbers, __b: Any, __c: Any) -> Any: ...
    @overload
    def __call__(self, __a: int, __b: Numbers, __c: Any) -> Any: ...
    @overload
    def __call__(self, __a: int, __b: int, __c: Numbers) -> Any: ...


class _OneMethod(Protocol[R_co]):
    def __get__(self, __owner: Any, __type: Any = None) -> _One[R_co]: ...


class _TwoMethod(Protocol[R_co]):
    def __get__(self, __owner: Any, __type: Any = None) -> _Two[R_co]: ...


class _ThreeMethod(Protocol[R_co]):
    def __get__(self, __owner: Any, __type: Any = None) -> _Three[R_co]: ...


class _Decorator(Protocol):
    @overload
    def __call__(self, __method: Callable[[Any, int], T]) -> _OneMethod[T]: ...
    @overload
    def __call__(self, __method: Callable[[Any, int, int], T]) -> _TwoMethod[T]: ...
    @overload
    def __call__(self, __method: Callable[[Any, int, int, int], T]) -> _ThreeMethod[T]: ...


def query(code: int, is_signed: Optional[bool] = False, absent: int = _buffers.MOST) -> _Decorator:
    """Names a method as the query of a code, which takes numbers or arrays of them. The method's annotation says of
    what kind its answers are."""
    def named(method: Any) -> Any:
        names = method.__code__.co_varnames[1:method.__code__.co_argcount]
        answer = method.__annotations__["return"]
        method.query = Query(code, names, "bool" in answer, is_signed, "Optional" in answer, absent)
        return method
    decorator: Any = named
    return decorator  # type: ignore[no-any-return]


def many(method: Callable[[Any, int], T]) -> _OneMethod[T]:
    """Types a method that takes a number or an array, and is put together from queries."""
    typed: Any = method
    return typed  # type: ignore[no-any-return]


def finished(answers: Any, asked: Query, shape: Optional[Tuple[int, ...]], absent: Any, other: Optional[int]) -> Any:
    """Returns the answers of the query's kind, and of a shape if they are a numpy array. Those at the positions
    `absent` are None, masked in a numpy array, or the number `other` if that isn't None."""
    if other is not None:
        fits = _buffers.signed_number if asked.is_signed else _buffers.number
        _buffers.put(answers, absent, fits(other, "other") % (1 << 64))
    if shape is not None:
        return _finished_array(answers, asked, absent, other is None).reshape(shape)
    if asked.is_signed:
        answers = _buffers.array_of("q", answers.tobytes())
    if other is not None or not (asked.is_truth or asked.is_optional):
        return answers
    found = Answers(it == 1 for it in answers) if asked.is_truth else Answers(answers)
    _buffers.put(found, absent, None)
    return found


def _finished_array(answers: Any, asked: Query, absent: Any, masks: bool) -> Any:
    """Does the same for a numpy array of one dimension. Answers that are absent are masked, if it `masks`."""
    numpy: Any = sys.modules["numpy"]
    if asked.is_signed:
        answers = answers.view(numpy.int64)
    elif asked.is_truth and masks:
        answers = answers == 1
    if not (asked.is_optional and masks):
        return answers
    mask = numpy.zeros(answers.shape, bool)
    mask[absent] = True
    return numpy.ma.array(answers, mask=mask)
