"""The calls of the library vers_c, by ctypes.

Single calls keep Python's lock, so that no two threads are inside one handle. Calls of many queries, and those that
return a list, release it and ask through a handle of their own.
"""

import ctypes
import os
import threading
from typing import Any, Optional, Tuple

from ._buffers import CHUNK, MOST, Held
from ._codes import REFUSED
from ._faults import fault

_U32, _U64, _SIZE, _POINTER = ctypes.c_uint32, ctypes.c_uint64, ctypes.c_size_t, ctypes.c_void_p


class Handle(ctypes.Structure):
    """The handle of a list: all zeros for none."""

    _fields_ = [("is_built", ctypes.c_bool), ("at", ctypes.c_void_p)]


class Answer(ctypes.Structure):
    """A status, and a number if it is 0."""

    _fields_ = [("status", _U32), ("value", _U64)]


def _opened() -> Tuple[ctypes.PyDLL, ctypes.CDLL]:
    """Returns the library that VERS_LIBRARY names, or the one that pip has built into the package: with and without
    Python's lock."""
    package, named = os.path.dirname(os.path.abspath(__file__)), os.environ.get("VERS_LIBRARY")
    path = named or os.path.join(package, "libvers.so")
    try:
        return ctypes.PyDLL(path), ctypes.CDLL(path)
    except OSError as fault:
        if named or os.path.exists(path):
            raise ImportError(f"vers: the library doesn't load: {fault}", path=path) from None
    raise ImportError(f"vers: the library isn't built in {package}: `pip install` the package and run Python in another "
                      "folder, or set VERS_LIBRARY to the shared library", path=path)


_locked, _unlocked = _opened()
# a handle's address, which ctypes passes on faster than a pointer of its own
_AT = _POINTER


def _call(library: Any, name: str, result: Any, *arguments: Any) -> Any:
    function = getattr(library, name)
    function.restype, function.argtypes = result, arguments
    return function


ask = _call(_locked, "vers_ask", Answer, _AT, _U32, _U64, _U64, _U64)
value = _call(_locked, "vers_value", _U64, _AT, _U32, _U64)


def _by_ctypes(at: int, code: int, a: int, b: int = 0, c: int = 0) -> int:
    """Returns the number that a query of a handle finds, or its status below 0. Raises TypeError if an argument is no
    whole number of 64 bits."""
    for it in (a, b, c):
        if type(it) is not int or not 0 <= it <= MOST:
            raise TypeError("the argument is no whole number of 64 bits")
    # each argument makes a call slower, and an answer with fields does
    found: int = MOST if b or c else value(at, code, a)
    if found != MOST:
        return found
    answer = ask(at, code, a, b, c)
    found = -answer.status or answer.value
    return found


class _Method(ctypes.Structure):
    """A `PyMethodDef` of CPython, and after it the calls that the method uses."""

    _fields_ = [("name", ctypes.c_char_p), ("call", _POINTER), ("flags", ctypes.c_int), ("page", ctypes.c_char_p),
                ("calls", _POINTER * 4)]


def _by_objects() -> Any:
    """Returns a function of CPython's own that does what `_by_ctypes` does in a fraction of the time. None if the library
    has none, or this Python is another one."""
    try:
        python, begin, call = ctypes.pythonapi, _locked.vers_python_begin, _locked.vers_python_ask
    except AttributeError:
        return None
    calls = [python.PyLong_AsUnsignedLongLong, python.PyLong_FromUnsignedLongLong, python.PyLong_FromLongLong,
             python.PyErr_Occurred]
    addresses = [ctypes.cast(it, _POINTER).value for it in (call, *calls)]
    _METHOD.call, _METHOD.calls[:] = addresses[0], addresses[1:]
    begin.argtypes, begin.restype = [_POINTER], None
    begin(ctypes.addressof(_METHOD) + _Method.calls.offset)
    made = _call(python, "PyCFunction_NewEx", ctypes.py_object, _POINTER, _POINTER, _POINTER)
    return made(ctypes.addressof(_METHOD), None, None)


# it lives as long as the function; 0x80 is METH_FASTCALL
_METHOD = _Method(b"asked", None, 0x80, None)
asked = _by_objects() or _by_ctypes
ask_each = _call(_unlocked, "vers_ask_each", _U32, _AT, _U32, _POINTER, _SIZE, _U64, _U64, _U64)
ask_rows = _call(_unlocked, "vers_ask_rows", _U32, _AT, _U32, _POINTER, _SIZE, _U64)
change = _call(_locked, "vers_change", _U32, _AT, _U32, _U64, _U64)
clone = _call(_locked, "vers_clone", _U32, _AT, _AT)
intersect = _call(_unlocked, "vers_intersect", _U32, _AT, _AT, _AT)
combine = _call(_unlocked, "vers_combine", _U32, _AT, _AT, _U32, _AT)
saved_size = _call(_locked, "vers_saved_size", Answer, _AT)
save = _call(_locked, "vers_save", _U32, _AT, _POINTER, _SIZE)
load = _call(_unlocked, "vers_load", _U32, _U32, _POINTER, _SIZE, _AT)
count = _call(_locked, "vers_count", Answer, _AT, _POINTER, _SIZE)
count_each = _call(_unlocked, "vers_count_each", _U32, _AT, _POINTER, _SIZE, _POINTER, _SIZE)
places = _call(_unlocked, "vers_places", _U32, _AT, _POINTER, _SIZE, _AT)
first_places = _call(_unlocked, "vers_first_places", _U32, _AT, _POINTER, _SIZE, _SIZE, _AT)
extract = _call(_unlocked, "vers_extract", _U32, _AT, _SIZE, _SIZE, _AT)
documents = _call(_unlocked, "vers_documents", _U32, _AT, _U64, _AT)
joined = _call(_unlocked, "vers_joined", _U32, _AT, _U32, _POINTER, _SIZE, _AT)
free = _call(_locked, "vers_free", None, _AT)

growing_build = _call(_unlocked, "vers_growing_build", _U32, _POINTER, _SIZE, _SIZE, _AT)
bits_build = _call(_unlocked, "vers_bits_build", _U32, _POINTER, _SIZE, _SIZE, _AT)
tree_build = _call(_unlocked, "vers_tree_build", _U32, _POINTER, _SIZE, _SIZE, _AT)
sparse_build = _call(_unlocked, "vers_sparse_build", _U32, _POINTER, _SIZE, _U64, _AT)
sorted_build = _call(_unlocked, "vers_sorted_build", _U32, _POINTER, _SIZE, _AT)
# by the number of bytes of an item
symbols_builds = {size: _call(_unlocked, f"vers_symbols_build{name}", _U32, _POINTER, _SIZE, _U32, _AT)
                  for size, name in ((1, "_bytes"), (2, "_u16s"), (4, "_u32s"), (8, ""))}
fast_rmq_build = _call(_unlocked, "vers_fast_rmq_build", _U32, _POINTER, _SIZE, _AT)
binary_rmq_build = _call(_unlocked, "vers_binary_rmq_build", _U32, _POINTER, _SIZE, _AT)
postings_build = _call(_unlocked, "vers_postings_build", _U32, _POINTER, _SIZE, _POINTER, _SIZE, _AT)
inverted_build = _call(_unlocked, "vers_inverted_build", _U32, _U64, _U64, _POINTER, _SIZE, _POINTER, _SIZE, _AT)
text_builds = {size: _call(_unlocked, f"vers_text_build{name}", _U32, _POINTER, _SIZE, _U32, _SIZE, _AT)
               for size, name in ((1, "_bytes"), (2, "_u16s"), (8, ""))}


def done(status: int, why: Optional[str] = None) -> None:
    """Raises the fault of a status that isn't done. A refusal says why."""
    if status:
        raise fault(status, why if status == REFUSED else None)


def clone_of(owner: Any, at: int) -> int:
    """Makes an empty handle one more handle of an owner's list."""
    status: int = clone(owner._at, at)
    return status


def built(build: Any, arguments: Tuple[Any, ...], owner: Any) -> int:
    """Makes a list of arguments, of which numbers in memory count as two, in the handle of an owner.

    A long build runs in a thread of its own while the main thread waits, so that Ctrl-C ends the wait. That thread
    keeps the arguments and the owner as long as it runs.
    """
    plain = [part for it in arguments for part in (it[:2] if isinstance(it, Held) else [it])]
    is_long = any(isinstance(it, Held) and it.size > CHUNK for it in arguments)
    if not is_long or threading.current_thread() is not threading.main_thread():
        return int(build(*plain, owner._at))
    statuses = []

    def run(_: Any = (arguments, owner)) -> None:
        statuses.append(int(build(*plain, owner._at)))

    worker = threading.Thread(target=run, daemon=True)
    try:
        worker.start()
    except RuntimeError:
        # no thread can start, as at the interpreter's end
        run()
    while worker.is_alive():
        # it ends early now and then, since a signal that another thread gets doesn't wake this one
        worker.join(0.1)
    return statuses[0]
