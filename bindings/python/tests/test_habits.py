"""What Python programmers expect of the classes: refusals by position, arrays as arguments, equality, threads."""

import collections.abc
import copy
import ctypes
import errno
import gzip
import os
import pathlib
import pickle
import pydoc
import random
import re
import shutil
import signal
import stat
import subprocess
import sys
import tempfile
import threading
import time
import tracemalloc
import typing
import unittest
from array import array
from concurrent.futures import ThreadPoolExecutor
from unittest import mock

import vers
from vers import _bases, _buffers, _codes, _library, parts

try:
    import numpy
except ImportError:
    numpy = None

BIT_MAKERS = (vers.BitVec, vers.RsVec, vers.BpTree, lambda bits: vers.BitVec().extend(bits))
NUMBER_MAKERS = (
    vers.EliasFanoVec, vers.FastRmq, vers.BinaryRmq, lambda it: vers.SparseRSVec(it, 99),
    lambda it: vers.WaveletMatrix(it, 64), lambda it: vers.Postings(it, it),
    lambda it: vers.TextIndex(it, 16), vers.RsVec.from_words,
)
LISTS = (
    vers.BitVec, vers.RsVec, vers.SparseRSVec, vers.EliasFanoVec, vers.WaveletMatrix, vers.FastRmq, vers.BinaryRmq,
    vers.BpTree, vers.Postings, vers.PlainNumbers, vers.InvertedIndex,
)


def some_lists():
    """A list of each class, anew."""
    postings = vers.Postings([1, 4, 9], [3, 1, 2])
    return [
        vers.BitVec([1, 0] * 50), vers.RsVec([1, 0] * 50), vers.SparseRSVec([1], 3), vers.EliasFanoVec([1, 1, 9]),
        vers.WaveletMatrix([1, 0, 5], 3), vers.FastRmq([4, 2]), vers.BinaryRmq([4, 2]), vers.BpTree("(()())"), postings,
        postings.intersect(postings), vers.InvertedIndex([0, 0, 2], [3, 7, 3]), vers.TextIndex(b"abracadabra", 8),
    ]


class Column:
    """What a library of tables has: an object with an array, over whose items it iterates."""

    def __init__(self, items):
        self._items = numpy.array(items)

    def __array__(self, dtype=None, copy=None):
        return numpy.asarray(self._items, dtype)

    def __iter__(self):
        return iter(self._items)

    def __len__(self):
        return len(self._items)


class Makers(unittest.TestCase):
    def refuses(self, makers, fault, text, *arguments):
        """Each maker raises the same fault for each argument, or for what an argument returns if it is a function."""
        for make in makers:
            for argument in arguments:
                with self.subTest(make=make, argument=repr(argument)[:80]), self.assertRaisesRegex(fault, text):
                    make(argument() if callable(argument) else argument)

    def test_texts_of_bits(self):
        self.assertEqual((vers.RsVec("0110").rank1(4), vers.BitVec("0110").tolist()), (2, [0, 1, 1, 0]))
        self.assertEqual(vers.BpTree("1100"), vers.BpTree("(())"))
        long = "01" * 50_000
        self.assertEqual(vers.RsVec(long).tolist(), [0, 1] * 50_000)
        self.refuses(BIT_MAKERS, ValueError, "^the character at position 3 is 'x', and bits are 0 or 1", "011x")
        self.refuses(BIT_MAKERS, ValueError, "^the character at position 100000 is 'x'", long + "x")
        self.refuses(BIT_MAKERS, ValueError, "^the character at position 1 is '\u0661'", "0\u0661x")
        self.refuses(BIT_MAKERS, ValueError, r"^the character at position 1 is '\\ud800'", "0\ud800")

    def test_bytes_of_bits(self):
        content = bytes([0, 1, 1, 0])
        for bits in (content, bytearray(content), memoryview(content), array("b", content), [False, True, 1, 0]):
            self.assertEqual(vers.RsVec(bits).tolist(), [0, 1, 1, 0])
        hint = "; pass '[0(]' in a text, not in bytes$"
        self.refuses(BIT_MAKERS, ValueError, f"^the bit at position 0 is 48, .*{hint}", b"0110", array("B", b"0"))
        self.refuses(BIT_MAKERS, ValueError, f"^the bit at position 0 is 40, and bits are 0 or 1{hint}", b"(())")

    def test_bits_in_buffers(self):
        draw = random.Random(2)
        for size in (0, 1, 9, _buffers.CHUNK, _buffers.CHUNK + 70):
            items = [draw.randrange(2) for _ in range(size)]
            content, wide = bytes(items), bytes(it for pair in zip(items, [7] * size) for it in pair)
            for bits in (content, bytearray(content), memoryview(content).cast("?"), memoryview(wide)[::2],
                         memoryview(content[::-1])[::-1], array("b", content), (ctypes.c_uint8 * size)(*items)):
                self.assertEqual(vers.RsVec(bits), vers.RsVec(items))
        self.refuses(BIT_MAKERS, ValueError, "^the bit at position 65537 is -1", array("b", [0] * 65537 + [-1]))
        self.refuses(BIT_MAKERS, TypeError, "^the bit at position 0 is of type bytes", memoryview(b"\1").cast("c"))

    def test_bits_of_lists_of_bits(self):
        draw = random.Random(4)
        for size in (0, 1, 64, 70, _buffers.CHUNK + 70):
            items = [draw.randrange(2) for _ in range(size)]
            made, grown = (vers.RsVec(items), vers.BitVec(items)), vers.BitVec([1])
            with mock.patch.object(_buffers, "bits_of", side_effect=AssertionError("an item is read")):
                for bits in made:
                    self.assertEqual((vers.RsVec(bits), vers.BitVec(bits)), made)
                    self.assertEqual(vers.BpTree(bits).tolist(), items)
                grown.extend(made[0])
                grown.extend(grown)
            self.assertEqual(grown.tolist(), ([1] + items) * 2)

    def test_bits_by_position(self):
        many = [0, 1] * 50_000
        self.refuses(BIT_MAKERS, ValueError, "^the bit at position 100000 is 2", many + [2], lambda: iter(many + [2]))
        self.refuses(BIT_MAKERS, ValueError, "^the bit at position 1 is -1", [0, -1], array("q", [0, -1]))
        self.refuses(BIT_MAKERS, TypeError, "^the bit at position 1 is of type NoneType", [0, None])
        self.refuses(BIT_MAKERS, TypeError, "^the bit at position 1 is of type float", [0, 1.0])
        self.refuses(BIT_MAKERS, TypeError, "^the bit at position 0 is of type str", ["1"])
        self.refuses(BIT_MAKERS, TypeError, "^the bits are of type (int|NoneType), which is not iterable$", 5, None)
        bits = vers.BitVec([1, 0])
        for change in (lambda: bits.append("0"), lambda: bits.append(0.0), lambda: bits.__setitem__(0, None)):
            with self.assertRaises(TypeError):
                change()
        with self.assertRaisesRegex(TypeError, "^'BitVec' object doesn't support the assignment of slices$"):
            bits[0:1] = [1]
        with self.assertRaisesRegex(ValueError, "^the bit is 2"):
            bits[0] = 2
        for part in 0, slice(1):
            with self.assertRaisesRegex(TypeError, "^'BitVec' object doesn't support item deletion; `drop_last` drops"):
                del bits[part]
        self.assertEqual(bits.tolist(), [1, 0])

    def test_numbers_by_position(self):
        large, low = [0, 1 << 64], array("q", [0, -1])
        self.refuses(NUMBER_MAKERS, OverflowError, " at position 1 is -1, and numbers are from 0", [0, -1], low)
        self.refuses(NUMBER_MAKERS, OverflowError, f" at position 1 is {large[1]}", large, lambda: iter(large))
        self.refuses(NUMBER_MAKERS, OverflowError, " at position 70000 is -1", [0] * 70_000 + [-1])
        self.refuses(NUMBER_MAKERS, TypeError, " at position 1 is of type NoneType", [0, None])
        self.refuses(NUMBER_MAKERS, TypeError, " at position 1 is of type float", [0, 1.0])
        self.refuses(NUMBER_MAKERS, TypeError, " at position 0 is of type float", array("d", [0, 1]))
        self.refuses(NUMBER_MAKERS, TypeError, " at position 0 is of type str", "0110", ["0"])
        kind = "^the [a-z]+s are of type (int|NoneType), which is not iterable$"
        self.refuses(NUMBER_MAKERS, TypeError, kind, 5, None)

    @unittest.skipIf(numpy is None, "numpy isn't there")
    def test_arrays_by_position(self):
        masked = numpy.ma.array([0, 1, 1], mask=[False, False, True])
        self.refuses(BIT_MAKERS + NUMBER_MAKERS, TypeError, " at position 2 is masked", masked)
        self.assertEqual(vers.RsVec(numpy.ma.array([0, 1])).tolist(), [0, 1])
        twos = numpy.array([0, 2]), numpy.array([1, 2], numpy.uint8)
        self.refuses(BIT_MAKERS, ValueError, "^the bit at position 1 is 2", *twos)
        self.refuses(BIT_MAKERS + NUMBER_MAKERS, OverflowError, " at position 1 is -1", numpy.array([0, -1]))
        kind = "^an array of float64 has no whole numbers$"
        self.refuses(BIT_MAKERS + NUMBER_MAKERS, TypeError, kind, numpy.array([0, 1.0]))
        self.refuses(NUMBER_MAKERS, TypeError, " at position 1 is of type NoneType", numpy.array([0, None]))
        self.assertEqual(vers.RsVec([numpy.bool_(True), numpy.uint8(0)]).tolist(), [1, 0])

    @unittest.skipIf(numpy is None, "numpy isn't there")
    def test_empty_arrays(self):
        for kind in (float, object, "U1", "m8[s]", bool, "i1"):
            for make in BIT_MAKERS[:3] + NUMBER_MAKERS:
                self.assertEqual(make(numpy.array([], kind)), make([]))
            self.assertEqual(vers.RsVec("10").rank1(numpy.array([], kind)).dtype, numpy.int64)
            self.assertEqual(len(vers.TextIndex(b"ab", 8).count_each(numpy.array([], kind))), 0)

    @unittest.skipIf(numpy is None, "numpy isn't there")
    def test_objects_with_arrays(self):
        numbers, bits, nested = Column([2, 5, 9]), Column([True, False, True]), Column([b"ab", b"bra"])
        for make in NUMBER_MAKERS:
            self.assertEqual(make(numbers), make([2, 5, 9]))
        for make in BIT_MAKERS[:3]:
            self.assertEqual(make(bits), make([1, 0, 1]))
        places, found = Column([0, 3]), vers.RsVec("1011").successor1(Column([0, 3]))
        self.assertEqual((found.tolist(), type(found)), ([2, None], numpy.ma.MaskedArray))
        self.assertIsInstance(vers.RsVec("1011").rank1(places), numpy.ndarray)
        self.assertEqual(vers.WaveletMatrix([3, 1, 3], 2).rank(3, Column([1, 3])).tolist(), [1, 2])
        text = vers.TextIndex(Column(numpy.frombuffer(b"abracadabra", "u1")), 8)
        self.assertEqual((text.count(Column([97, 98])), text.count_each(nested).tolist()), (2, [2, 2]))
        self.refuses(NUMBER_MAKERS, TypeError, "^an array of float64 has no whole numbers$", Column([0.5]))
        self.refuses([vers.RsVec.from_words], TypeError, "^a word has 8 bytes", Column(numpy.zeros(8, "u1")))
        # a list of this package is a sequence, whose answers are those of a list
        self.assertIsInstance(vers.RsVec("1011").rank1(vers.EliasFanoVec([0, 3])), array)

    @unittest.skipIf(numpy is None, "numpy isn't there")
    def test_dimensions(self):
        rows = numpy.array([[1, 0], [0, 1]])
        self.refuses(BIT_MAKERS, ValueError, "^the bits have 2 dimensions, and a list has one$", rows)
        self.refuses(NUMBER_MAKERS, ValueError, "s have [23] dimensions, and a list has one$", rows, rows[numpy.newaxis])
        self.refuses((vers.FastRmq,), ValueError, "^the values have 2 dimensions", memoryview(rows))
        text = vers.TextIndex(b"abracadabra", 8)
        for ask in (text.count, text.places, lambda it: text.first_places(it, 3), text.__contains__):
            self.refuses((ask,), ValueError, "^the symbols have 2 dimensions, .*; use count_each for rows$", rows)
        self.refuses((text.count_each,), ValueError, r"^the patterns have the shape \(1, 2, 2\)", rows[numpy.newaxis])
        self.refuses((text.count_each,), ValueError, r"^the patterns have the shape \(4,\)", rows.reshape(-1))
        self.refuses((text.count_each,), ValueError, "^the symbols have 2 dimensions", [rows])
        self.assertEqual(text.count_each(numpy.array([b"ab", b"bra"])).tolist(), [2, 2])
        self.refuses((text.count_each,), TypeError, "encode it", numpy.array(["ab", "bra"]))
        for shape, counts in (((0, 3), []), ((2, 0), [12, 12])):
            self.assertEqual(text.count_each(numpy.zeros(shape, "u1")).tolist(), counts)

    def test_patterns_of_characters(self):
        text = vers.TextIndex(b"abracadabra", 8)
        encode = "^a text is not a list of numbers: the symbol at position 0 is of type str; encode it: b'..'$"
        self.refuses((text.count, text.places, text.__contains__), TypeError, encode, "abra")
        self.refuses((text.count_each, lambda it: vers.TextIndex(it[0], 8)), TypeError, encode, ["abra"])
        none = "^the symbols are of type int, which is not iterable$"
        self.refuses((text.count, text.places, text.__contains__), TypeError, none, 97)
        self.refuses((text.count_each,), TypeError, "^the patterns are of type int, which is not iterable$", 97)
        which = "^the pattern at position {} is of type int, and not a list of symbols$"
        self.refuses((text.count_each,), TypeError, which.format(0), b"abra")
        self.refuses((text.count_each,), TypeError, which.format(1), [b"abra", 97])
        self.assertEqual(vers.TextIndex(b"abracadabra"), text)

    def test_words(self):
        makers = [kind.from_words for kind in (vers.BitVec, vers.RsVec, vers.BpTree)]
        self.refuses([lambda it, make=make: make([5], it) for make in makers], vers.Refused,
                     "^the length is (65|1000), above the 64 bits of 1 word$", 65, 1000)
        narrow = [bytes(8), bytearray(8), array("I", [5])]
        if numpy is not None:
            narrow.append(numpy.packbits([1, 0, 1] * 8, bitorder="little"))
        size = r"^a word has 8 bytes, and the items of this buffer have [14]: pass a `.view\('u8'\)`.*bitorder='little'"
        self.refuses(makers, TypeError, size, *narrow)
        for make in makers:
            for words in ([5, 1], range(5, 7), array("Q", [5, 1]), array("q", [5, 1])):
                self.assertEqual((len(make(words)), make(words, 3).tolist()), (128, [1, 0, 1]))
            if numpy is not None:
                flags = numpy.array([1, 0, 1, 1] * 16)
                packed = numpy.packbits(flags, bitorder="little").view("u8")
                self.assertEqual(make(packed, 64).tolist(), flags.tolist())

    def test_reasons(self):
        reasons = {
            "^the numbers descend at position 3: 1 after 2$": lambda: vers.EliasFanoVec([1, 2, 2, 1]),
            "^the ones do not ascend strictly at position 1: 3 twice$": lambda: vers.SparseRSVec([3, 3], 10),
            "^the one at position 1 is 10, and not below 10$": lambda: vers.SparseRSVec([2, 10], 10),
            "^the one at position 0 is 0, and not below 0$": lambda: vers.SparseRSVec([0], 0),
            "^the term at position 1 is 4, and not below 3$": lambda: vers.InvertedIndex([0, 4], [1, 2], 3),
            "^the document at position 0 is 1, and not below 1$": lambda: vers.InvertedIndex([0], [1], universe=1),
            f"^the document at position 0 is {vers.NONE}, and not below {vers.NONE}$":
                lambda: vers.InvertedIndex([0], [vers.NONE]),
            "^the documents descend at position 1: 1 after 4$": lambda: vers.Postings([4, 1], [0, 0]),
            "^2 documents with 1 cost$": lambda: vers.Postings([1, 2], [0]),
            "^the symbol at position 1 is 4, and above 3$": lambda: vers.TextIndex([3, 4, 5], 2),
            "^the width is 17, and it is from 1 to 16$": lambda: vers.TextIndex([3], 17),
            "^the step is 0$": lambda: vers.TextIndex([3], 2, 0),
            "^the width is 65, and it is at most 64$": lambda: vers.WaveletMatrix([3], 65),
            "^the width is 0, and a symbol has at least 1 bit$": lambda: vers.WaveletMatrix([0, 0], 0),
            # the low 32 bits are those of a width that is taken
            f"^the width is {(1 << 32) + 8}, and it is at most 64$": lambda: vers.WaveletMatrix([3], (1 << 32) + 8),
            f"^the width is {(1 << 32) + 8}, and it is from 1 to 16$": lambda: vers.TextIndex([3], (1 << 32) + 8),
            "^the count is 65, and it is at most 64$": lambda: vers.BitVec().append_bits(0, 65),
            "^1 term with 2 documents$": lambda: vers.InvertedIndex([0], [1, 2]),
            "^position 1 is past the end of 1 parenthesis$": lambda: vers.BpTree("(").excess(1),
            "^0 to 2 is no range of 1 symbol$": lambda: vers.TextIndex([3], 2).extract(0, 2),
            "^5 to 12 is no range of 11 symbols$": lambda: vers.TextIndex(b"abracadabra", 8).extract(5, 12),
        }
        for reason, call in reasons.items():
            with self.assertRaisesRegex(vers.Refused, reason):
                call()

    def test_wide_symbols(self):
        wide = "^the symbol at position 1 is 9, and above 7, the greatest of 3 bits; `truncate` takes the low bits"
        for symbols in ([7, 9], array("B", [7, 9])) + ((numpy.array([7, 9]),) if numpy is not None else ()):
            with self.assertRaisesRegex(vers.Refused, wide):
                vers.WaveletMatrix(symbols, 3)
            self.assertEqual(vers.WaveletMatrix(symbols, 3, truncate=True).tolist(), [7, 1])
        self.assertEqual(vers.WaveletMatrix([vers.NONE], 64)[0], vers.NONE)

    def test_narrow_symbols(self):
        kinds = [lambda items, kind=kind: array(kind, items) for kind in "BHILQ"] + [list, lambda it: iter(list(it))]
        if numpy is not None:
            kinds += [lambda items, kind=kind: numpy.array(items, kind)
                      for kind in ("u1", "u2", "u4", "u8", "i2", ">u2", ">u4")]
            kinds.append(lambda items: numpy.array(items + items, "u2").reshape(2, -1)[0, ::1])
            kinds.append(lambda items: numpy.array([items, items], "u2").T[:, 1])
        items = [200, 7, 255, 7]
        for made in [bytes, bytearray, lambda it: memoryview(bytes(it)), *kinds]:
            self.assertEqual(vers.WaveletMatrix(made(items), 8)[:4].tolist(), items)
            text = vers.TextIndex(made(items), 8, 2)
            self.assertEqual(text.places([7])[:].tolist(), [1, 3])
        with self.assertRaisesRegex(vers.Refused, "^the symbol at position 2 is 255, and above 127"):
            vers.WaveletMatrix(bytes([7, 9, 255]), 7)
        with self.assertRaisesRegex(vers.Refused, "^the symbol at position 2 is 255, and above 127"):
            vers.TextIndex(bytes([7, 9, 255]), 7)

    def test_slices_of_symbols(self):
        widths = {1: "B", 8: "B", 9: "H", 16: "H", 17: "I", 32: "I", 33: "Q", 64: "Q"}
        for width, kind in widths.items():
            most = (1 << width) - 1
            items = [most, 0, 1, most, 1, most]
            texts = [vers.TextIndex(items, width)] if width <= 16 else []
            for made in [vers.WaveletMatrix(items, width), *texts]:
                for part in (slice(None), slice(1, 5, 3), slice(None, None, -2), slice(4, 2), slice(9, 12)):
                    self.assertEqual((made[part].typecode, made[part].tolist()), (kind, items[part]))
        for made in vers.TextIndex(b"abracadabra", 8), vers.WaveletMatrix(b"abracadabra", 8):
            self.assertEqual((bytes(made[0:4]), made[0:4].tobytes(), made[-1:]), (b"abra", b"abra", array("B", b"a")))
        self.assertEqual(vers.WaveletMatrix([], 5)[:], array("B"))

    def test_slices_of_bits(self):
        draw, parts = random.Random(6), (slice(None), slice(3, -3), slice(9, 2), slice(None, None, -1))
        parts += slice(1, None, 3), slice(None, None, -8), slice(-2, 5, -70), slice(None, None, 100_000)
        for size in (0, 1, 64, 70, 2 * _buffers.CHUNK + 70):
            items = [draw.randrange(2) for _ in range(size)]
            ones = [k for k, it in enumerate(items) if it]
            for made in vers.RsVec(items), vers.BitVec(items), vers.SparseRSVec(ones, size):
                self.assertEqual((list(made), made.tolist(), bytes(made)), (items, items, bytes(items)))
                for part in parts:
                    self.assertEqual(made[part], array("B", items[part]))

    def test_loops_run_no_python_for_each_item(self):
        bits, count = vers.RsVec([1, 0] * 5000), [0]

        def note(_frame, event, _argument):
            count[0] += event == "call"
        loops = {
            "bits": lambda: iter(bits), "growing": lambda: iter(vers.BitVec(bits)), "ones": bits.iter1,
            "numbers": lambda: iter(vers.EliasFanoVec(range(5000))), "text": lambda: iter(vers.TextIndex(bytes(5000))),
            "sparse": vers.SparseRSVec(range(5000), 5000).iter1, "nodes": vers.BpTree("()" * 5000).dfs_iter,
            "reversed": lambda: reversed(vers.EliasFanoVec(range(5000))),
            "reversed text": lambda: reversed(vers.TextIndex(bytes(5000))),
        }
        for name, made in loops.items():
            items, count[0] = made(), 0
            sys.setprofile(note)
            collections.deque(items, 0)
            sys.setprofile(None)
            with self.subTest(name):
                self.assertLess(count[0], 500)

    def test_loops_from_the_back(self):
        for size in (0, 1, 4096, 4097, 10_000):
            items = [it * it % 7 & 1 for it in range(size)]
            for made in (vers.RsVec(items), vers.BitVec(items), vers.FastRmq(items), vers.WaveletMatrix(items, 1),
                         vers.TextIndex(items, 1)):
                self.assertEqual(list(reversed(made)), items[::-1])

    def test_loops_over_bits_that_change(self):
        bits = vers.BitVec([1] * 10_000)
        seen = iter(bits)
        self.assertEqual(next(seen), 1)
        bits.drop_last(5_000)
        self.assertEqual(list(seen), [1] * 4_999)
        seen = iter(bits)
        self.assertEqual(next(seen), 1)
        bits.extend([0] * 5)
        self.assertEqual(list(seen), [1] * 4_999 + [0] * 5)

    @unittest.skipIf(numpy is None, "numpy isn't there")
    def test_positions_of_ones_in_numpy(self):
        items = [1, 0, 1, 1] * 40_000
        for made in vers.RsVec(items), vers.BitVec(items):
            self.assertEqual(numpy.flatnonzero(made).tolist(), [k for k, it in enumerate(items) if it])

    def test_narrow_symbols_are_not_widened(self):
        symbols = bytes(10 ** 6)
        tracemalloc.start()
        vers.WaveletMatrix(symbols, 8)
        peak = tracemalloc.get_traced_memory()[1]
        tracemalloc.stop()
        self.assertLess(peak, 2 * 10 ** 6)

    def test_buffers_of_c(self):
        for kind in (ctypes.c_uint8, ctypes.c_uint32, ctypes.c_uint64, ctypes.c_int16):
            self.assertEqual(vers.EliasFanoVec((kind * 3)(1, 2, 9)).tolist(), [1, 2, 9])
            self.assertEqual(vers.RsVec((kind * 3)(1, 0, 1)).tolist(), [1, 0, 1])
        for kind in (ctypes.c_uint64.__ctype_be__, ctypes.c_uint64.__ctype_le__):
            self.assertEqual(vers.EliasFanoVec((kind * 2)(1, 2)).tolist(), [1, 2])

    def test_consecutive_numbers(self):
        for start in 0, (1 << 16) - 2, (1 << 32) - 2, (1 << 48) - 2, vers.NONE - 4:
            self.assertEqual(_buffers.numbers_from(start, start + 4), array("Q", range(start, start + 4)))
        self.assertEqual(vers.SparseRSVec([1 << 40], 1 << 41)[(1 << 40) - 1:(1 << 40) + 2].tolist(), [0, 1, 0])

    def test_large_buffers(self):
        content = bytes(2_000_000)
        for make, most in ((_buffers.held, 9), (_buffers.bits_of, 1)):
            tracemalloc.start()
            try:
                self.assertTrue(make(content))
                peak = tracemalloc.get_traced_memory()[1]
            finally:
                tracemalloc.stop()
            self.assertLess(peak, most * len(content) + 4_000_000, make.__name__)

    def test_made_once(self):
        for made in some_lists():
            before, address = made.tolist(), made._at
            made.__init__([1])
            self.assertEqual((made.tolist(), made._at), (before, address))

    def test_indexes(self):
        index = "^an index is a whole number or a slice, and not of type "
        self.refuses((vers.RsVec([1]).__getitem__, vers.BitVec([1]).__getitem__), TypeError,
                     index + "(list|array); `get` takes an array$", [0], array("Q", [0]))
        self.refuses((vers.RsVec([1]).__getitem__, vers.TextIndex([1]).__getitem__), TypeError, index + "float$", 0.5)
        self.refuses((vers.TextIndex([1]).__getitem__,), TypeError, index + "list$", [0])

    def test_other_types(self):
        bits = vers.RsVec([1])
        for call in (lambda: bits["a"], lambda: bits[1.0], lambda: bits.rank1("1"), lambda: bits.rank1(None),
                     lambda: vers.RsVec.from_bytes(5), lambda: vers.RsVec.from_bytes("text"),
                     lambda: vers.BitVec([1]).append_bits(1.0, 1), lambda: vers.Postings([1], [1]).intersect([1]),
                     lambda: bits.successor1("1"), lambda: vers.BitVec([1])["a"]):
            with self.assertRaises(TypeError):
                call()
        for call in (lambda: bits.rank1(-1), lambda: bits.successor1(-1), lambda: bits.predecessor0(1 << 64),
                     lambda: vers.SparseRSVec([1], -2)):
            with self.assertRaises(OverflowError):
                call()
        with self.assertRaisesRegex(OverflowError, "^the symbol is -1"):
            vers.WaveletMatrix([1], 1).rank(1, -1)


class Files(unittest.TestCase):
    def test_class_of_a_saved_file(self):
        with tempfile.TemporaryDirectory() as folder:
            path = os.path.join(folder, "list.vers")
            for made in some_lists():
                if isinstance(made, vers.PlainNumbers):
                    continue
                made.save(path)
                kinds = {vers.BitVec: vers.RsVec, vers.BinaryRmq: vers.FastRmq}
                loaded = vers.load(path)
                self.assertEqual((type(loaded), loaded.tolist()), (kinds.get(type(made), type(made)), made.tolist()))
            for content, kind in (b"", vers.TooShort), (bytes(48), vers.NotOurs):
                with open(path, "wb") as file:
                    file.write(content)
                with self.assertRaisesRegex(kind, f"^{re.escape(path)}: "):
                    vers.load(path)


class Arrays(unittest.TestCase):
    def test_refused_by_position(self):
        tree, other = vers.BpTree("(()())"), vers.BpTree(")(")
        refused = {
            "^position 5 is past the end of 2 parentheses, in the query at position 2$": lambda: other.each("excess", [0, 1, 5]),
            "^no node opens at position 2, in the query at position 1$": lambda: tree.each("parent", [0, 2]),
            "^no node opens at position 9, in the query at position 0$": lambda: tree.each("next_sibling", [9, 0]),
            "^the parentheses are not balanced, in the query at position 0$": lambda: other.each("depth", [1]),
            "^the parentheses are not balanced, in the query at position 0": lambda: other.each("level_leftmost", [0]),
            "^no node opens at position 5, in the query at position 2$": lambda: tree.each("is_ancestor", 0, [0, 1, 5]),
            "^no node opens at position 2$": lambda: tree.parent(2),
            "^position 5 is past the end of 2 parentheses$": lambda: other.excess(5),
        }
        for reason, call in refused.items():
            with self.assertRaisesRegex(vers.Refused, reason):
                call()
        self.assertEqual(other.each("excess", [0, 1]).tolist(), [-1, 0])
        self.assertEqual(tree.each("parent", [0, 1, 3]).tolist(), [None, 0, 0])
        self.assertEqual(tree.each("level_ancestor", [3, 3], [1, 2]).tolist(), [0, None])
        self.assertEqual(tree.each("close", [0, 9]).tolist(), [5, None])
        self.assertEqual(tree.each("is_open", [0, 2, 6]).tolist(), [True, False, None])

    def test_methods_take_arrays(self):
        bits, tree = vers.RsVec([1, 0, 1, 1]), vers.BpTree("(()())")
        for places in ([0, 3, 4], (0, 3, 4), array("Q", [0, 3, 4]), bytes([0, 3, 4])):
            self.assertEqual(bits.rank1(places).tolist(), [0, 2, 3])
            self.assertEqual(bits.successor1(places).tolist(), [2, None, None])
            self.assertEqual(bits.predecessor1(places).tolist(), [None, 2, 3])
        self.assertEqual(bits.successor1([vers.NONE]).tolist(), [None])
        self.assertEqual(tree.is_leaf([0, 1]).tolist(), [False, True])
        self.assertEqual(tree.depth(tree.first_child([0])).tolist(), [1])
        self.assertEqual(vers.WaveletMatrix([3, 1, 3], 2).rank(3, [1, 3]).tolist(), [1, 2])
        self.assertEqual(vers.EliasFanoVec([2, 5]).has([1, 2]).tolist(), [False, True])

    @unittest.skipIf(numpy is None, "numpy isn't there")
    def test_numpy(self):
        bits, tree, numbers = vers.RsVec([1, 0, 1, 1]), vers.BpTree("(()())"), vers.EliasFanoVec([3, vers.NONE])
        places = numpy.array([[0, 3], [4, 9]])
        self.assertEqual(bits.rank1(places).tolist(), [[0, 2], [3, 3]])
        self.assertEqual((bits.rank1(places) - places).tolist(), [[0, -1], [-1, -6]])
        self.assertEqual(bits.rank1(numpy.array(3)), 2)
        found = bits.successor1(places)
        self.assertEqual((found.tolist(), found.dtype), ([[2, None], [None, None]], numpy.int64))
        self.assertEqual(bits.predecessor0(places).tolist(), [[None, 1], [1, 1]])
        self.assertEqual(bits.successor1(numpy.array([vers.NONE], "u8")).tolist(), [None])
        self.assertEqual(vers.EliasFanoVec([5, 123]).__array__(str).tolist(), ["5", "123"])
        self.assertEqual(tree.parent(numpy.array([0, 3])).tolist(), [None, 0])
        self.assertEqual(tree.each("parent", numpy.array([0, 3]), other=-1).tolist(), [-1, 0])
        self.assertEqual(numbers.get(numpy.array([0, 1, 2])).tolist(), [3, vers.NONE, None])
        self.assertEqual(numbers.get(numpy.arange(2)).dtype, numpy.uint64)
        nodes = numpy.array([0, 1, 3])
        self.assertEqual(nodes[tree.is_leaf(nodes)].tolist(), [1, 3])
        self.assertEqual(tree.each("is_open", numpy.array([0, 2, 9]), other=7).tolist(), [1, 0, 7])
        self.assertEqual((tree.depth(nodes) - tree.depth(0)).tolist(), [0, 1, 1])
        self.assertEqual((tree.depth(0) - tree.depth(nodes)).tolist(), [0, -1, -1])
        symbols = vers.WaveletMatrix([3, 1, 3], 2)
        self.assertEqual(symbols.rank(numpy.array([[1], [3]]), numpy.array([1, 3])).tolist(), [[0, 1], [1, 2]])
        counts = vers.TextIndex(b"abracadabra", 8).count_each(numpy.array([list(b"ab"), list(b"ra"), list(b"ba")]))
        self.assertEqual((counts.tolist(), counts.dtype), ([2, 2, 0], numpy.int64))
        self.assertEqual((counts - 3).tolist(), [-1, -1, -3])
        with self.assertRaisesRegex(vers.Refused, "^no node opens at position 2, in the query at position 1$"):
            tree.parent(numpy.array([0, 2]))
        with self.assertRaisesRegex(TypeError, "^the node at position 1 is masked$"):
            tree.parent(numpy.ma.array([0, 1], mask=[False, True]))
        with self.assertRaisesRegex(OverflowError, "^the number at position 1 is -3"):
            bits.rank1(numpy.array([0, -3]))

    def test_like_single_calls(self):
        draw = random.Random(7)
        tree = vers.BpTree("".join(draw.choice("()") for _ in range(40)))
        numbers = sorted(draw.choice([draw.randrange(60), vers.NONE]) for _ in range(50))
        others = [kind(numbers) for kind in (vers.EliasFanoVec, vers.FastRmq, lambda it: vers.WaveletMatrix(it, 64))]
        trees = [tree, vers.BpTree("(()((())))()")]
        for made in [*some_lists()[:9], *others, *trees, vers.SparseRSVec([1, 7], vers.NONE)]:
            for name, asked in made._queries.items():
                for _ in range(20):
                    row = [draw.choice([draw.randrange(12), draw.randrange(70), vers.NONE]) for _ in asked.names]
                    column, size = draw.randrange(len(row)), draw.randrange(1, 5)
                    row[column] = [draw.randrange(14) for _ in range(size)]
                    self.compare(made, name, row, column)

    def compare(self, made, name, arguments, column):
        """Compares the answers to an array, as one argument, with those of single calls."""
        wanted, refused = [], None
        for k, number in enumerate(arguments[column]):
            try:
                wanted.append(getattr(made, name)(*arguments[:column], number, *arguments[column + 1:]))
            except vers.Refused as fault:
                refused = refused or f"^{re.escape(str(fault))}, in the query at position {k}$"
        kinds = [list] if numpy is None else [list, lambda it: numpy.array(it, numpy.uint64)]
        for kind in kinds:
            passed = [kind(it) if k == column else it for k, it in enumerate(arguments)]
            if refused:
                with self.assertRaisesRegex(vers.Refused, refused):
                    getattr(made, name)(*passed)
                continue
            answers = made.each(name, *passed).tolist()
            self.assertEqual((answers, [type(it) for it in answers]), (wanted, [type(it) for it in wanted]))
            self.assertEqual(getattr(made, name)(*passed).tolist(), wanted)

    def test_signed(self):
        tree = vers.BpTree("(()())")
        for name in ("excess", "depth", "subtree_size", "node_index"):
            self.assertEqual(tree.each(name, [0]).typecode, "q")

    def test_neighbours_by_name(self):
        bits = vers.RsVec([1, 0, 1, 1])
        self.assertEqual(bits.each("successor1", [0, 3]).tolist(), [2, None])
        self.assertEqual(bits.each("predecessor1", [0, 3], other=-1), array("q", [-1, 2]))
        self.assertEqual(bits.each("successor0", [0, 1], other=9), array("q", [1, 9]))
        self.assertIn("predecessor0(position)", vers.RsVec.__doc__)
        with self.assertRaisesRegex(TypeError, r"^successor1 takes \(position\), and not 2 arguments$"):
            bits.each("successor1", [0], 1)
        if numpy is not None:
            found = bits.each("predecessor0", numpy.array([[0, 2]]))
            self.assertEqual((found.tolist(), found.dtype), ([[None, 1]], numpy.int64))

    @unittest.skipIf(numpy is None, "numpy isn't there")
    def test_differences(self):
        text = vers.TextIndex(b"abracadabra", 8)
        self.assertEqual((numpy.asarray(text.places(b"a")) - 5).tolist(), [-5, -2, 0, 2, 5])
        index = vers.InvertedIndex([0, 0, 2], [3, 7, 3])
        self.assertEqual((numpy.asarray(index.documents(0)) - 5).tolist(), [-2, 2])
        self.assertEqual((index.next_at_least(0, numpy.array([0, 4])) - 5).tolist(), [-2, 2])
        for greatest, kind in ((1 << 63) - 1, numpy.int64), (1 << 63, numpy.uint64), (vers.NONE, numpy.uint64):
            numbers, places = [2, 5, greatest], numpy.array([0, 1])
            documents = vers.Postings(numbers)
            for made in vers.EliasFanoVec(numbers), documents, documents.intersect(documents):
                self.assertEqual((numpy.asarray(made).dtype, numpy.asarray(made).tolist()), (kind, numbers))
                self.assertEqual((made.get(places).dtype, made.get(places).tolist()), (kind, [2, 5]))
            made = vers.EliasFanoVec(numbers)
            for ask in made.successor, made.predecessor, made.delta, documents.next_at_least:
                self.assertEqual(ask(places).dtype, kind, (ask, greatest))
            self.assertEqual(made.each("get", places, other=vers.NONE).dtype, numpy.uint64)
            self.assertEqual(numpy.asarray(made[:2]).dtype, kind)
        self.assertEqual((numpy.asarray(text.places(b"a")[:2]) - 5).tolist(), [-5, -2])
        self.assertEqual(numpy.asarray(vers.EliasFanoVec([])).dtype, numpy.int64)
        self.assertEqual(vers.EliasFanoVec([4]).each("successor", [3, 5], other=-1), array("q", [4, -1]))
        with self.assertRaisesRegex(TypeError, "^other is of type str"):
            vers.EliasFanoVec([4]).each("successor", [3], other="a")
        with self.assertRaisesRegex(OverflowError, "^other is -1"):
            vers.EliasFanoVec([vers.NONE]).each("successor", [3], other=-1)

    def test_signed_answers_are_arguments(self):
        numbers = vers.EliasFanoVec([2, 5, (1 << 63) - 1])
        self.assertEqual((numbers[:].typecode, vers.EliasFanoVec([1 << 63])[:].typecode), ("q", "Q"))
        self.assertEqual((vers.EliasFanoVec(numbers[:]), numbers.rank(numbers[1:]).tolist()), (numbers, [1, 2]))
        for universe, kind in (1 << 63, "q"), ((1 << 63) + 1, "Q"):
            self.assertEqual(vers.InvertedIndex([0], [3], 1, universe).pairs()[1].typecode, kind)
        self.assertEqual(numbers[::-1], array("q", [(1 << 63) - 1, 5, 2]))
        for wrong in ([-1, 2], [2, -1], [0] * 9 + [-(1 << 63)]):
            with self.assertRaisesRegex(OverflowError, rf"^the number at position {wrong.index(min(wrong))} is -"):
                numbers.rank(array("q", wrong))

    def test_misspelt(self):
        with self.assertRaisesRegex(vers.Unknown, "^RsVec has no query 'rnk1'; the nearest is 'rank1'$"):
            vers.RsVec([1]).each("rnk1", [0])
        with self.assertRaisesRegex(vers.Unknown, "^BpTree has no query 'depht'; the nearest is 'depth'$"):
            vers.BpTree("()").each("depht", [0])
        with self.assertRaisesRegex(vers.Unknown, "; it has get, get_bits$"):
            vers.BitVec([1]).each("quantile", [0])
        with self.assertRaisesRegex(vers.Unknown, "; it has none$"):
            vers.TextIndex(b"a", 8).each("get", [0])

    def test_help(self):
        page = pydoc.plain(pydoc.render_doc(vers.RsVec))
        self.assertIn("rank1(position)", page)
        self.assertIn("Returns the number of ones before a position", page)
        self.assertIn("quantile(start, end, number)", vers.WaveletMatrix.__doc__)

    def test_types_name_the_queries(self):
        for kind in LISTS:
            bases = [it for owner in kind.__mro__ for it in getattr(owner, "__orig_bases__", ())]
            names = [it for base in bases for it in typing.get_args(base)]
            named = next(it for it in names if typing.get_origin(it) is typing.Literal)
            self.assertEqual(set(typing.get_args(named)), set(kind._queries), kind)


class Searches(unittest.TestCase):
    """`in`, `count` and `index`, which queries answer."""

    def setUp(self):
        draw = random.Random(9)
        self.bits = [draw.randrange(2) for _ in range(5000)]
        ones = [k for k, it in enumerate(self.bits) if it]
        ascending = sorted(draw.choice([*range(2000), vers.NONE]) for _ in range(5000))
        symbols = [draw.randrange(7) for _ in range(5000)]
        self.lists = [
            (vers.RsVec(self.bits), self.bits), (vers.SparseRSVec(ones, 5000), self.bits),
            (vers.BitVec(self.bits), self.bits), (vers.EliasFanoVec(ascending), ascending),
            (vers.Postings(ones), ones), (vers.WaveletMatrix(symbols, 3), symbols), (vers.FastRmq(ascending), ascending),
            (vers.RsVec([0] * 70), [0] * 70), (vers.WaveletMatrix([], 3), []), (vers.EliasFanoVec([]), []),
        ]

    def test_like_lists(self):
        values = (0, 1, True, 1.0, 1.5, 3, 7, 8, 9, 11, 1999, vers.NONE, vers.NONE + 1, -1, "1", b"1", None, float("inf"))
        for made, items in self.lists:
            for value in values:
                self.assertEqual((value in made, made.count(value)), (value in items, items.count(value)), (made, value))
                for ends in ((0, None), (40, None), (0, 3), (-4999, -1), (4998, 6000), (10, 5), (2, 1 << 70)):
                    places = range(*slice(*ends).indices(len(items)))
                    position = next((k for k in places if items[k] == value), None)
                    self.compare(made, (value, *ends), position)

    def compare(self, made, arguments, position):
        """Compares an index with a position, or with None for a ValueError."""
        if position is not None:
            self.assertEqual(made.index(*arguments), position, (made, arguments))
            return
        with self.assertRaisesRegex(ValueError, f"^{re.escape(repr(arguments[0]))} is not in the list$"):
            made.index(*arguments)

    def test_no_item_is_read(self):
        queried = (vers.RsVec, vers.EliasFanoVec, vers.Postings, vers.WaveletMatrix)
        with mock.patch.object(_bases.List, "_part", side_effect=AssertionError("an item is read")):
            for made in (it for it, _ in self.lists if isinstance(it, queried)):
                for value in (0, 1, 3, vers.NONE):
                    self.assertEqual(made.count(value) > 0, value in made)
            self.assertEqual(self.lists[1][0].count(0) + self.lists[1][0].count(1), 5000)


class Texts(unittest.TestCase):
    def test_lists_without_a_length(self):
        for length in (1 << 63, vers.NONE):
            made = vers.SparseRSVec([3, 1 << 62], length)
            self.assertEqual(repr(made), f"<vers.SparseRSVec of {length} bits: [0, 0, 0, 1, 0, 0, 0, 0, ...]>")
            self.assertEqual((bool(made), made[-1], made[2:5].tolist()), (True, 0, [0, 1, 0]))
            self.assertEqual((made, hash(made)), (copy.copy(made), hash(vers.SparseRSVec([3, 1 << 62], length))))
            self.assertNotEqual(made, vers.SparseRSVec([4, 1 << 62], length))
            self.assertEqual((made.index(1), made.index(0, 3), made.index(1, 4), 7 in made), (3, 4, 1 << 62, False))
            self.assertEqual((made.count(1), made.count(0), made.count(7)), (2, length - 2, 0))
        self.assertFalse(vers.SparseRSVec([], 0) or vers.BitVec() or vers.InvertedIndex([], []))

    def test_one_item(self):
        shown = {
            vers.RsVec("1"): "RsVec of 1 bit: [1]", vers.EliasFanoVec([3]): "EliasFanoVec of 1 element: [3]",
            vers.FastRmq([3]): "FastRmq of 1 value: [3]", vers.Postings([3]): "Postings of 1 document: [3]",
            vers.TextIndex([3], 2): "TextIndex of 1 symbol: [3]", vers.BpTree("("): "BpTree of 1 parenthesis: (",
            vers.InvertedIndex([0], [3]): "InvertedIndex of 1 pair: [(0, 3)]",
            vers.Postings([3]).intersect(vers.Postings([3])): "PlainNumbers of 1 number: [3]",
        }
        for made, text in shown.items():
            self.assertEqual(repr(made), f"<vers.{text}>")

    def test_lists_that_are_not_made(self):
        for kind in LISTS:
            self.assertEqual(repr(object.__new__(kind)), f"<vers.{kind.__name__}>")

    def test_bytes_that_are_not_counted(self):
        documents = vers.Postings([1, 2])
        with self.assertRaisesRegex(vers.Unknown, "^the library doesn't count the bytes of PlainNumbers$"):
            documents.intersect(documents).heap_size()


class Imports(unittest.TestCase):
    def ends(self, text, library):
        """The import of the sources alone ends in an ImportError with a text."""
        with tempfile.TemporaryDirectory() as folder:
            shutil.copytree(os.path.dirname(vers.__file__), os.path.join(folder, "vers"),
                            ignore=shutil.ignore_patterns("__pycache__", "libvers.so"))
            environment = {**os.environ, "PYTHONPATH": "", "VERS_LIBRARY": library}
            command = [sys.executable, "-c", "import vers"]
            done = subprocess.run(command, cwd=folder, env=environment, stderr=subprocess.PIPE, text=True, check=False)
            self.assertRegex(done.stderr.splitlines()[-1], text)

    def test_sources_without_a_library(self):
        self.ends("^ImportError: vers: the library isn't built in .*run Python in another folder, or set VERS_LIB", "")

    def test_no_such_library(self):
        self.ends("^ImportError: vers: the library doesn't load: nowhere.so", "nowhere.so")


class Fasta(unittest.TestCase):
    """The sequences of FASTA files, by their names."""

    def setUp(self):
        self.text = vers.TextIndex.from_fasta([b">ch one\n", b"AC\r\n", b"\n", b"GTA\n", b">d\n", b"GTAC"])

    def refused(self, text, call, *arguments):
        with self.assertRaisesRegex(vers.Refused, text):
            call(*arguments)

    def test_text(self):
        self.assertEqual(bytes(self.text[:]), b"\n\xe3\xe8\nACGTA\n\xe4\nGTAC")
        self.assertEqual(self.text.sequences(), [("ch", 4, 9), ("d", 12, 16)])
        places = [None] * 4 + [("ch", k) for k in range(5)] + [None] * 3 + [("d", k) for k in range(4)] + [None] * 2
        for text in self.text, vers.TextIndex.from_bytes(self.text.to_bytes()), copy.copy(self.text):
            self.assertEqual([text.site(k) for k in range(18)], places)
        self.assertEqual(vers.TextIndex.from_fasta([]).sequences(), [])
        self.assertEqual(vers.TextIndex.from_fasta([b"", b">a>b\tc", b">e"]).sequences(), [("a>b", 5, 5), ("e", 8, 8)])

    def test_sites(self):
        self.assertEqual(self.text.sites(b"TA"), [("ch", 3), ("d", 1)])
        self.assertEqual((self.text.sites([67]), self.text.sites(b"AG")), ([("ch", 1), ("d", 3)], []))
        self.refused("^the pattern has no residues$", self.text.sites, b"")
        self.refused("^the symbol at position 1 is 64, and residues are letters, \\* and -$", self.text.sites, b"A@")
        self.refused("^the symbol at position 0 is 300, and residues", self.text.sites, [300, 1])
        with self.assertRaisesRegex(TypeError, "encode it"):
            self.text.sites("TA")
        with self.assertRaisesRegex(OverflowError, "^the position is -1"):
            self.text.site(-1)

    def test_like_a_search(self):
        draw = random.Random(8)
        made = [(f"s{k % 5}", bytes(draw.choices(b"ACGTacgtn*-", k=draw.randrange(90)))) for k in range(40)]
        lines = [it for name, bases in made for it in [f">{name} x".encode(), *re.findall(b".{1,7}", bases)]]
        text = vers.TextIndex.from_fasta(lines, 4)
        self.assertEqual([(name, bytes(text[start:end])) for name, start, end in text.sequences()], made)
        for _ in range(200):
            pattern = bytes(draw.choices(b"ACGTacgtn*-", k=draw.randrange(1, 4)))
            found = [(name, k) for name, bases in made for k in range(len(bases)) if bases.startswith(pattern, k)]
            self.assertEqual(text.sites(pattern), found)

    def test_files(self):
        with tempfile.TemporaryDirectory() as folder:
            path, index = os.path.join(folder, "two.fa"), os.path.join(folder, "two.vers")
            with open(path, "wb") as file:
                file.write(b">ch one\nACGTA\n>d\nGTAC\n")
            with open(path, "rb") as file, gzip.open(f"{path}.gz", "wb") as compressed:
                compressed.write(file.read())
            for name in path, os.fsencode(path), pathlib.Path(path), f"{path}.gz":
                self.assertEqual(vers.TextIndex.from_fasta(name), self.text)
            vers.TextIndex.from_fasta(path).save(index)
            self.assertEqual(vers.TextIndex.load(index).sites(b"TA"), [("ch", 3), ("d", 1)])
            with open(path, encoding="ascii") as file, self.assertRaisesRegex(TypeError, "^line 1 is .*'rb'$"):
                vers.TextIndex.from_fasta(file)
            with open(path, "ab") as file:
                file.write(b"A C\n")
            self.refused(f"^{re.escape(path)}: line 5 is neither ", vers.TextIndex.from_fasta, path)

    def test_upper_case(self):
        lines = [b">chr1 Homo\n", b"acgTN\n", b">d\n", b"g-*a"]
        text = vers.TextIndex.from_fasta(lines, upper=True)
        self.assertEqual(bytes(text[:]), b"\n\xe3\xe8\xf2\xb1\nACGTN\n\xe4\nG-*A")
        self.assertEqual([name for name, _, _ in text.sequences()], ["chr1", "d"])

    def test_sequences_are_a_list_of_the_caller(self):
        self.text.sequences().clear()
        self.assertEqual(self.text.sequences(), [("ch", 4, 9), ("d", 12, 16)])

    def test_lines_that_are_wrong(self):
        for lines in ([b"AC"], [b">"], [b"> a"], [b">a", b"A C"], [b">a", b"A\rC"], [b">\xe4"], [b">\x7f"],
                      [b">a", b"A", b"1"]):
            self.refused(f"^line {len(lines)} is neither a header with a name nor", vers.TextIndex.from_fasta, lines)

    def test_other_texts(self):
        for text in b"GATTA", b"\nGAT", b"A\n\nGT", b"\n\nA", b"\nname\nGAT":
            self.refused("^the text isn't that of a FASTA file$", vers.TextIndex(text).sites, b"A")
        for text in b"a\nbc\nGATTA\n", b"\nbc\nGATTA", b"\n\xe3\n\xe4\nTA\n", b"\n\xe3\nGATTA\nC":
            self.refused("^the text isn't that of a FASTA file$", vers.TextIndex(text).sites, b"TA")
        for symbols in [10, 200, 10, 65], []:
            self.refused("^the text isn't that of a FASTA file$", vers.TextIndex(symbols, 9).sequences)


class Habits(unittest.TestCase):
    def test_equality(self):
        for made, other in zip(some_lists(), some_lists()):
            self.assertTrue(made == other and not made != other, made)
            if not isinstance(made, vers.BitVec):
                self.assertEqual((hash(made), {made: 1}[other]), (hash(other), 1))
        with self.assertRaises(TypeError):
            hash(vers.BitVec([1]))
        different = [
            (vers.RsVec([1, 0]), vers.RsVec([1])), (vers.RsVec([1, 0]), vers.RsVec([0, 1])),
            (vers.RsVec([1]), vers.BitVec([1])), (vers.EliasFanoVec([1] * 9999 + [2]), vers.EliasFanoVec([1] * 10_000)),
            (vers.RsVec([1] * 64 + [0]), vers.RsVec([1] * 65)), (vers.RsVec([1]), [1]),
            (vers.Postings([1], [2]), vers.Postings([1], [3])),
            (vers.WaveletMatrix([1], 2), vers.WaveletMatrix([1], 3)),
            (vers.FastRmq([1]), vers.BinaryRmq([1])), (vers.BpTree("()"), vers.BpTree(")(")),
            (vers.TextIndex(b"ab", 8), vers.TextIndex(b"ba", 8)), (vers.TextIndex(b"ab"), vers.TextIndex(b"ba", 8, 2)),
            (vers.WaveletMatrix([1, 2], 2), vers.WaveletMatrix([2, 1], 2)),
        ]
        for one, other in different:
            self.assertTrue(one != other and not one == other, (one, other))
        one, other = ([first, *range(1, 10_000)] for first in (0, 1))
        self.assertNotEqual(hash(vers.EliasFanoVec(one)), hash(vers.EliasFanoVec(other)))
        one, other = vers.TextIndex(b"abracadabra" * 50), vers.TextIndex(b"abracadabra" * 50, 8, 3)
        self.assertEqual((one, hash(one)), (other, hash(other)))
        self.assertEqual(vers.WaveletMatrix([], 0), vers.WaveletMatrix([], 0))
        self.assertEqual(vers.RsVec([1]), mock.ANY)
        for made in some_lists():
            self.assertEqual(pickle.loads(pickle.dumps(made)), made)
            self.assertEqual(copy.copy(made), made)

    def test_sequences(self):
        for made in some_lists():
            items = made.tolist()
            self.assertEqual(len(items), len(made))
            if isinstance(made, (vers.BpTree, vers.InvertedIndex, vers.TextIndex)):
                continue
            self.assertIsInstance(made, collections.abc.Sequence)
            self.assertEqual((list(reversed(made)), made.index(items[1])), (items[::-1], items.index(items[1])))
            self.assertEqual(made.count(items[0]), items.count(items[0]))
            self.assertEqual((made[-1], made[1:].tolist()), (items[-1], items[1:]))
            if numpy is not None:
                self.assertEqual((made[numpy.int64(-1)], made[numpy.uint8(1)]), (items[-1], items[1]))
                are_bits = isinstance(made, (vers.BitVec, vers.RsVec, vers.SparseRSVec))
                is_signed = isinstance(made, (vers.EliasFanoVec, vers.PlainNumbers, vers.Postings))
                kind = numpy.uint8 if are_bits else numpy.int64 if is_signed else numpy.uint64
                self.assertEqual((numpy.asarray(made).tolist(), numpy.asarray(made).dtype), (items, kind))
                self.assertEqual(numpy.asarray(made, dtype=float).dtype, float)
                with self.assertRaisesRegex(ValueError, "are copied"):
                    made.__array__(copy=False)
        self.assertEqual(vers.BpTree("(())").tolist(), [1, 1, 0, 0])

    @unittest.skipIf(numpy is None, "numpy isn't there")
    def test_kinds_of_arrays(self):
        draw = random.Random(3)
        for count in (0, 1, 63, 64, 65, _buffers.CHUNK, _buffers.CHUNK + 70, 3 * _buffers.CHUNK):
            bits = [draw.randrange(2) for _ in range(count)]
            ones = [k for k, it in enumerate(bits) if it]
            for made in vers.RsVec(bits), vers.BitVec(bits), vers.SparseRSVec(ones, count):
                for kind in (None, bool, "u1", "i4", float, object):
                    plain = numpy.array(bits, dtype=kind or numpy.uint8)
                    found = numpy.asarray(made, dtype=kind)
                    self.assertEqual((found.dtype, found.tolist()), (plain.dtype, plain.tolist()))
                    if kind not in (float, object):
                        self.assertEqual(vers.RsVec(found), vers.RsVec(bits))
        symbols = [draw.randrange(256) for _ in range(_buffers.CHUNK + 70)]
        made = vers.WaveletMatrix(symbols, 8)
        for kind in ("u1", "u2", "i8", bool, ">u4"):
            self.assertEqual(numpy.asarray(made, dtype=kind).tolist(), numpy.array(symbols).astype(kind).tolist())
        self.assertEqual(numpy.asarray(vers.EliasFanoVec([3, 100]), dtype=str).tolist(), ["3", "100"])

    @unittest.skipIf(numpy is None, "numpy isn't there")
    def test_arrays_are_filled_by_chunks(self):
        for made, kind in (vers.RsVec.from_words(array("Q", [5]) * 40_000), bool), (vers.FastRmq(range(10 ** 6)), "u4"):
            size = len(made) * numpy.dtype(kind).itemsize
            tracemalloc.start()
            found = numpy.asarray(made, dtype=kind)
            peak = tracemalloc.get_traced_memory()[1]
            tracemalloc.stop()
            self.assertEqual((found.nbytes, found[:3].tolist()), (size, [made[k] for k in range(3)]))
            self.assertLess(peak, size + 4_000_000)

    def test_version(self):
        folder = os.path.dirname(os.path.dirname(os.path.abspath(__file__)))
        with open(os.path.join(folder, "pyproject.toml"), encoding="utf-8") as file:
            self.assertIn(f'\nversion = "{vers.__version__}"\n', file.read())

    def test_saved_without_memory(self):
        with mock.patch.object(_library, "save", return_value=_codes.NO_MEMORY), self.assertRaises(vers.NoMemory):
            vers.RsVec("10").to_bytes()

    def test_saved_while_it_changes(self):
        bits, saved_size = vers.BitVec([1, 0]), _library.saved_size

        def size_and_change(at):
            size = saved_size(at)
            if len(bits) == 2:
                bits.extend([1] * 64)
            return size

        with mock.patch.object(_library, "saved_size", size_and_change):
            self.assertEqual(vers.BitVec.from_bytes(bits.to_bytes()), vers.BitVec([1, 0] + [1] * 64))

    def test_files(self):
        with tempfile.TemporaryDirectory() as folder:
            path = pathlib.Path(folder, "list.vers")
            for made in some_lists():
                if isinstance(made, vers.PlainNumbers):
                    continue
                made.save(path)
                self.assertEqual((type(made).load(path), type(made).load(str(path))), (made, made))
                parts.save(str(path), made)
                self.assertEqual((parts.load(path, type(made)), os.listdir(folder)), (made, ["list.vers"]))
            with self.assertRaisesRegex(vers.OtherKind, f"^{re.escape(str(path))}: .* of TextIndex, and not of RsVec$"):
                vers.RsVec.load(path)
            with self.assertRaisesRegex(TypeError, "has no saved form"):
                vers.TextIndex(b"a", 8).places(b"a").save(path)
            with self.assertRaises(FileNotFoundError):
                vers.RsVec.load(path.with_name("absent"))
            self.assertEqual((vers.TextIndex.load(path), os.listdir(folder)), (made, ["list.vers"]))

    def test_paths_of_files(self):
        bits = vers.RsVec("1011")
        with tempfile.TemporaryDirectory() as folder:
            path, link = os.path.join(folder, "list.vers"), os.path.join(folder, "link")
            bits.save(os.fsencode(path))
            self.assertEqual((vers.RsVec.load(os.fsencode(path)), os.listdir(folder)), (bits, ["list.vers"]))
            self.assertEqual(len(parts.Bits(parts.Renewed(ThreadPoolExecutor), [os.fsencode(path)])), 4)
            os.chmod(path, 0o640)
            os.symlink(path, link)
            vers.RsVec("01").save(link)
            self.assertEqual((vers.RsVec.load(path).tolist(), os.path.islink(link)), ([0, 1], True))
            self.assertEqual(stat.S_IMODE(os.stat(path).st_mode), 0o640)
            with open(os.path.join(folder, "plain"), "wb"):
                bits.save(os.path.join(folder, "other"))
            self.assertEqual(*(os.stat(os.path.join(folder, it)).st_mode for it in ("plain", "other")))

    @unittest.skipUnless(os.path.exists("/proc/self/fd"), "open files aren't there")
    def test_files_reach_the_disk(self):
        with tempfile.TemporaryDirectory() as folder, mock.patch.object(os, "fsync", wraps=os.fsync) as synced:
            before = os.listdir("/proc/self/fd")
            vers.RsVec("1").save(os.path.join(folder, "list.vers"))
            # the file, and the folder, which has its name
            self.assertEqual((synced.call_count, os.listdir("/proc/self/fd")), (2, before))

    def test_files_that_cannot_be_written(self):
        bits = vers.RsVec("1011")
        with self.assertRaises(FileNotFoundError):
            bits.save("")
        with tempfile.TemporaryDirectory() as folder:
            path, room = os.path.join(folder, "list.vers"), os.path.join(folder, "room")
            os.mkdir(room)
            bits.save(path)
            absent, link = os.path.join(folder, "absent", "list.vers"), os.path.join(room, "link")
            os.symlink(absent, link)
            for wrong, kind in ((room, IsADirectoryError), (absent, FileNotFoundError), (link, FileNotFoundError),
                                (path + "/x", NotADirectoryError)):
                with self.assertRaises(kind) as raised:
                    bits.save(wrong)
                self.assertEqual((raised.exception.filename, raised.exception.filename2), (wrong, None))
            with mock.patch.object(os, "fsync", side_effect=OSError(errno.ENOSPC, "full")):
                with self.assertRaisesRegex(OSError, f"full: {path!r}$"):
                    vers.RsVec("0").save(path)
            self.assertEqual((vers.RsVec.load(path), sorted(os.listdir(folder))), (bits, ["list.vers", "room"]))

    def test_concurrent_saves(self):
        lists = [vers.EliasFanoVec(range(start, start + 5000)) for start in range(8)]
        with tempfile.TemporaryDirectory() as folder:
            path = os.path.join(folder, "list.vers")
            with ThreadPoolExecutor(8) as pool:
                list(pool.map(lambda it: it.save(path), lists * 4))
            self.assertEqual((vers.EliasFanoVec.load(path) in lists, os.listdir(folder)), (True, ["list.vers"]))

    def test_no_memory(self):
        for length in 1 << 60, vers.NONE:
            with self.assertRaisesRegex(vers.NoMemory, f"^there is no memory for {length} bits$"):
                vers.BitVec.from_zeros(length)

    def test_interrupt(self):
        libc, mutex = ctypes.CDLL(None), ctypes.create_string_buffer(64)
        entered, interrupted, owner = threading.Event(), threading.Event(), mock.Mock(_at=0)
        libc.pthread_mutex_lock(mutex)
        # a shell starts what runs in the background with this signal ignored
        self.addCleanup(signal.signal, signal.SIGINT, signal.signal(signal.SIGINT, signal.default_int_handler))

        def build(*_):
            """Takes as long as the mutex is locked, and can't be interrupted."""
            entered.set()
            return libc.pthread_mutex_lock(mutex)

        def signals():
            entered.wait()
            os.kill(os.getpid(), signal.SIGINT)
            was_interrupted.append(interrupted.wait(20))
            libc.pthread_mutex_unlock(mutex)

        was_interrupted = []
        thread = threading.Thread(target=signals)
        thread.start()
        with self.assertRaises(KeyboardInterrupt):
            _library.built(build, (_buffers.Held(0, _buffers.CHUNK + 1, None),), owner)
        interrupted.set()
        thread.join()
        self.assertEqual(was_interrupted, [True])

    def test_other_threads_run(self):
        text, documents = vers.TextIndex(bytes(300_000), 1), vers.Postings(range(2_000_000))
        for call in (lambda: text.places([0]), lambda: documents.intersect(documents)):
            thread, turns = threading.Thread(target=call), 0
            thread.start()
            while thread.is_alive():
                time.sleep(0.0001)
                turns += 1
            self.assertGreater(turns, 10)

    def test_long_builds(self):
        numbers = range(_buffers.CHUNK + 1)
        with mock.patch.object(threading.Thread, "start", side_effect=RuntimeError("can't start new thread")):
            self.assertEqual(len(vers.EliasFanoVec(numbers)), len(numbers))
        self.assertEqual(vers.EliasFanoVec(numbers)[-1], _buffers.CHUNK)
        with self.assertRaisesRegex(vers.Refused, "^the numbers descend at position 65537"):
            vers.EliasFanoVec([*numbers, 5])
        self.assertEqual(_bases.NONE, vers.NONE)


if __name__ == "__main__":
    unittest.main()
