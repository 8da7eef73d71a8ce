"""Compares the classes of vers with plain Python. VERS_LIBRARY names the shared library, if it isn't in the package."""

import bisect
import copy
import ctypes
import operator
import os
import pickle
import random
import re
import subprocess
import sys
import threading
import unittest
from array import array

import vers
from vers import _codes, _faults, _library

try:
    import numpy
except ImportError:
    numpy = None

RANDOM = random.Random(5)


def random_bits(count):
    return [RANDOM.randrange(2) for _ in range(count)]


def words_of(bits):
    return array("Q", [sum(b << k for k, b in enumerate(bits[i:i + 64])) for i in range(0, len(bits), 64)])


class Lists(unittest.TestCase):
    def test_bits(self):
        for count in (0, 1, 63, 64, 65, 1000):
            bits = random_bits(count)
            ones = [i for i, b in enumerate(bits) if b]
            zeros = [i for i, b in enumerate(bits) if not b]
            for made in (vers.RsVec(bits), vers.RsVec(tuple(bits)), vers.RsVec.from_words(words_of(bits), count)):
                self.assertEqual((len(made), list(made)), (count, bits))
                self.assertEqual([made.rank1(i) for i in range(count + 2)], [sum(bits[:i]) for i in range(count + 2)])
                self.assertEqual([made.select1(k) for k in range(len(ones) + 1)], [*ones, count])
                self.assertEqual([made.select0(k) for k in range(len(zeros) + 1)], [*zeros, count])
                self.assertEqual((list(made.iter1()), list(made.iter0())), (ones, zeros))
                self.assertEqual((made.rank0(count), made.zeros(), made.ones()), (len(zeros), len(zeros), len(ones)))
                for position in (0, 1, count // 2, count, vers.NONE):
                    self.assertEqual(made.successor1(position), next((it for it in ones if it > position), None))
                    self.assertEqual(made.successor0(position), next((it for it in zeros if it > position), None))
                    self.assertEqual(made.predecessor1(position), max((it for it in ones if it < position), default=None))
                    self.assertEqual(made.predecessor0(position), max((it for it in zeros if it < position), default=None))
                self.assertEqual(made.get_bits(0, 3), bits[0] + 2 * bits[1] + 4 * bits[2] if count > 2 else None)
                self.assertGreaterEqual(made.heap_size(), count // 8)
        # positions are asked by 4096
        self.assertEqual(list(vers.RsVec([1] * 5000).iter1()), list(range(5000)))

    def test_places(self):
        bits = random_bits(100)
        made = vers.RsVec(bits)
        self.assertEqual((made[0], made[-1], made[-100]), (bits[0], bits[-1], bits[0]))
        for part in (slice(None), slice(10, 20), slice(-5, None), slice(None, None, -3), slice(50, 10)):
            self.assertEqual(made[part].tolist(), bits[part])
        for position in (100, -101, 1 << 64):
            with self.assertRaises(IndexError):
                made[position]
        self.assertIsNone(made.get(100))
        self.assertEqual(1 in made, True)
        with self.assertRaises(OverflowError):
            made.rank1(-1)
        with self.assertRaises(OverflowError):
            made.rank1(1 << 64)
        with self.assertRaises(TypeError):
            made.rank1(1.5)

    def test_bit_vec(self):
        made, plain = vers.BitVec(), []
        for k in range(200):
            made.append(k % 3 == 0)
            plain.append(int(k % 3 == 0))
        made.append_bits(5, 3)
        made.extend([1, 1, 0] * 30)
        made[1] = True
        made[-2] = 0
        made.drop_last(1)
        plain += [1, 0, 1] + [1, 1, 0] * 30
        plain[1], plain[-2] = 1, 0
        plain.pop()
        self.assertEqual(list(made), plain)
        self.assertEqual(list(vers.BitVec.from_words([5], 3)), [1, 0, 1])
        with self.assertRaises(vers.Refused):
            made.append_bits(0, 65)
        with self.assertRaises(IndexError):
            made[len(made)] = True
        other = copy.copy(made)
        other.append(1)
        self.assertEqual((list(made), list(other)), (plain, plain + [1]))

    def test_bit_vec_of_zeros(self):
        for count in (0, 1, 63, 64, 65, 1000, 64 * 4096 + 70):
            made = vers.BitVec.from_zeros(count)
            self.assertEqual((len(made), made.count_ones(), made), (count, 0, vers.BitVec([0] * count)))
            plain = [0] * count
            for position in RANDOM.sample(range(count), count // 3):
                made.flip(position)
                plain[position] = 1
            self.assertEqual((list(made), made.count_ones(), made.count(0)), (plain, sum(plain), count - sum(plain)))
        made = vers.BitVec([1, 0, 1])
        made.flip(0)
        made.flip(-2)
        self.assertEqual((list(made), made.count_ones(), made.count(True), made.count(2)), ([0, 1, 1], 2, 2, 0))
        for position in (3, -4, vers.NONE):
            with self.assertRaises(IndexError):
                made.flip(position)
        with self.assertRaisesRegex(OverflowError, "^the length is -1"):
            vers.BitVec.from_zeros(-1)

    def test_sparse(self):
        for count in (0, 1, 100):
            ones = sorted(RANDOM.sample(range(2000), count))
            bits = [int(i in ones) for i in range(2000)]
            made = vers.SparseRSVec(ones, 2000)
            self.assertEqual(list(made), bits)
            self.assertEqual([made.select1(k) for k in range(count + 1)], [*ones, 2000])
            self.assertEqual([made.rank1(i) for i in range(0, 2001, 7)], [sum(bits[:i]) for i in range(0, 2001, 7)])
            self.assertEqual((made.rank0(2000), list(made.iter1())), (2000 - count, ones))
        for ones, length in (([3, 3], 10), ([2, 10], 10)):
            with self.assertRaises(vers.Refused):
                vers.SparseRSVec(ones, length)

    def test_sorted(self):
        for most, count in ((1 << 40, 500), (300, 500), (1, 0)):
            numbers = sorted(RANDOM.randrange(most) for _ in range(count))
            made = vers.EliasFanoVec(numbers)
            self.assertEqual(list(made), numbers)
            for v in [RANDOM.randrange(most) for _ in range(300)] + numbers[:100]:
                low, high = bisect.bisect_left(numbers, v), bisect.bisect_right(numbers, v)
                self.assertEqual(made.rank(v), low)
                self.assertEqual(made.successor(v), numbers[low] if low < count else None)
                self.assertEqual(made.predecessor(v), numbers[high - 1] if high else None)
                self.assertEqual(v in made, v in numbers)
            self.assertEqual([made.delta(i) for i in range(count)], [b - a for a, b in zip([0, *numbers], numbers)])
        self.assertFalse(-1 in made or "text" in made)
        with self.assertRaises(vers.Refused) as caught:
            vers.EliasFanoVec([2, 1])
        self.assertIsInstance(caught.exception, ValueError)
        self.assertIsInstance(caught.exception, vers.VersError)

    def test_symbols(self):
        symbols = [RANDOM.randrange(16) for _ in range(300)]
        made = vers.WaveletMatrix(symbols, 4)
        self.assertEqual((list(made), made.bits_per_element()), (symbols, 4))
        for _ in range(300):
            a, b = sorted(RANDOM.randrange(301) for _ in range(2))
            c, k = RANDOM.randrange(16), RANDOM.randrange(40)
            part = sorted(symbols[a:b])
            places = [i for i, s in enumerate(symbols) if s == c]
            late = [i for i in places if i >= a]
            self.assertEqual(made.rank(a, c), symbols[:a].count(c))
            self.assertEqual(made.rank_range(a, b, c), part.count(c) if a < 300 else None)
            self.assertEqual(made.select(k, c), places[k] if k < len(places) else None)
            self.assertEqual(made.select_offset(a, k, c), late[k] if k < len(late) else None)
            self.assertEqual(made.quantile(a, b, k), part[k] if k < len(part) else None)
            self.assertEqual(made.range_min(a, b), min(part, default=None))
            self.assertEqual(made.range_max(a, b), max(part, default=None))
            self.assertEqual(made.range_median(a, b), part[(len(part) - 1) // 2] if part else None)
            self.assertEqual(made.predecessor(a, b, c), max((n for n in part if n <= c), default=None))
            self.assertEqual(made.successor(a, b, c), min((n for n in part if n >= c), default=None))
        for width in (65, 1 << 40):
            with self.assertRaises(vers.Refused):
                vers.WaveletMatrix(symbols, width)

    def test_minima(self):
        values = [RANDOM.randrange(40) for _ in range(300)]
        for kind in (vers.FastRmq, vers.BinaryRmq):
            made = kind(values)
            self.assertEqual(list(made), values)
            for _ in range(200):
                a, b = sorted(RANDOM.randrange(300) for _ in range(2))
                self.assertEqual(made.range_min(a, b), min(range(a, b + 1), key=lambda position: values[position]))
            self.assertIsNone(made.range_min(3, 300))
            self.assertIsNone(made.range_min(3, 2))

    def test_tree(self):
        made = vers.BpTree("((()())(()))()")
        self.assertTrue(made.is_balanced())
        self.assertEqual((len(made), made.size(), made.root()), (14, 7, 0))
        self.assertEqual((made.is_open(0), made.is_open(13), made.is_open(14)), (True, False, None))
        self.assertEqual([made.parent(n) for n in (0, 1, 2, 4, 7, 8, 12)], [None, 0, 1, 1, 0, 7, None])
        self.assertEqual([made.subtree_size(n) for n in (0, 1, 12)], [6, 3, 1])
        self.assertEqual([made.excess(i) for i in range(5)], [1, 2, 3, 2, 3])
        self.assertEqual((list(made.children(0)), list(made.dfs_iter())), ([1, 7], [0, 1, 2, 4, 7, 8, 12]))
        self.assertEqual((made.last_child(0), made.previous_sibling(7), made.first_child(2)), (7, 1, None))
        self.assertEqual((made.close(0), made.open(11), made.enclose(4)), (11, 0, 1))
        self.assertEqual((made.fwd_search(0, -1), made.bwd_search(11, -1)), (11, 0))
        self.assertEqual((made.fwd_search(0, -(1 << 63)), made.bwd_search(11, (1 << 63) - 1)), (None, None))
        for rise in (-(1 << 63) - 1, 1 << 63):
            self.assertRaisesRegex(OverflowError, f"^the rise is {rise}", made.fwd_search, 0, rise)
        self.assertEqual((made.depth(8), made.node_index(8), made.node_handle(5)), (2, 5, 8))
        self.assertEqual((made.level_next(4), made.level_prev(8), made.level_ancestor(8, 2)), (8, 4, 0))
        self.assertEqual((made.level_leftmost(2), made.level_rightmost(2), made.level_leftmost(3)), (2, 8, None))
        self.assertEqual((made.is_leaf(2), made.is_leaf(1), made.is_ancestor(0, 8)), (True, False, True))
        self.assertEqual([made.has_node(position) for position in (2, 3, 14)], [True, False, False])
        with self.assertRaises(vers.Refused):
            made.parent(3)
        other = vers.BpTree([0, 1])
        self.assertEqual((other.excess(0), other.is_balanced()), (-1, False))
        self.assertEqual(len(vers.BpTree.from_words([1], 2)), 2)
        with self.assertRaises(ValueError):
            vers.BpTree("(x)")

    def test_postings(self):
        documents = sorted(RANDOM.sample(range(1000), 300))
        costs = [RANDOM.randrange(40) for _ in range(300)]
        made = vers.Postings(documents, costs)
        for _ in range(200):
            a, b = sorted(RANDOM.randrange(1000) for _ in range(2))
            inside = [k for k, d in enumerate(documents) if a <= d <= b]
            best = min(inside, key=lambda k: costs[k], default=None)
            low = bisect.bisect_left(documents, a)
            self.assertEqual(made.cheapest(a, b), None if best is None else documents[best])
            self.assertEqual((a in made, made.rank(a)), (a in documents, low))
            self.assertEqual(made.next_at_least(a), documents[low] if low < 300 else None)
        others = sorted(RANDOM.sample(range(1000), 300))
        other = vers.Postings(others, others)
        self.assertEqual(list(made.intersect(other)), sorted(set(documents) & set(others)))
        self.assertEqual(list(made.intersect(made)), documents)
        third = vers.Postings(range(0, 1000, 3))
        self.assertEqual(third, vers.Postings(range(0, 1000, 3), [0] * 334))
        self.assertEqual(list(made.intersect(other, third)), sorted({*documents} & {*others} & {*range(0, 1000, 3)}))
        with self.assertRaises(vers.Refused):
            vers.Postings([1, 1], [0, 0])
        with self.assertRaises(vers.Refused):
            vers.Postings([1, 2], [0])

    def test_sets(self):
        for size in 0, 1, 300:
            one, other = (sorted(RANDOM.choices(range(400), k=size)) for _ in range(2))
            lists = vers.EliasFanoVec(one), vers.EliasFanoVec(other)
            for combine in operator.and_, operator.or_, operator.sub:
                found = combine(*lists)
                self.assertIsInstance(found, vers.EliasFanoVec)
                self.assertEqual(found.tolist(), sorted(combine(set(one), set(other))))
                self.assertEqual(combine(lists[0], lists[0]).tolist(), sorted(combine(set(one), set(one))))
        with self.assertRaises(TypeError):
            lists[0] & [1]
        with self.assertRaises(TypeError):
            lists[0] | vers.Postings([1])

    def test_inverted_index(self):
        lists = {term: sorted(RANDOM.sample(range(90), size)) for term, size in ((0, 40), (1, 0), (2, 90), (3, 7))}
        pairs = [(term, document) for term, documents in lists.items() for document in documents]
        index = vers.InvertedIndex(*zip(*pairs), 5, 100)
        self.assertEqual((len(index), index.terms(), index.universe()), (137, 5, 100))
        self.assertEqual((index.tolist(), index.pair_number(0)), (pairs, pairs[0][1]))
        self.assertEqual([it.typecode for it in index.pairs()], ["Q", "q"])
        for term in range(6):
            plain = lists.get(term, [])
            self.assertEqual((index.count(term), list(index.documents(term))), (len(plain), plain))
            self.assertEqual([index.get(term, k) for k in range(len(plain) + 1)], [*plain, None])
            low = [bisect.bisect_left(plain, d) for d in range(102)]
            self.assertEqual(index.rank(term, range(102)).tolist(), low)
            self.assertEqual(index.contains(term, range(102)), [d in plain for d in range(102)])
            self.assertEqual(index.next_at_least(term, range(102)), [([*plain, None])[k] for k in low])
            for other in range(6):
                one, two = set(plain), set(lists.get(other, []))
                self.assertEqual(list(index.intersection(term, other)), sorted(one & two))
                self.assertEqual(list(index.union(term, other)), sorted(one | two))
                self.assertEqual(list(index.difference(term, other)), sorted(one - two))
                for more in [(0,), (3, 2), (9, 0, 3)]:
                    sets = [set(lists.get(it, [])) for it in more]
                    for name in "intersection", "union", "difference":
                        found = getattr(index, name)(term, other, *more)
                        self.assertIsInstance(found, vers.PlainNumbers)
                        self.assertEqual(list(found), sorted(getattr(one, name)(two, *sets)))
        for name in "intersection", "union", "difference":
            self.assertEqual(list(getattr(index, name)(3)), lists[3])
            with self.assertRaises(TypeError):
                getattr(index, name)()
        self.assertEqual(index.count([0, 1, 2, 9]).tolist(), [40, 0, 90, 0])
        with self.assertRaisesRegex(OverflowError, "^the term is -1"):
            index.intersection(0, 2, -1)
        both = vers.Postings(index.documents(0)) & vers.Postings(index.documents(3))
        self.assertEqual(list(both), sorted({*lists[0]} & {*lists[3]}))

    def test_inverted_indexes_as_objects(self):
        index = vers.InvertedIndex([0, 0, 2], [3, 7, 3])
        self.assertEqual((index.terms(), index.universe()), (3, 8))
        self.assertEqual(repr(index), "<vers.InvertedIndex of 3 pairs: [(0, 3), (0, 7), (2, 3)]>")
        again = pickle.loads(pickle.dumps(index))
        self.assertEqual((again, hash(again), again.tolist()), (index, hash(index), index.tolist()))
        for other in ([0, 0, 2], [3, 7, 3], 4), ([0, 0, 2], [3, 7, 3], 3, 9), ([0, 0, 2], [3, 7, 4], 3, 8):
            self.assertNotEqual(index, vers.InvertedIndex(*other))
        # the numbers of the first term's pairs don't depend on the limit of documents
        self.assertNotEqual(vers.InvertedIndex([0], [3], 1, 8), vers.InvertedIndex([0], [3], 1, 9))
        empty = vers.InvertedIndex([], [])
        self.assertEqual((len(empty), empty.terms(), empty.tolist(), list(empty.union(0, 1))), (0, 0, [], []))
        for text, arguments in (
            ("^2 terms with 1 document$", ([0, 1], [2])), ("product of the limits", ([], [], 1 << 32, 1 << 32)),
            ("term at position 1 is 4", ([0, 4], [2, 2], 4)), ("document at position 0 is 9", ([0], [9], 1, 9)),
            (r"^the pair at position 1 is \(0, 1\), after \(1, 0\): sort by term, then", ([1, 0], [0, 1])),
            (r"^the pair at position 2 is \(1, 2\), after \(1, 2\): .* without repeats$", ([0, 1, 1], [4, 2, 2])),
        ):
            with self.assertRaisesRegex(vers.Refused, text):
                vers.InvertedIndex(*arguments)
        saved = index.to_bytes()
        self.assertEqual(vers.InvertedIndex.from_bytes(saved), index)
        with self.assertRaises(vers.TooShort):
            vers.InvertedIndex.from_bytes(saved[:-1])

    def test_sets_of_documents(self):
        for sizes in ((300, 300), (300, 3), (0, 40), (40, 0), (0, 0), (1000, 1000)):
            one, other = (dict(zip(sorted(RANDOM.sample(range(1000), size)), RANDOM.choices(range(9), k=size)))
                          for size in sizes)
            lists = [vers.Postings(list(it), list(it.values())) for it in (one, other)]
            self.compare(lists[0] & lists[1], {it: one[it] for it in sorted(one.keys() & other.keys())})
            self.compare(lists[0] - lists[1], {it: one[it] for it in sorted(one.keys() - other.keys())})
            self.compare(lists[0] | lists[1], dict(sorted({**other, **one}.items())))
        for combined in (operator.and_, operator.sub, operator.or_):
            with self.assertRaises(TypeError):
                combined(lists[0], [1])

    def compare(self, postings, costs):
        """Compares documents and costs with those of a dict."""
        self.assertEqual(postings, vers.Postings(list(costs), list(costs.values())))
        self.assertEqual((list(postings), postings.cost(range(len(costs)))), (list(costs), list(costs.values())))


class Batches(unittest.TestCase):
    def test_kinds_of_buffers(self):
        bits = random_bits(1000)
        made, wanted = vers.RsVec(bits), [sum(bits[:i]) for i in range(200)]
        places = range(200)
        kinds = [list(places), tuple(places), places, bytes(places), memoryview(array("I", places)), array("q", places)]
        for numbers in [*kinds, array("Q", places), memoryview(array("Q", places))[::1]]:
            got = made.each("rank1", numbers)
            self.assertEqual((got.typecode, got.tolist()), ("q", wanted))
        self.assertEqual(made.each("rank1", memoryview(array("Q", places))[::2]).tolist(), wanted[::2])
        self.assertEqual(made.each("rank1", []).tolist(), [])

    def test_left_as_it_was(self):
        made, places = vers.RsVec([1, 0, 1]), array("Q", [0, 1, 2])
        self.assertEqual(made.each("select1", places).tolist(), [0, 2, 3])
        self.assertEqual(places.tolist(), [0, 1, 2])

    def test_no_answer(self):
        made = vers.EliasFanoVec([3, 5])
        self.assertEqual(made.each("predecessor", [2, 4], other=7).tolist(), [7, 3])
        self.assertEqual(made.each("get", [0, 2]).tolist(), [3, None])
        self.assertEqual(made.each("get", [2], other=vers.NONE).tolist(), [vers.NONE])
        greatest = vers.EliasFanoVec([3, vers.NONE])
        self.assertEqual(greatest.each("get", [1, 2, 0, 1]).tolist(), [vers.NONE, None, 3, vers.NONE])
        self.assertEqual(greatest.each("successor", [2, vers.NONE]).tolist(), [3, vers.NONE])
        for other, kind in ((1 << 63) - 1, "q"), (1 << 63, "Q"):
            found = made.each("successor", [9], other=other)
            self.assertEqual((found.typecode, found.tolist()), (kind, [other]))
        with self.assertRaisesRegex(OverflowError, "^other is 18446744073709551616"):
            made.each("get", [2], other=vers.NONE + 1)
        with self.assertRaisesRegex(OverflowError, "^other is 18446744073709551615, and signed"):
            vers.BpTree("()").each("parent", [0], other=vers.NONE)

    def test_rows(self):
        symbols = [RANDOM.randrange(16) for _ in range(300)]
        made = vers.WaveletMatrix(symbols, 4)
        ends = list(range(300))
        self.assertEqual(made.each("rank", ends, 3).tolist(), [made.rank(end, 3) for end in ends])
        self.assertEqual(made.each("rank", ends, symbols).tolist(), [made.rank(end, s) for end, s in zip(ends, symbols)])
        self.assertEqual(made.each("quantile", 0, 300, ends).tolist(), sorted(symbols))
        self.assertEqual(made.each("rank", 300, range(16)).tolist(), [symbols.count(s) for s in range(16)])
        with self.assertRaisesRegex(ValueError, "^the arrays differ in length: 1 and 2$"):
            made.each("rank", [1, 2], [3])

    def test_tree(self):
        made = vers.BpTree([0, 1, 1])
        answers = made.each("excess", [0, 1, 2])
        self.assertEqual((answers.typecode, answers.tolist()), ("q", [-1, 0, 1]))

    def test_faults(self):
        made = vers.RsVec([1])
        with self.assertRaises(vers.Unknown):
            made.each("quantile", [1])
        with self.assertRaises(TypeError):
            made.each("rank1", 1)
        with self.assertRaises(TypeError):
            made.each("rank1", [1], 2)
        with self.assertRaises(OverflowError):
            made.each("rank1", [-1])
        with self.assertRaises(TypeError):
            made.each("rank1", ["text"])

    @unittest.skipIf(numpy is None, "numpy isn't there")
    def test_numpy(self):
        bits = numpy.array(random_bits(1000))
        sums = numpy.concatenate([[0], numpy.cumsum(bits)]).astype(numpy.uint64)
        words = numpy.array(words_of(bits.tolist()))
        for made in (vers.RsVec(bits), vers.RsVec(bits.astype(bool)), vers.RsVec.from_words(words, 1000)):
            got = made.each("rank1", numpy.arange(1001))
            self.assertEqual(got.dtype, numpy.int64)
            self.assertTrue((got == sums).all())
        self.assertEqual((made.rank1(numpy.int64(1000)), made[numpy.uint8(3)]), (sums[1000], bits[3]))
        self.assertIn(numpy.int32(5), vers.EliasFanoVec([5]))
        places = numpy.arange(1000, dtype=numpy.uint16).reshape(10, 100)
        self.assertTrue((made.each("get", places) == bits.reshape(10, 100)).all())
        self.assertTrue((made.each("get", places[:, ::7]) == bits.reshape(10, 100)[:, ::7]).all())
        symbols = numpy.array([3, 1, 3, 2])
        matrix = vers.WaveletMatrix(symbols, 2)
        self.assertEqual(matrix.each("rank", 4, numpy.arange(4)).tolist(), [0, 1, 1, 2])
        self.assertEqual(matrix.each("quantile", numpy.array([0, 1]), 4, numpy.array([0, 2])).tolist(), [1, 3])
        self.assertEqual(vers.BpTree("()").each("excess", numpy.array([0, 1])).tolist(), [1, 0])
        self.assertEqual(made.each("get", numpy.array([], dtype=numpy.uint64)).shape, (0,))
        with self.assertRaises(OverflowError):
            made.each("get", numpy.array([-1]))
        with self.assertRaises(TypeError):
            made.each("get", numpy.array([1.5]))


class Owners(unittest.TestCase):
    def test_copies(self):
        lists = [
            vers.RsVec([1, 0]), vers.SparseRSVec([1], 2), vers.EliasFanoVec([1]), vers.WaveletMatrix([1], 1),
            vers.FastRmq([4]), vers.BinaryRmq([4]), vers.BpTree("()"), vers.Postings([1], [2]), vers.BitVec([1]),
        ]
        for made in lists:
            for other in (copy.copy(made), copy.deepcopy(made)):
                self.assertEqual((type(other), len(other)), (type(made), len(made)))
            length = len(made)
            del made
            self.assertEqual(len(other), length)

    def test_shared(self):
        made = vers.BitVec([1, 0, 1])
        handles = _library.Handle(), _library.Handle()
        other, empty = map(ctypes.addressof, handles)
        _library.done(_library.clone(made._at, other))
        with self.assertRaises(vers.Shared):
            made.append(1)
        with self.assertRaises(vers.Occupied):
            _library.done(_library.clone(made._at, other))
        _library.free(other)
        with self.assertRaises(vers.Vacant):
            _library.done(_library.clone(other, empty))
        made.append(1)
        self.assertEqual(list(made), [1, 0, 1, 1])
        owner = vers.BitVec._made(_library.clone_of, made)
        # only a refusal says why
        with self.assertRaisesRegex(vers.Shared, "^the list is being read by another thread"):
            made.append_bits(1, 1)
        del owner
        made.append(0)
        self.assertEqual(list(made), [1, 0, 1, 1, 0])

    def test_names_of_faults(self):
        for kind, _ in _faults.FAULTS:
            status = getattr(_codes, re.sub("(?<=[a-zA])(?=[A-Z])", "_", kind.__name__).upper())
            self.assertEqual((type(_faults.fault(status)), getattr(vers, kind.__name__)), (kind, kind))
        self.assertEqual(_codes.NOT_A_TEXT, len(_faults.FAULTS) + 1)
        self.assertTrue(issubclass(vers.NoMemory, MemoryError) and issubclass(vers.NoMemory, vers.VersError))

    def test_saved_forms(self):
        lists = [
            vers.RsVec([1, 0, 1]), vers.SparseRSVec([1], 2), vers.EliasFanoVec([1, 1, 9]), vers.WaveletMatrix([1, 0, 5], 3),
            vers.FastRmq([4, 2]), vers.BinaryRmq([4, 2]), vers.BitVec([1, 0]),
        ]
        for made in lists:
            for other in (pickle.loads(pickle.dumps(made)), type(made).from_bytes(memoryview(made.to_bytes()))):
                self.assertEqual((type(other), list(other)), (type(made), list(made)))
            with self.assertRaises(vers.TooShort):
                type(made).from_bytes(made.to_bytes()[:-1])
        # (the bytes that releases up to 0.18 saved, and pickled)
        packed = bytes.fromhex(
            "776f6c74736a656d0100000000000000030000000000000003000000000000000300000000000000"
            "4101000000000000e938ac22f41685a0"
        )
        symbols = vers.WaveletMatrix.from_bytes(packed)
        self.assertEqual((list(symbols), len(symbols.to_bytes())), ([1, 0, 5], 72))
        tree = vers.BpTree("(()())")
        self.assertEqual(len(tree.to_bytes()), 56)
        for other in (pickle.loads(pickle.dumps(tree)), vers.BpTree.from_bytes(tree.to_bytes())):
            self.assertEqual((list(other.children(0)), len(other)), ([1, 3], 6))
        postings = vers.Postings([1, 4, 9], [3, 1, 2])
        for other in (pickle.loads(pickle.dumps(postings)), vers.Postings.from_bytes(postings.to_bytes())):
            self.assertEqual((list(other.intersect(postings)), other.cheapest(0, 9)), ([1, 4, 9], 4))
            self.assertEqual((list(other), other[-1], other.cost(2), other.cost(3)), ([1, 4, 9], 9, 2, None))
        text = vers.TextIndex([7, 65535, 0, 7], 16)
        for numbers in (postings.intersect(postings), text.places([9]), text.places([7]), text.extract(0, 4),
                        vers.TextIndex([3, 3], 2).extract(0, 2)):
            again = pickle.loads(pickle.dumps(numbers))
            self.assertEqual((type(again), list(again)), (vers.PlainNumbers, list(numbers)))
        last = vers.TextIndex(b"a" * 65540, 8).first_places(b"a", 5)
        self.assertEqual(list(pickle.loads(pickle.dumps(last))), [65539, 65538, 65537, 65536, 65535])
        with self.assertRaises(TypeError):
            vers.PlainNumbers.from_bytes(b"")

    def test_texts_of_symbols(self):
        plain = b"abracadabra" * 5
        text = vers.TextIndex(plain, 8, 4)
        self.assertEqual((len(text), text.bits_per_symbol(), text.step()), (55, 8, 4))
        self.assertEqual(repr(text), "<vers.TextIndex of 55 symbols: [97, 98, 114, 97, 99, 97, 100, 97, ...]>")
        for pattern in (b"", b"a", b"abra", b"raa", b"x", plain, plain + b"a"):
            places = [position for position in range(len(plain) + 1) if plain.startswith(pattern, position)]
            self.assertEqual((text.count(pattern), list(text.places(pattern)), pattern in text),
                             (len(places), places, bool(places)))
            order = sorted(places, key=lambda position: plain[position:])
            for limit in (0, 1, 3, vers.NONE):
                self.assertEqual(list(text.first_places(pattern, limit)), order[:limit])
        self.assertEqual(bytes(text.extract(3, 11)), plain[3:11])
        self.assertEqual(text.count([ord("a"), 1 << 60]), 0)
        patterns = [RANDOM.choices(b"abcdr", k=RANDOM.randrange(4)) for _ in range(200)] + [[], [300], plain]
        counts = [sum(list(plain[k:k + len(it)]) == list(it) for k in range(56)) for it in patterns]
        self.assertEqual(text.count_each(patterns), array("q", counts))
        self.assertEqual(text.count_each(map(bytes, patterns[:200])), array("q", counts[:200]))
        self.assertEqual(text.count_each([bytes(it) for it in patterns[:200]]), array("q", counts[:200]))
        self.assertEqual((text.count_each([]), text.count_each([]).typecode), (array("q"), "q"))
        self.assertGreater(copy.copy(text).heap_size(), 55)
        for wrong in (lambda: text.extract(5, 56), lambda: text.extract(2, 1), lambda: vers.TextIndex([4], 2),
                      lambda: vers.TextIndex([], 0), lambda: vers.TextIndex([0], 17), lambda: vers.TextIndex([0], 1, 0)):
            with self.assertRaises(vers.Refused):
                wrong()

    def test_texts_as_lists(self):
        plain = bytes(RANDOM.choices(range(256), k=5000))
        text = vers.TextIndex(plain, 8, 7)
        again = pickle.loads(pickle.dumps(text))
        self.assertEqual((again, again.step(), again.count(plain[70:72])), (text, 7, plain.count(plain[70:72])))
        symbols = vers.WaveletMatrix(plain, 8).to_bytes()
        self.assertEqual((vers.TextIndex.from_bytes(symbols), vers.TextIndex.from_bytes(symbols, 5).step()), (text, 5))
        self.assertEqual((bytes(text), text[0], text[-1], text[4999]), (plain, plain[0], plain[-1], plain[4999]))
        for _ in range(100):
            ends = [RANDOM.choice([None, RANDOM.randrange(-6000, 6000)]) for _ in range(2)]
            part = slice(*ends, RANDOM.choice([None, 1, 2, 700, -1, -3]))
            self.assertEqual(text[part].tolist(), list(plain[part]))
        for position in (5000, -5001):
            with self.assertRaises(IndexError):
                text[position]
        with self.assertRaisesRegex(vers.OtherKind, "^the bytes are the saved form of BitVec or RsVec, and not of TextI"):
            vers.TextIndex.from_bytes(vers.RsVec("01").to_bytes())
        empty = pickle.loads(pickle.dumps(vers.TextIndex(b"", 3)))
        self.assertEqual((len(empty), list(empty), empty.bits_per_symbol()), (0, [], 3))

    def test_faults_of_saved_forms(self):
        saved = vers.RsVec([0, 1, 1, 0]).to_bytes()
        faults = {
            vers.TooShort: saved[:-1], vers.NotOurs: b"x" + saved[1:], vers.OtherVersion: saved[:8] + b"x" + saved[9:],
            vers.OtherKind: vers.EliasFanoVec([1]).to_bytes(), vers.BadLength: saved + b"x",
            vers.BadSum: saved[:40] + b"x" + saved[41:],
        }
        for kind, wrong in faults.items():
            with self.assertRaises(kind):
                vers.RsVec.from_bytes(wrong)
        self.assertTrue(all(issubclass(kind, vers.Refused) for kind in faults))
        with self.assertRaisesRegex(vers.TooShort, "^the bytes are fewer than a saved form has, or than its head says$"):
            vers.RsVec.from_bytes(b"")

    def test_faults_speak_without_docstrings(self):
        program = "import vers\ntry: vers.RsVec.from_bytes(b'')\nexcept vers.TooShort as fault: print(fault)"
        done = subprocess.run([sys.executable, "-OO", "-c", program], stdout=subprocess.PIPE, text=True,
                              env={**os.environ, "PYTHONPATH": os.pathsep.join(sys.path)})
        self.assertEqual(done.stdout, "the bytes are fewer than a saved form has, or than its head says\n")

    def test_kinds_of_saved_forms(self):
        index = vers.InvertedIndex([0], [1])
        lists = [
            vers.BitVec("1"), vers.RsVec("1"), vers.SparseRSVec([1], 2), vers.EliasFanoVec([1]), vers.BpTree("()"), index,
            vers.WaveletMatrix([1], 1), vers.FastRmq([4]), vers.BinaryRmq([4]), vers.Postings([1]), vers.TextIndex([1], 1),
        ]
        for made in lists:
            name, reader = type(made).__name__, vers.Postings if made is index else vers.InvertedIndex
            with self.assertRaisesRegex(vers.OtherKind, rf"^the bytes are .* of .*\b{name}\b.*and not of {reader.__name__}$"):
                reader.from_bytes(made.to_bytes())

    def test_worked_form(self):
        # the worked file of docs/FORMAT.md
        words = [0x6D656A73746C6F77, 1, 1, 1, 4, 6, 0xF51457DEABF505E5]
        saved = b"".join(word.to_bytes(8, "little") for word in words)
        self.assertEqual(vers.RsVec([0, 1, 1, 0]).to_bytes(), saved)
        self.assertEqual(list(vers.RsVec.from_bytes(saved)), [0, 1, 1, 0])
        for bit in range(8 * len(saved)):
            wrong = bytearray(saved)
            wrong[bit // 8] ^= 1 << bit % 8
            with self.assertRaises(vers.Refused):
                vers.RsVec.from_bytes(wrong)

    def test_texts(self):
        self.assertEqual(repr(vers.RsVec([1, 0])), "<vers.RsVec of 2 bits: [1, 0]>")
        self.assertEqual(repr(vers.FastRmq(range(8))), "<vers.FastRmq of 8 values: [0, 1, 2, 3, 4, 5, 6, 7]>")
        self.assertEqual(repr(vers.FastRmq(range(9))), "<vers.FastRmq of 9 values: [0, 1, 2, 3, 4, 5, 6, 7, ...]>")
        self.assertEqual(repr(vers.BpTree("()")), "<vers.BpTree of 2 parentheses: ()>")
        self.assertEqual(repr(vers.BpTree("(())" * 3)), "<vers.BpTree of 12 parentheses: (())(())...>")
        self.assertEqual(repr(vers.BitVec()), "<vers.BitVec of 0 bits: []>")
        with self.assertRaises(TypeError):
            vers.PlainNumbers()

    def test_threads(self):
        made, faults = vers.RsVec.from_words([0x5555555555555555] * 1000), []
        growing = vers.BitVec([1] * 100)

        def read():
            for _ in range(5):
                got = made.each("rank1", range(64001))
                if got != array("Q", [(i + 1) // 2 for i in range(64001)]) or made.rank1(10) != 5:
                    faults.append("rank1")
                if growing.each("get", range(100)).tolist() != [1] * 100:
                    faults.append("get")

        threads = [threading.Thread(target=read) for _ in range(4)]
        for thread in threads:
            thread.start()
        for thread in threads:
            thread.join()
        self.assertEqual(faults, [])
        growing.append(1)
        self.assertEqual(len(growing), 101)


if __name__ == "__main__":
    unittest.main()
