"""Compares lists in parts with plain lists: on threads, on processes and on Dask, and after a worker is killed."""

import bisect
import functools
import importlib.util
import multiprocessing
import os
import pathlib
import pickle
import random
import signal
import sys
import tempfile
import threading
import unittest
from collections import Counter
from concurrent.futures import BrokenExecutor, ProcessPoolExecutor, ThreadPoolExecutor

import vers
from vers import parts

RANDOM = random.Random(11)


class Counting:
    """An engine in this process, which counts what it is asked."""

    def __init__(self):
        self.asked = []

    def map(self, function, *columns):
        rows = list(zip(*columns))
        self.asked.append(len(rows))
        return [function(*row) for row in rows]

    def spent(self, query):
        """How many parts each round of a query asks."""
        self.asked = []
        query()
        return self.asked


def some_cuts(length, count):
    """Where some parts of a list begin and end. Some are empty."""
    return [0, *sorted(RANDOM.choices(range(length + 1), k=count - 1)), length]


def even_cuts(length, size):
    """The same for parts of a size."""
    return [*range(0, length, size), length]


def saved(folder, lists):
    """The paths of the saved forms of lists."""
    paths = [os.path.join(tempfile.mkdtemp(dir=folder), f"{k}.vers") for k in range(len(lists))]
    for path, made in zip(paths, lists):
        parts.save(path, made)
    return paths


def sliced(items, cuts):
    """The items between each two cuts."""
    return [items[start:end] for start, end in zip(cuts, cuts[1:])]


def asked_of_all(call, numbers):
    """The answers to an array of numbers, which are the single ones too."""
    answers = call(numbers)
    for k in RANDOM.sample(range(len(numbers)), 2):
        assert call(numbers[k]) == answers[k], "a single query has another answer"
    return answers


# Each of these saves a random list in parts, and returns a function that compares all queries with the plain list.


def bits_case(engine, folder, cuts):
    items = [int(RANDOM.random() < 0.4) for _ in range(cuts[-1])]
    whole = parts.Bits(engine, saved(folder, map_list(vers.RsVec, sliced(items, cuts))))
    places = [[k for k, it in enumerate(items) if it == bit] for bit in (0, 1)]
    numbers = list(range(len(items) + 3))

    def compare(test):
        test.assertEqual((len(whole), whole.ones(), whole.zeros()), (len(items), sum(items), len(places[0])))
        test.assertEqual(asked_of_all(whole.get, numbers), [*items, None, None, None])
        for bit, rank, select in ((0, whole.rank0, whole.select0), (1, whole.rank1, whole.select1)):
            test.assertEqual(asked_of_all(rank, numbers), [items[:end].count(bit) for end in numbers])
            found = [*places[bit], *[len(items)] * len(numbers)]
            test.assertEqual(asked_of_all(select, numbers), found[:len(numbers)])
    return compare


def sorted_case(engine, folder, cuts):
    items = sorted(RANDOM.randrange(2 * cuts[-1] + 1) for _ in range(cuts[-1]))
    whole = parts.Sorted(engine, saved(folder, map_list(vers.EliasFanoVec, sliced(items, cuts))))
    numbers = list(range(2 * len(items) + 3))
    ranks = [bisect.bisect_left(items, it) for it in numbers]

    def compare(test):
        test.assertEqual(len(whole), len(items))
        test.assertEqual(asked_of_all(whole.get, numbers), [dict(enumerate(items)).get(it) for it in numbers])
        test.assertEqual(asked_of_all(whole.rank, numbers), ranks)
        test.assertEqual(asked_of_all(whole.has, numbers), [it in items for it in numbers])
        test.assertEqual(asked_of_all(whole.successor, numbers), [dict(enumerate(items)).get(it) for it in ranks])
        found = [max((element for element in items if element <= it), default=None) for it in numbers]
        test.assertEqual(asked_of_all(whole.predecessor, numbers), found)
    return compare


def postings_case(engine, folder, cuts):
    wholes, lists = [], []
    for some in (cuts, even_cuts(cuts[-1], 3)):
        items = sorted(RANDOM.sample(range(2 * cuts[-1]), cuts[-1]))
        made = [vers.Postings(it, it) for it in sliced(items, some)]
        wholes.append(parts.Postings(engine, saved(folder, made)))
        lists.append(items)
    (whole, other), (items, others), numbers = wholes, lists, list(range(2 * cuts[-1] + 3))

    def compare(test):
        test.assertEqual(asked_of_all(whole.get, numbers), [dict(enumerate(items)).get(it) for it in numbers])
        test.assertEqual(asked_of_all(whole.rank, numbers), [bisect.bisect_left(items, it) for it in numbers])
        test.assertEqual(asked_of_all(whole.contains, numbers), [it in items for it in numbers])
        found = [next((document for document in items if document >= it), None) for it in numbers]
        test.assertEqual(asked_of_all(whole.next_at_least, numbers), found)
        both = [it for it in items if it in others]
        test.assertEqual((whole.intersect(other), other.intersect(whole)), (both, both))
        test.assertEqual(whole.intersect(whole), items)
    return compare


def symbols_case(engine, folder, cuts):
    width = RANDOM.choice([1, 3, 5, 8, 64])
    alphabet = [RANDOM.randrange(1 << width) for _ in range(4)] + [0, (1 << width) - 1]
    items = RANDOM.choices(alphabet, k=cuts[-1])
    made = [vers.WaveletMatrix(it, width) for it in sliced(items, cuts)]
    whole, numbers = parts.Symbols(engine, saved(folder, made)), list(range(len(items) + 3))

    def compare(test):
        test.assertEqual(asked_of_all(whole.get, numbers), [*items, None, None, None])
        for symbol in RANDOM.sample(alphabet, 2):
            ranks = [items[:end].count(symbol) if end <= len(items) else None for end in numbers]
            test.assertEqual(asked_of_all(functools.partial(whole.rank, symbol=symbol), numbers), ranks)
            test.assertEqual(whole.count(symbol), items.count(symbol))
            places = [k for k, it in enumerate(items) if it == symbol] + [None] * len(numbers)
            found = asked_of_all(functools.partial(whole.select, symbol=symbol), numbers)
            test.assertEqual(found, places[:len(numbers)])
        for _ in range(8):
            start, end, number = (RANDOM.randrange(len(items) + 2) for _ in range(3))
            is_range = start <= end <= len(items)
            of_range = items[start:end] if is_range else []
            count = of_range.count(symbol) if is_range and start < len(items) else None
            test.assertEqual(whole.rank_range(start, end, symbol), count)
            number = number % (len(of_range) + 1)
            found = sorted(of_range)[number] if number < len(of_range) else None
            test.assertEqual(whole.quantile(start, end, number), found)
    return compare


def texts_case(engine, folder, cuts):
    overlap, width = RANDOM.randrange(6), RANDOM.choice([2, 8, 16])
    text = RANDOM.choices(range(RANDOM.randrange(1, 4)), k=cuts[-1])
    made = [RANDOM.choice([vers.WaveletMatrix, vers.TextIndex])(text[start:end + overlap], width)
            for start, end in zip(cuts, cuts[1:])]
    # documents begin anywhere, two of them at one position, and the first one not always at 0
    begins = sorted(RANDOM.choices(range(len(text) + 1), k=1 + len(text) // 6))
    of_parts = [[it - start for it in begins if start <= it < end + overlap] for start, end in zip(cuts, cuts[1:])]
    documents = saved(folder, map_list(vers.EliasFanoVec, of_parts))
    whole = parts.Texts(engine, saved(folder, made), overlap, 2, documents)

    def compare(test):
        test.assertEqual(len(whole), len(text))
        for _ in range(8):
            size = RANDOM.randrange(overlap + 2)
            start = RANDOM.randrange(len(text) + 1)
            pattern = (text[start:] + [RANDOM.randrange(4) for _ in range(size)])[:size]
            places = [k for k in range(len(text) - size + 1) if text[k:k + size] == pattern]
            test.assertEqual((whole.places(pattern), whole.count(pattern)), (places, len(places)))
            if pattern:
                first, last = ([bisect.bisect(begins, k + more) - 1 for k in places] for more in (0, size - 1))
                counts = Counter(it for it, other in zip(first, last) if it == other and it >= 0)
                test.assertEqual(list(whole.by_document(pattern).items()), sorted(counts.items()))
        test.assertRaisesRegex(vers.Refused, f"it may have {overlap + 1}$", whole.count, [0] * (overlap + 2))
    return compare


CASES = (bits_case, sorted_case, postings_case, symbols_case, texts_case)


def map_list(make, lists):
    """What a maker makes of each list."""
    return [make(it) for it in lists]


class Tests(unittest.TestCase):
    def setUp(self):
        folder = tempfile.TemporaryDirectory()
        self.addCleanup(folder.cleanup)
        self.folder = folder.name

    def compare_all(self, engine, cuts):
        for case in CASES:
            with self.subTest(case=case.__name__, cuts=cuts):
                case(engine, self.folder, cuts)(self)


class InOneProcess(Tests):
    def test_random_parts(self):
        for _ in range(30):
            self.compare_all(Counting(), some_cuts(RANDOM.randrange(40), RANDOM.randrange(1, 12)))

    def test_sizes_of_parts(self):
        for size in (1, 2, 3, 7, 50):
            self.compare_all(Counting(), even_cuts(50, size))

    def test_no_parts(self):
        self.compare_all(Counting(), [0])

    def test_large_parts(self):
        self.compare_all(Counting(), some_cuts(1000, 5))

    def test_threads(self):
        with ThreadPoolExecutor(4) as engine:
            for _ in range(5):
                self.compare_all(engine, some_cuts(60, 9))

    def test_numbers(self):
        whole = parts.Bits(Counting(), saved(self.folder, [vers.RsVec("10")]))
        self.assertRaises(OverflowError, whole.rank1, -1)
        self.assertRaises(OverflowError, whole.rank1, [1 << 64])
        self.assertRaises(TypeError, whole.get, 1.0)
        self.assertEqual(whole.rank1([]), [])

    def test_one_path(self):
        for path in "0.vers", b"0.vers", pathlib.Path("0.vers"):
            with self.assertRaisesRegex(TypeError, "^the paths of parts are a list, and not one path: .*0.vers.*"):
                parts.Bits(Counting(), path)

    def test_parts_that_do_not_fit(self):
        def refused(fault, text, make, *lists, **more):
            self.assertRaisesRegex(fault, text, make, Counting(), saved(self.folder, lists), **more)
        elements, symbols = vers.EliasFanoVec, vers.WaveletMatrix
        lists = elements([4]), elements([]), elements([3])
        refused(vers.NotAscending, "^part 2 begins with 3 after 4$", parts.Sorted, *lists)
        refused(vers.NotAscending, "^part 1 begins", parts.Postings, *[vers.Postings([4], [0])] * 2)
        refused(vers.Refused, "of 3 and of 4 bits", parts.Symbols, symbols([1], 4), symbols([1], 3))
        refused(vers.OtherKind, "0.vers: the bytes are the saved form of EliasFanoVec, and not of RsVec$", parts.Bits, elements([4]))
        for first in ([1, 2, 4], [3]):
            text = [symbols(first, 4), symbols([3, 4], 4)]
            refused(vers.Refused, "^part 0 does not end with the first 2", parts.Texts, *text, overlap=2)
        refused(vers.Refused, "^there are 1 parts, and 2 of", parts.Texts, symbols([1], 4), overlap=2,
                documents=saved(self.folder, [elements([0])] * 2))
        whole = parts.Texts(Counting(), saved(self.folder, [symbols([1], 4)]), 2)
        self.assertRaisesRegex(vers.Refused, "no documents", whole.by_document, [1])
        self.assertRaisesRegex(vers.Refused, "no symbols", whole.by_document, [])

    def test_replaced_files(self):
        engine = Counting()
        paths = saved(self.folder, [vers.RsVec("10"), vers.RsVec("11")])
        old = parts.Bits(engine, paths)
        # what a process keeps is loaded again too
        part = parts._of_process(paths[1], vers.RsVec.from_bytes)
        self.assertEqual(part.loaded().ones(), 2)
        parts.save(paths[1], vers.RsVec("0111"))
        self.assertEqual(old.rank1(4), 3)
        old._files._parts[1] = part
        self.assertEqual(old.rank1(3), 2)
        new = parts.Bits(engine, paths)
        new._files._parts[1] = part
        self.assertEqual(new.rank1([3, 6]), [1, 4])
        self.assertRaisesRegex(vers.Refused, "1.vers has been replaced$", old.rank1, 3)

    def test_parts_are_sent_by_path(self):
        path, = saved(self.folder, [vers.WaveletMatrix([1] * 10_000, 8)])
        part = parts._loaded(path, vers.TextIndex.from_bytes, 9)
        sent = pickle.dumps(part)
        self.assertLess(len(sent), 500)
        again = pickle.loads(sent)
        self.assertIs(again, pickle.loads(sent))
        self.assertEqual((again.loaded().count([1]), sys.getsizeof(again) > 10_000), (10_000, True))

    def test_kept_parts(self):
        paths = saved(self.folder, [vers.RsVec("10")] * 3)
        self.addCleanup(parts.keep, 1024)
        for most, kept in ((1, [False, True]), (2, [True, True])):
            parts.keep(most)
            made = [parts._of_process(it, vers.RsVec.from_bytes) for it in paths]
            again = [parts._of_process(it, vers.RsVec.from_bytes) for it in reversed(paths)]
            self.assertEqual([it is other for it, other in zip(made[::-1], again)][1::-1], kept)

    def test_one_new_pool_for_two_threads(self):
        made, both = [], threading.Barrier(2)

        class Pool(Counting):
            def map(self, function, *columns):
                if self is made[0]:
                    both.wait()
                    raise BrokenExecutor
                return super().map(function, *columns)

            def shutdown(self, wait=True):
                self.is_shut = True

        def pool():
            made.append(Pool())
            return made[-1]
        with parts.Renewed(pool) as engine, ThreadPoolExecutor(2) as threads:
            answers = list(threads.map(lambda it: engine.map(abs, iter([it])), [-1, -2]))
        self.assertEqual((answers, [it.is_shut for it in made]), ([[1], [2]], [True, True]))

    def test_rounds(self):
        """How many parts of 100 a query asks in each round, as the page says."""
        engine, items = Counting(), list(range(300))
        cuts = even_cuts(300, 3)
        bits = parts.Bits(engine, saved(self.folder, [vers.RsVec("011")] * 100))
        elements = parts.Sorted(engine, saved(self.folder, map_list(vers.EliasFanoVec, sliced(items, cuts))))
        symbols = [vers.WaveletMatrix([it % 256 for it in some], 8) for some in sliced(items, cuts)]
        whole = parts.Symbols(engine, saved(self.folder, symbols))
        documents = [parts.Postings(engine, saved(self.folder, [vers.Postings(it, it) for it in sliced(items, some)]))
                     for some in (cuts, [0, *range(2, 299, 3), 300])]
        text = parts.Texts(engine, saved(self.folder, symbols), 0)
        single = (bits.get, bits.rank1, bits.select0, elements.get, elements.rank, elements.has, elements.successor,
                  elements.predecessor, documents[0].contains, documents[0].next_at_least, whole.get)
        for query in single:
            self.assertEqual(engine.spent(lambda: query(50)), [1])
        rounds = {
            (100,): [lambda: whole.rank(300, 7), lambda: whole.count(7), lambda: text.count([7]),
                     lambda: text.places([7]), lambda: documents[0].intersect(documents[0]),
                     lambda: bits.rank1(range(300)), lambda: whole.rank_range(0, 300, 7)],
            (100, 1): [lambda: whole.select(0, 7)],
            (100, 100): [lambda: whole.quantile(0, 300, 7)],
            (199,): [lambda: documents[0].intersect(documents[1])],
            (17,): [lambda: whole.rank(50, 7)],
        }
        for asked, queries in rounds.items():
            for query in queries:
                self.assertEqual(tuple(engine.spent(query)), asked)


def under_load(test, compares, kill, rounds):
    """Compares in two threads, kills a worker meanwhile, and goes on for some rounds. Returns the faults."""
    faults, begun = [], threading.Barrier(3)

    def load(some):
        has_begun = False
        try:
            some[0](test)
            begun.wait()
            has_begun = True
            for _ in range(rounds):
                for compare in some:
                    compare(test)
        except BaseException as fault:  # which the thread that waits raises
            faults.append(fault)
            if not has_begun:  # otherwise a thread that is slow to leave the barrier would find it broken
                begun.abort()
    threads = [threading.Thread(target=load, args=[some]) for some in (compares, compares[::-1])]
    for it in threads:
        it.start()
    try:
        begun.wait()
        kill()
    finally:
        for it in threads:
            it.join()
    return faults


class OnProcesses(Tests):
    def setUp(self):
        super().setUp()
        self.made = []

    def pool(self):
        self.made.append(ProcessPoolExecutor(2, multiprocessing.get_context("spawn"), parts.keep, (8,)))
        return self.made[-1]

    def kill(self):
        """Kills a process of the last pool."""
        os.kill(min(self.made[-1]._processes), signal.SIGKILL)

    def test_processes(self):
        with self.pool() as engine:
            self.compare_all(engine, some_cuts(60, 7))

    def test_a_killed_process(self):
        with parts.Renewed(self.pool) as engine:
            compares = [case(engine, self.folder, some_cuts(50, 5)) for case in CASES]
            self.assertEqual(under_load(self, compares, self.kill, 3), [])
            self.assertEqual(len(self.made), 2)

    def test_a_killed_process_of_a_plain_pool(self):
        with self.pool() as engine:
            compares = [bits_case(engine, self.folder, some_cuts(50, 5))] * 2
            faults = under_load(self, compares, self.kill, 50)
        self.assertEqual([isinstance(it, BrokenExecutor) for it in faults], [True, True])

    def test_a_process_that_is_killed_again(self):
        with parts.Renewed(self.pool) as engine:
            whole = parts.Bits(engine, saved(self.folder, [vers.RsVec("1"), vers.RsVec("01")]))
            with self.assertRaises(BrokenExecutor):
                engine.map(signal.raise_signal, [signal.SIGKILL])
            self.assertEqual((whole.rank1([1, 3]), len(self.made)), ([1, 2], 3))


@unittest.skipUnless(importlib.util.find_spec("distributed"), "no package distributed")
class OnDask(Tests):
    @classmethod
    def setUpClass(cls):
        from distributed import Client, LocalCluster
        cls.cluster = LocalCluster(n_workers=2, threads_per_worker=1, dashboard_address=None)
        cls.client = Client(cls.cluster)

    @classmethod
    def tearDownClass(cls):
        cls.client.close()
        cls.cluster.close()

    def test_dask(self):
        self.compare_all(self.client, some_cuts(60, 7))
        self.compare_all(self.client, [0])

    def test_a_killed_worker(self):
        compares = [case(self.client, self.folder, some_cuts(50, 5)) for case in CASES]
        before = set(self.client.run(os.getpid).values())
        faults = under_load(self, compares, lambda: os.kill(min(before), signal.SIGKILL), 2)
        self.assertEqual(faults, [])
        self.assertNotIn(min(before), self.client.run(os.getpid).values())

    def test_places(self):
        """The parts are on both workers, each as large as its file."""
        whole = parts.Bits(self.client, saved(self.folder, [vers.RsVec("01" * 9000)] * 20))
        places = self.client.who_has(whole._files._parts).values()
        self.assertNotIn((), places)
        self.assertEqual(len({worker for workers in places for worker in workers}), 2)
        sizes = self.client.nbytes([it.key for it in whole._files._parts], summary=False)
        self.assertEqual((len(sizes), min(sizes.values()) > 2000), (20, True))


if __name__ == "__main__":
    unittest.main()
