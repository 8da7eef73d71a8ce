"""The time of a query: by a single call, in a batch of `each`, and by numpy on the plain array. Needs numpy.

    python3 speed.py [ITEMS] [QUERIES]       # a table in nanoseconds a query, at best of five
"""

import bisect
import operator
import sys
import time
from concurrent.futures import ThreadPoolExecutor

import numpy
import vers


def best(call, count):
    """The nanoseconds that one of `count` queries takes, at best of five runs."""
    took = []
    for _ in range(5):
        start = time.perf_counter()
        call()
        took.append(time.perf_counter() - start)
    return f"{1e9 * min(took) / count:.0f}"


def row(name, single, by_numpy, *numbers):
    """A row of the table: of a query, and of what numpy does. Their answers are compared first."""

    def many():
        return single.__self__.each(single.__name__, *numbers)

    some = list(zip(*(it[:10_000].tolist() for it in numbers)))
    assert many().tolist()[:10_000] == [single(*it) for it in some], name
    assert (by_numpy(*numbers) == many()).all(), name
    count = len(numbers[0])
    times = best(lambda: [single(*it) for it in some], len(some)), best(many, count)
    print("|", " | ".join([name, *times, best(lambda: by_numpy(*numbers), count)]), "|", flush=True)


def ranges_of(random, items, count):
    """The starts and the ends of random ranges of a tenth of all items."""
    starts = random.integers(0, items - items // 10, count).astype(numpy.uint64)
    return starts, starts + numpy.uint64(items // 10)


def of_ranges(call):
    """What a call answers to each range."""
    return lambda starts, ends: numpy.array([call(a, b) for a, b in zip(starts.tolist(), ends.tolist())])


def range_rows(random, elements, symbols, matrix):
    """The rows of queries of ranges, which numpy reads item by item."""
    starts, ends = ranges_of(random, len(symbols), 1_000)
    row("`WaveletMatrix.range_median` of a tenth of the items; `partition`", matrix.range_median,
        of_ranges(lambda a, b: numpy.partition(symbols[a:b], (b - a - 1) // 2)[(b - a - 1) // 2]), starts, ends)
    values = random.permutation(elements)
    row("`FastRmq.range_min` of a tenth of the items; `argmin`", vers.FastRmq(values).range_min,
        of_ranges(lambda a, b: a + values[a:b + 1].argmin()), starts, ends - numpy.uint64(1))


def set_rows(random, items):
    """The rows of sets of two lists of numbers."""
    one, other = (numpy.unique(random.integers(0, 16 * items, items)) for _ in range(2))
    lists = vers.EliasFanoVec(one), vers.EliasFanoVec(other)
    for combine, by_numpy in ((operator.and_, numpy.intersect1d), (operator.or_, numpy.union1d),
                              (operator.sub, numpy.setdiff1d)):
        assert (numpy.asarray(combine(*lists)) == by_numpy(one, other)).all()
        times = best(lambda: combine(*lists), len(one)), best(lambda: by_numpy(one, other), len(one))
        print(f"| `{combine.__name__}` of two `EliasFanoVec`, an element; `{by_numpy.__name__}` | |", " | ".join(times), "|")


def main(items=1_000_000, queries=1_000_000):
    """Prints the table."""
    random = numpy.random.default_rng(1)
    print("| query | single call | of an array | numpy |\n|---|---:|---:|---:|")

    flags = random.integers(0, 2, items)
    bits = vers.RsVec(flags)
    sums, ones = numpy.concatenate([[0], numpy.cumsum(flags)]), numpy.flatnonzero(flags)
    places = random.integers(0, items, queries).astype(numpy.uint64)
    numbers = random.integers(0, len(ones), queries).astype(numpy.uint64)
    row("`RsVec.rank1`; `cumsum`, by index", bits.rank1, lambda it: sums[it], places)
    row("`RsVec.select1`; `flatnonzero`, by index", bits.select1, lambda it: ones[it], numbers)

    elements = numpy.sort(random.integers(0, 100 * items, items)).astype(numpy.uint64)
    plain, asked = elements.tolist(), random.integers(0, 100 * items, queries).astype(numpy.uint64)
    listed = vers.EliasFanoVec(elements)
    assert listed.rank(int(asked[0])) == bisect.bisect_left(plain, int(asked[0]))
    row("`EliasFanoVec.rank`; `searchsorted`", listed.rank, lambda it: numpy.searchsorted(elements, it), asked)

    past = numpy.concatenate([elements, [elements[-1]]])
    row("`EliasFanoVec.successor`; by `searchsorted`", listed.successor, lambda it: past[numpy.searchsorted(elements, it)],
        numpy.minimum(asked, elements[-1]))

    symbols = random.integers(0, 256, items).astype(numpy.uint64)
    matrix = vers.WaveletMatrix(symbols, 8)
    row("`WaveletMatrix.get`; by index", matrix.get, lambda it: symbols[it], places)

    range_rows(random, elements, symbols, matrix)
    set_rows(random, items)

    with ThreadPoolExecutor(2) as pool:
        taken = [best(lambda: list(pool.map(matrix.get, [places] * count)), count * queries) for count in (1, 2)]
    print(f"\n`WaveletMatrix.get` of arrays takes {taken[0]} on one thread, and {taken[1]} on two at once")

    plainly = sums.nbytes + ones.nbytes, elements.nbytes, symbols.nbytes
    print(f"\nBytes: {bits.heap_size()}, {listed.heap_size()} and {matrix.heap_size()}; in numpy {plainly}")


if __name__ == "__main__":
    main(*(int(it) for it in sys.argv[1:]))
