"""Quantiles of a sliding window over a column: one structure answers them for windows of every width.

    python3 sliding_quantiles.py [ROWS]      # times beside numpy, if that is there, and a picture
"""

import math
import random
import sys
import time

import vers

try:
    import numpy
except ImportError:
    numpy = None


def timed(what, call):
    """Prints the time of a call, and returns its answer."""
    start = time.perf_counter()
    answer = call()
    print(f"{what}: {1000 * (time.perf_counter() - start):.0f} ms")
    return answer


def main(rows=20_000):
    """Asks for the median and the 90th percentile of each window, compares them, and draws the quantiles of some."""
    draw = random.Random(1)
    values = [350 + int(350 * math.sin(12 * k / rows)) + draw.randrange(300) for k in range(rows)]
    matrix = timed("structure", lambda: vers.WaveletMatrix(values, 10))
    for width in (11, 101):
        starts = range(rows - width + 1)
        ends = range(width, rows + 1)
        for share in (0.5, 0.9):
            number = int(share * (width - 1))
            found = timed(f"quantile {share} of {width} rows", lambda: matrix.quantile(starts, ends, number))
            for start in draw.sample(starts, 100):
                assert found[start] == sorted(values[start:start + width])[number]
            if numpy is not None:
                windows = numpy.lib.stride_tricks.sliding_window_view(numpy.array(values), width)
                same = timed("  by numpy", lambda: numpy.partition(windows, number, axis=1)[:, number])
                assert same.tolist() == found.tolist()
    least, greatest = matrix.range_min(0, 100), matrix.range_max(0, 100)
    assert (least, greatest) == (min(values[:100]), max(values[:100]))
    print("the least and the greatest of the first 100:", least, greatest)
    print("the median of 101 rows, from quantile 0.1 to 0.9:")
    starts = range(0, rows - 100, max(1, rows // 70))
    lines = [matrix.quantile(starts, [it + 101 for it in starts], number) for number in (90, 50, 10)]
    for level in range(900, 0, -75):
        print("".join("*" if level - 75 < middle <= level else "|" if low <= level <= high else " "
                      for high, middle, low in zip(*lines)))


if __name__ == "__main__":
    main(*map(int, sys.argv[1:]))
