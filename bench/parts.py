#!/usr/bin/env python3
"""Prints a Markdown table of the times and the peak memory of `vers.parts` on processes: each kind of list in 4, 16 and
64 parts, on 1, 2 and 4 workers.

    python3 bench/parts.py                          2^24 elements of a list, and 2^30 bits
    python3 bench/parts.py 20000 --queries 1000     some ten seconds
    python3 bench/parts.py 20000 --kinds texts      one kind alone

VERS_LIBRARY names the shared library, such as bindings/c/target/release/libvers.so.

- "open": the workers start, load the parts and return their facts. A worker of a text makes its indexes too.
- "first": one query of an array, in a text one of each of 8 patterns. A worker loads those of its parts that another
  one had loaded. "next": the same again, the least of three times.
- "caller" and "worker": the peak memory of the process that asks, and of its largest worker.

Each row has processes of its own. All rows of a kind and a number of parts give the same answers, or the script fails.
"""
import argparse
import multiprocessing
import os
import random
import resource
import sys
import tempfile
import time
from array import array
from concurrent.futures import ProcessPoolExecutor
from itertools import accumulate

TOP = os.path.dirname(os.path.dirname(os.path.abspath(__file__)))
sys.path.insert(0, os.path.join(TOP, "bindings", "python"))
import vers
from vers import parts

WORKERS, PARTS = (1, 2, 4), (4, 16, 64)
KINDS = ("bits", "sorted", "symbols", "texts")
OVERLAP, PATTERNS = 15, 8
# workers begin without the memory of the process that asks
SPAWNED = multiprocessing.get_context("spawn")


def random_bytes(count, seed):
    """Returns random bytes, which are the same for the same seed."""
    return random.Random(seed).getrandbits(8 * count).to_bytes(count, "little") if count else b""


def bases(count, part):
    """Returns the symbols of a part of a text, of 2 bits."""
    return random_bytes(count, f"text {part}").translate(bytes(it % 4 for it in range(256)))


def made(kind, count, part, is_last):
    """Returns the list of a part."""
    if kind == "bits":
        return vers.RsVec.from_words(array("Q", random_bytes(8 * count, part)))
    if kind == "sorted":
        return vers.EliasFanoVec(array("Q", accumulate(random_bytes(count, part), initial=256 * count * part))[1:])
    if kind == "symbols":
        return vers.WaveletMatrix(random_bytes(count, part), 8)
    following = b"" if is_last else bases(count, part + 1)[:OVERLAP]
    return vers.WaveletMatrix(bases(count, part) + following, 2)


def save_parts(folder, kind, size, count):
    """Saves a list in parts."""
    for part in range(count):
        parts.save(os.path.join(folder, f"{part}.vers"), made(kind, size // count, part, part == count - 1))


def opened(kind, engine, paths):
    """Returns a list in parts."""
    if kind == "texts":
        return parts.Texts(engine, paths, OVERLAP)
    return {"bits": parts.Bits, "sorted": parts.Sorted, "symbols": parts.Symbols}[kind](engine, paths)


def asked(kind, whole, queries):
    """Returns the answers of a list in parts to as many queries."""
    draw = random.Random(1)
    if kind == "texts":
        patterns = [bytes(draw.choices(range(4), k=10)) for _ in range(PATTERNS)]
        return [whole.count(it) for it in patterns]
    bound = 256 * len(whole) if kind == "sorted" else len(whole)
    numbers = [draw.randrange(bound) for _ in range(queries)]
    if kind == "bits":
        return whole.rank1(numbers)
    return whole.successor(numbers) if kind == "sorted" else whole.rank(numbers, 7)


def timed(call):
    """Returns what a call returns, and its seconds."""
    start = time.perf_counter()
    answer = call()
    return answer, time.perf_counter() - start


def peak(who):
    """Returns the peak memory of this process or of the largest one that it has waited for, in MB."""
    return resource.getrusage(who).ru_maxrss / 1024


def measured(folder, kind, workers, count, queries):
    """Returns the answers of a list on as many workers, the times in seconds, and the memory in MB."""
    paths = [os.path.join(folder, f"{part}.vers") for part in range(count)]
    with ProcessPoolExecutor(workers, SPAWNED) as engine:
        whole, opening = timed(lambda: opened(kind, engine, paths))
        (answers, first), *others = [timed(lambda: asked(kind, whole, queries)) for _ in range(4)]
        again = min(it for _, it in others)
    return answers, (opening, first, again), (peak(resource.RUSAGE_SELF), peak(resource.RUSAGE_CHILDREN))


def in_process(function, *arguments):
    """Returns what a process of its own returns of a function."""
    with ProcessPoolExecutor(1, SPAWNED) as engine:
        return engine.submit(function, *arguments).result()


def print_rows(kind, size, queries):
    """Prints the rows of a kind."""
    for count in PARTS:
        with tempfile.TemporaryDirectory() as folder:
            in_process(save_parts, folder, kind, size, count)
            saved = sum(it.stat().st_size for it in os.scandir(folder)) / 2**20
            rows = [in_process(measured, folder, kind, workers, count, queries) for workers in WORKERS]
        for workers, (answers, times, memory) in zip(WORKERS, rows):
            if answers != rows[0][0]:
                sys.exit(f"{workers} workers answer otherwise than one")
            shown = [f"{it:.3f}" for it in times] + [f"{it:.0f}" for it in memory]
            print("|", " | ".join([f"`{kind}`, {saved:.1f} MB", str(count), str(workers), *shown]), "|", flush=True)


def main():
    """Prints the table."""
    reader = argparse.ArgumentParser(description=__doc__, formatter_class=argparse.RawDescriptionHelpFormatter)
    reader.add_argument("size", nargs="?", type=int, default=1 << 24, help="elements; bits are 64 times as many")
    reader.add_argument("--kinds", nargs="+", default=KINDS, choices=KINDS)
    reader.add_argument("--queries", type=int, default=10_000, help="numbers in the array of a query")
    options = reader.parse_args()
    print("| kind, saved | parts | workers | open, s | first, s | next, s | caller, MB | worker, MB |")
    print("|---|---:|---:|---:|---:|---:|---:|---:|")
    for kind in options.kinds:
        print_rows(kind, options.size, options.queries)
    print(f"\nA process with the package alone takes {in_process(peak, resource.RUSAGE_SELF):.0f} MB.")


if __name__ == "__main__":
    main()
