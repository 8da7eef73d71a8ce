#!/usr/bin/env python3
"""Runs the benchmark of this library and that of the crate vers-vecs, and prints their times and ratios as a table.

`--plain` adds three columns: the crate of plain Rust as it is and with the feature `unchecked`, under the driver of the
original, and the C library that cargo builds, under the driver in `from_c/`. A table gives the geometric means over the
queries of each structure.

The original's driver is built by cargo. This library's is `crates/vers_bench`, which `tools/proofs.py vers_bench`
proves and builds. The runs are interleaved: in each pass each structure is run by the one and by the other, and the
least time of each series counts. Exit status 1 if a checksum differs, so the answers differ.

`--checksums` builds the original's driver alone, runs its small workload, and compares its checksums with the stored
run of `crates/vers_bench`, so it needs no Rattle toolchain. Series that only one of the two has are listed: the
original has no `postings`, `saved` and `texts`, whose rows have no ratio, and whose checksums `plain.py` computes. Nor
has it batches (`_each_` and a size): their rows are compared with its single calls.

`--instructions` counts, under valgrind's callgrind and with a sixteenth of the sizes, the instructions of one pass over
the queries of each series, with its loop and its checksum. In both drivers such a pass is a function of its own, whose
name ends in `_pass`. With `--times`, the run first takes the times over the same sizes.

`--level` builds the original for newer processors. This library's driver is built for the same by `rt run --cpu=LEVEL`.
"""
import argparse
import itertools
import math
import os
import re
import subprocess
import sys
import tempfile

HERE = os.path.dirname(os.path.abspath(__file__))
TOP = os.path.dirname(HERE)
OWN = os.path.join(TOP, "crates/vers_bench/out/vers_bench")
STORED = os.path.join(TOP, "crates/vers_bench/stdout")
PROJECT, PLAIN = os.path.join(HERE, "original"), os.path.join(TOP, "rust")
STRUCTURES = ("bits", "walks", "list", "sorted", "sparse", "wavelet", "rmq", "tree", "postings", "batches", "saved")
# Lines that are no queries: their operations begin so.
NO_QUERIES = ("build", "copy", "heap_", "load", "save")
LEVELS = ("x86-64-v2", "x86-64-v3", "x86-64-v4", "native")


def built_original(folder, level, target="target", features=()):
    """Builds the original's driver for a level of processors, with the crate's sources in `folder` if one is given, and
    returns its path."""
    command = ["cargo", "build", "--release", "--quiet", "--target-dir", target]
    command += [f"--features={it}" for it in features]
    if folder:
        command += ["--offline", "--config", f'patch.crates-io.vers-vecs.path="{os.path.abspath(folder)}"']
    flags = {"RUSTFLAGS": f"-C target-cpu={level} --cap-lints allow"}
    built = subprocess.run(command, cwd=PROJECT, env={**os.environ, **flags}, check=False)
    if built.returncode:
        hint = "" if folder else "; without a network, name a folder with vers-vecs 1.10.2 by --original FOLDER"
        sys.exit(f"cargo could not build the original's driver{hint}")
    return os.path.join(PROJECT, target, "release/bench_original")


def built_from_c(level):
    """Builds the C library by cargo and the driver over it, both for a level of processors, and returns the driver's
    path."""
    library, program = os.path.join(TOP, "bindings/c"), os.path.join(PROJECT, "target/from_c")
    flags = {"RUSTFLAGS": f"-C target-cpu={level}"}
    subprocess.run(["cargo", "build", "--release", "--quiet", "--offline", "--target-dir", program], cwd=library,
                   env={**os.environ, **flags}, check=True)
    sources = [os.path.join(HERE, "from_c/queries.cpp"), os.path.join(program, "release/libvers.a")]
    command = ["g++", "-std=c++17", "-O3", f"-march={level}", f"-I{library}", *sources, "-lpthread", "-ldl", "-lm"]
    subprocess.run([*command, "-o", os.path.join(program, "queries")], check=True)
    return os.path.join(program, "queries")


def output_of(command):
    return subprocess.run(command, check=True, capture_output=True, text=True, stdin=subprocess.DEVNULL).stdout


def of_single(name):
    """Returns the name of the series whose queries are asked one by one, which is this one if it's of no batches."""
    return re.sub(r"_each_\d+", "", name)


def compare_checksums(command):
    """Prints where the checksums that a driver prints differ from the stored run, and returns whether any does."""
    with open(STORED, encoding="utf-8") as file:
        stored = file.read()
    lines = [dict(line.rsplit("\t", 1) for line in text.splitlines()) for text in (stored, output_of(command))]
    here, there = lines
    there.update({it: there[of_single(it)] for it in here if of_single(it) in there})
    for series in [it for it in here if it not in there]:
        print("only here:", series.replace("\t", " "))
    for series in [it for it in there if it not in here]:
        print("only in the original:", series.replace("\t", " "))
    common = [it for it in here if it in there]
    differing = [it for it in common if here[it] != there[it]]
    for series in differing:
        print("differs:", series.replace("\t", " "), here[series], there[series])
    print(f"{len(common) - len(differing)} checksums are equal, {len(differing)} differ")
    return bool(differing)


def short(value):
    return f"{value:.3g}" if value < 100 else f"{value:.0f}"


class Series:
    """The least value of each driver for one series, and the checksums."""

    def __init__(self):
        self.values, self.checksums = {}, {}

    def note(self, driver, value, checksum):
        self.values[driver] = min(value, self.values.get(driver, value))
        self.checksums[driver] = checksum

    def differs(self):
        return len(set(self.checksums.values())) > 1

    def ratio(self, one, other):
        """Returns the ratio of two drivers' values, or None if one of them is missing."""
        return self.values[one] / self.values[other] if self.values.get(other) and one in self.values else None

    def row(self, name, drivers, ratios):
        cells = ["" if it is None else short(it) for it in map(self.values.get, drivers)]
        cells += ["" if it is None else f"{it:.2f}" for it in (self.ratio(*pair) for pair in ratios)]
        return "| " + " | ".join([*name, *cells[:-1], cells[-1] + (" differs" if self.differs() else "")]) + " |"


def means(found, ratios):
    """Yields a row for each structure: the geometric mean of each ratio over its queries, and the greatest one."""
    for structure in dict.fromkeys(name[0] for name in found):
        cells = []
        for pair in ratios:
            known = [it.ratio(*pair) for name, it in found.items()
                     if name[0] == structure and not name[1].startswith(NO_QUERIES)]
            known = [it for it in known if it]
            cells.append(f"{math.exp(sum(map(math.log, known)) / len(known)):.2f} ({max(known):.2f})" if known else "")
        yield f"| {structure} | " + " | ".join(cells) + " |"


def measured(drivers, structures, passes, options):
    """Runs all passes and returns the series by (structure, operation, data), each with its values by the names that
    its lines begin with."""
    found = {}
    for number in range(1, passes + 1):
        for structure in structures:
            print(f"pass {number} of {passes}: {structure}", file=sys.stderr)
            for driver, program in drivers.items():
                for line in output_of([program, driver, structure, *options]).splitlines():
                    column, *name, value, checksum = line.split("\t")
                    found.setdefault(tuple(name), Series()).note(column, float(value), checksum)
    return beside_singles(found)


def beside_singles(found):
    """Puts single calls of the original, which has no batches, beside each batch that it is asked the same by."""
    for (structure, operation, data), series in found.items():
        single = found.get((structure, of_single(operation), data))
        if single and "original" in single.values:
            series.note("original", single.values["original"], single.checksums["original"])
    return found


def counts_of(path):
    """Yields the instructions of each profile of a pass, in the order in which they were written: PATH.1, PATH.2 and so
    on.

    A function whose name only looks like that of a pass leaves a profile with no instructions.
    """
    for number in itertools.count(1):
        if not os.path.exists(f"{path}.{number}"):
            return
        with open(f"{path}.{number}", encoding="utf-8") as file:
            count = int(re.search(r"(?m)^totals: (\d+)", file.read())[1])
        if count:
            yield count


def instructions_of(program, driver, structure):
    """Yields (what the line begins with, series, instructions, checksum) for each pass of a structure, in the order of
    the lines."""
    with tempfile.TemporaryDirectory() as folder:
        path = os.path.join(folder, "profile")
        command = [
            "valgrind", "--tool=callgrind", "--collect-atstart=no", "--toggle-collect=*_pass*", "--dump-after=*pass*",
            f"--callgrind-out-file={path}", program, driver, structure, "--small", "--reps", "1",
        ]
        lines = [line.split("\t") for line in output_of(command).splitlines()]
        counts = list(counts_of(path))
    passes = [line for line in lines if not line[2].startswith(NO_QUERIES)]
    if len(counts) != len(passes):
        sys.exit(f"{driver}, {structure}: {len(passes)} passes were printed, and {len(counts)} were counted")
    for (column, *name, _, checksum), count in zip(passes, counts):
        yield column, tuple(name), count, checksum


def counted(drivers, structures):
    """Returns the series by (structure, operation, data), with the instructions of a pass."""
    found = {}
    for structure in structures:
        print(f"counting: {structure}", file=sys.stderr)
        for driver, program in drivers.items():
            for column, name, count, checksum in instructions_of(program, driver, structure):
                found.setdefault(name, Series()).note(column, count, checksum)
    return beside_singles(found)


def print_tables(found, drivers, ratios, what):
    """Prints a row for each series, the means of each structure, and what the values are, and returns how many
    checksums differ."""
    heads = [*drivers, *("/".join(it) for it in ratios)]
    print(f"| structure | operation | data | {' | '.join(heads)} |\n|---|---|---|{'---:|' * len(heads)}")
    print("\n".join(series.row(name, drivers, ratios) for name, series in found.items()))
    print(f"\n| queries of | {' | '.join(heads[len(drivers):])} |\n|---|{'---:|' * len(ratios)}")
    print("\n".join(means(found, ratios)))
    differing = sum(series.differs() for series in found.values())
    print(f"\n{what}. {differing} checksums differ. In parentheses: the greatest ratio of a series.\n", flush=True)
    return differing


def main():
    parser = argparse.ArgumentParser(description=__doc__, formatter_class=argparse.RawDescriptionHelpFormatter)
    parser.add_argument("structures", nargs="*", metavar="STRUCTURE",
                        help=f"of {', '.join(STRUCTURES)}; all if none is named")
    parser.add_argument("--checksums", action="store_true", help="compare checksums with the stored run, and no times")
    parser.add_argument("--instructions", action="store_true",
                        help="count instructions under valgrind instead of times")
    parser.add_argument("--times", action="store_true", help="with --instructions: take times too, over the same sizes")
    parser.add_argument("--program",
                        help="a built driver of the original, such as one for another processor")
    parser.add_argument("--under", default="", metavar="COMMAND", help="the command that runs it, as an emulator")
    parser.add_argument("--plain", action="store_true",
                        help="run the crate of plain Rust too, as it is, unchecked, and from C")
    parser.add_argument("--passes", type=int, default=3, help="how often each structure is run by each (3)")
    parser.add_argument("--reps", type=int, default=5, help="how often a run repeats a series, for the median (5)")
    parser.add_argument("--small", action="store_true", help="a sixteenth of the sizes")
    parser.add_argument("--original", metavar="FOLDER",
                        help="the sources of vers-vecs 1.10.2, instead of those of crates.io")
    parser.add_argument("--level", choices=LEVELS, default=LEVELS[0],
                        help="what processors the original is built for (%(default)s)")
    asked = parser.parse_args()
    unknown = set(asked.structures) - set(STRUCTURES)
    if unknown:
        parser.error(f"no structure {', '.join(sorted(unknown))}")
    if not asked.checksums and not asked.plain and not os.path.exists(OWN):
        sys.exit(f"{os.path.relpath(OWN)} is missing: run `python3 tools/proofs.py vers_bench` first")
    original = asked.program or built_original(asked.original, asked.level)
    if asked.checksums:
        sys.exit(compare_checksums([*asked.under.split(), asked.program or original]))
    drivers, structures = {"here": OWN, "original": original}, asked.structures or STRUCTURES
    if not os.path.exists(OWN):
        print("without the program of this library, which is not built", file=sys.stderr)
        del drivers["here"]
    ratios = [("here", "original")]
    if asked.plain:
        for name, features in (("plain", ()), ("unchecked", ("vers-vecs/unchecked",))):
            drivers[name] = built_original(PLAIN, asked.level, f"target/{name}", features)
        drivers["from C"] = built_from_c(asked.level)
        ratios += [("plain", "here"), ("unchecked", "here")]
        ratios += [(it, "original") for it in ("plain", "unchecked", "from C")]
    ratios = [it for it in ratios if set(it) <= set(drivers)]
    options = ["--reps", str(asked.reps), *(["--small"] if asked.small or asked.instructions else [])]
    differing = 0
    if asked.times or not asked.instructions:
        found = measured(drivers, structures, max(asked.passes, 1), options)
        what = "Nanoseconds an operation, builds an item; rows `heap_` are sizes"
        differing += print_tables(found, drivers, ratios, what)
    if asked.instructions:
        differing += print_tables(counted(drivers, structures), drivers, ratios, "Instructions of a pass")
    sys.exit(differing > 0)


if __name__ == "__main__":
    main()
