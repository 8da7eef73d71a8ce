#!/usr/bin/env python3
"""Compares this library with vers-vecs and sdsl-lite, and prints a table for each structure: the values of each
library, the best in bold.

The columns are this library in Rattle and in plain Rust, as it is and with the feature `unchecked`, vers-vecs,
`WordRank` and `WaveletTree` in plain Rust, and the types of sdsl-lite, under the drivers of `compare.py` and
`sdsl/structures.cpp`. They run in turns, each structure in a process of its own, and the least value of each series
counts. Rows are the series that sdsl-lite answers. Exit status 1 if a checksum differs, so the answers differ.
"""
import argparse
import os
import subprocess
import sys
from collections import namedtuple

import compare

# A table: the structure's name in the lines, its type, and what a size and a build are counted by.
Table = namedtuple("Table", "structure type item")
# The tables of what the drivers call a structure.
TABLES = {
    "bits": [Table("bits", "RsVec", "a bit")],
    "sorted": [Table("sorted", "EliasFanoVec", "an element")],
    "sparse": [Table("sparse", "SparseRSVec", "a one")],
    "wavelet": [Table("wavelet", "WaveletMatrix", "a symbol")],
    "rmq": [Table("rmq_fast", "FastRmq", "an item"), Table("rmq_binary", "BinaryRmq", "an item")],
    "tree": [Table("tree", "BpTree", "a bit")],
}
# The columns of a table's type. The others, of structures that vers-vecs lacks and of sdsl-lite, have the name of
# theirs.
COLUMNS = ("Rattle", "plain Rust", "unchecked", "vers-vecs")


def built_sdsl(level):
    """Builds the driver of sdsl-lite for a level of processors, and returns its path."""
    program = os.path.join(compare.PROJECT, "target/sdsl_structures")
    source = os.path.join(compare.HERE, "sdsl/structures.cpp")
    command = ["g++", "-std=c++17", "-O3", f"-march={level}", "-DNDEBUG", source, "-lsdsl", "-o", program]
    if subprocess.run(command, check=False).returncode:
        sys.exit("g++ could not build the driver of sdsl-lite, which needs Debian's libsdsl-dev")
    return program


def drivers_of(original, level):
    """Builds the drivers and returns their paths by name; without this library's own if that is not built."""
    drivers = {
        "Rattle": compare.OWN,
        "plain Rust": compare.built_original(compare.PLAIN, level, "target/plain", ("own",)),
        "unchecked": compare.built_original(compare.PLAIN, level, "target/unchecked", ("vers-vecs/unchecked",)),
        "vers-vecs": compare.built_original(original, level),
        "sdsl-lite": built_sdsl(level),
    }
    if not os.path.exists(compare.OWN):
        print("without the column Rattle: run `python3 tools/proofs.py vers_bench` for it", file=sys.stderr)
        del drivers["Rattle"]
    return drivers


def head_of(column):
    """Returns the head of a column: the name of a driver, and of a type if it has several."""
    return column if column in COLUMNS else "{} `{}`".format(*column.rsplit(" ", 1))


def label_of(operation, item):
    """Returns the label of a row."""
    labels = {"build": f"build, {item}", "heap_bits_per_item": f"size, bits {item}",
              "heap_overhead_percent": "index, % of the bits"}
    return labels.get(operation, f"`{operation}`")


def row_of(names, series, columns):
    """Returns the row of a series, with its least value in bold."""
    values = {column: compare.short(value) for column, value in series.values.items()}
    best = compare.short(min(series.values.values()))
    cells = (values.get(column, "") for column in columns)
    marked = (f"**{it}**" if it == best else it for it in cells)
    return "|".join(["", *names, *marked, " differs" if series.differs() else ""])


def print_table(table, found):
    """Prints the rows that sdsl-lite has: of each data the queries, then the size and the build."""
    of_table = {name[1:]: it for name, it in found.items() if name[0] == table.structure}
    rows = {name: it for name, it in of_table.items() if any(column.startswith("sdsl-lite") for column in it.values)}
    types = dict.fromkeys(column for it in rows.values() for column in it.values if column not in COLUMNS)
    columns = [it for it in COLUMNS if any(it in series.values for series in rows.values())] + list(types)
    data = list(dict.fromkeys(name[1] for name in rows))
    print(f"### `{table.type}`\n\n|data|operation|{'|'.join(map(head_of, columns))}|")
    print(f"|---|---|{'---:|' * len(columns)}")
    order = lambda it: (data.index(it[1]), it[0].startswith(compare.NO_QUERIES), it[0] == "build")
    for operation, given in sorted(rows, key=order):
        print(row_of((given, label_of(operation, table.item)), rows[operation, given], columns))
    print(flush=True)


def main():
    parser = argparse.ArgumentParser(description=__doc__, formatter_class=argparse.RawDescriptionHelpFormatter)
    parser.add_argument("structures", nargs="*", metavar="STRUCTURE",
                        help=f"of {', '.join(TABLES)}; all if none is named")
    parser.add_argument("--instructions", action="store_true",
                        help="count the instructions of a pass under valgrind, with a sixteenth of the sizes")
    parser.add_argument("--passes", type=int, default=3, help="how often each structure is run by each (3)")
    parser.add_argument("--reps", type=int, default=5, help="how often a run repeats a series, for the median (5)")
    parser.add_argument("--small", action="store_true", help="a sixteenth of the sizes")
    parser.add_argument("--size", type=int, help="one size of structures, as bits, elements, symbols, items or nodes")
    parser.add_argument("--original", metavar="FOLDER",
                        help="the sources of vers-vecs 1.10.2, instead of those of crates.io")
    parser.add_argument("--level", choices=compare.LEVELS, default=compare.LEVELS[0],
                        help="what processors all but Rattle are built for (%(default)s)")
    asked = parser.parse_args()
    unknown = set(asked.structures) - set(TABLES)
    if unknown:
        parser.error(f"no structure {', '.join(sorted(unknown))}")
    options = ["--reps", str(asked.reps), *(["--small"] if asked.small else [])]
    options += ["--size", str(asked.size)] if asked.size else []
    structures = asked.structures or list(TABLES)
    drivers = drivers_of(asked.original, asked.level)
    if asked.instructions:
        found = compare.counted(drivers, structures)
    else:
        found = compare.measured(drivers, structures, asked.passes, options)
    for structure in structures:
        for table in TABLES[structure]:
            print_table(table, found)
    differing = [name for name, it in found.items() if it.differs()]
    unit = "Instructions of a pass" if asked.instructions else "Nanoseconds an operation, builds an item"
    print(f"{unit}. {len(differing)} of {len(found)} checksums differ.")
    sys.exit(bool(differing))


if __name__ == "__main__":
    main()
