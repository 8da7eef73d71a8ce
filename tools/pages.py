#!/usr/bin/env python3
"""Writes docs/CALLS.md, docs/DEFINITIONS.md and docs/vers.1, and the figures of README's table of times.

CALLS lists the calls that `cargo doc` describes under the same names by the bounds on their reads, and each other call
as it is declared, with what this doesn't say.

The figures are those of PERFORMANCE's tables of times by size, in rows whose first cell is a call, such as `rank1`, or
a call and what its time is for, such as "`iter1`, a position".

It also lists the names that the facade exports, and the calls of its types, that are neither in the table of our own
names in docs/DIFFERENCES.md nor among those of vers-vecs (tools/original_names.txt), and the names in the first that
aren't our own. Counted forms and laws are all our own.

`--check` compares the pages with what would be written, and `--self-test` plants what it has to find.
"""
import re
import sys
import textwrap
from collections import defaultdict, namedtuple

import definitions
import manual
from plain_rust import CRATES
from rust_contracts import ADDS, facade_files
from sources import TOP, missed_plants, public_functions, read, read_crate, report_tests, write_or_check

PAGE, DIFFERENCES, FACADE = "docs/CALLS.md", "docs/DIFFERENCES.md", "crates/vers_vecs/src/lib.rt"
ORIGINAL = "tools/original_names.txt"
SOURCE, README = "docs/PERFORMANCE.md", "README.md"
# The columns that are read: the structure, the size, and what the data are.
COLUMNS = (
    ("RsVec", "2^20", "2^20 bits, half ones"),
    ("RsVec", "2^26", "2^26 bits, half ones"),
    ("EliasFanoVec", "10^6", "10^6 elements far apart"),
    ("WaveletMatrix", "10^6", "10^6 symbols of 8 bits"),
    ("FastRmq", "10^6", "10^6 items"),
    ("BpTree", "10^6", "a random tree of 10^6 nodes"),
)
# A cell: the time here, that of vers-vecs, and the ratio.
CELL = re.compile(r"(\S+), (\S+) \((\S+)\)")
# A call, and what its time is for.
CALL = re.compile(r"`(\w+)`(?:, (an? \w+))?")
# A time: of which call, over which data, how long, and its ratio to the original's.
Figure = namedtuple("Figure", "holder call data time ratio")


def growth_tables():
    """Yields the tables of times by size: the structure and the unit of its sizes, the sizes, and the rows, each of
    which begins with its operation."""
    section = re.search(r"(?s)## Growth with size\n(.*?)\n## ", read(SOURCE))[1]
    for table in re.findall(r"(?m)^(?:\|.*\n)+", section):
        (title, *sizes), _, *rows = [line.strip("|").split("|") for line in table.splitlines()]
        yield title.replace("`", "").split(", "), sizes, rows


def figures():
    """Returns the figures, in the order of the plot."""
    tables, found = {names[0]: (sizes, rows) for names, sizes, rows in growth_tables()}, []
    for holder, size, data in COLUMNS:
        sizes, rows = tables.get(holder, ((), ()))
        if size not in sizes:
            sys.exit(f"{SOURCE} has no times of {holder} over {data}")
        for name, *cells in rows:
            call, cell = CALL.fullmatch(name), CELL.fullmatch(cells[sizes.index(size)])
            if call:
                found.append(Figure(holder, call[1], data, f"{cell[1]} ns {call[2] or 'a query'}", cell[3]))
    return found


def with_figures(text, found):
    """Returns the text of README with these figures in the rows of its table, each of which has one."""
    rows = {f"| `{it.holder}`, `{it.call}` | {it.data} |": f" {it.time} | {it.ratio} |" for it in found}
    return re.sub(r"(?m)^(\| `\w+`, `\w+` \| [^|\n]* \|).*$", lambda row: row[1] + rows[row[1]], text)


# The types and modules of which the Rust crate lacks the calls that are named, or all.
NOT_IN_RUST = {
    "vers_bits::ListEnds": None, "vers_bits::Span": None, "vers_rank::Places": None, "vers_sorted::Successors": None,
    "vers_trees::ByteTables": None, "vers_wavelet::GatheredQuery": None, "vers_wavelet::GetQuery": None,
    "vers_wavelet::QuantileQuery": None, "vers_wavelet::RankQuery": None, "vers_wavelet::SelectQuery": None,
    "wavelet_tree::RangeQuery": None, "sets::Cursor": None, "sets::Walk": None, "inverted::ListOf": None,
    "vers_rank::RsVec": ("select_counted",), "vers_sorted::EliasFanoVec": ("ends",),
    "vers_sorted::SparseRSVec": ("from_sorted", "ones"), "vers_sorted::order": ("are_below",),
    "vers_rmq::BinaryRmq": ("item", "items"), "vers_rmq::FastRmq": ("item", "items"), "vers_trees::BpTree": ("len",),
    "vers_saved::stream": ("save", "load"), "sets::gather": ("numbers_of",),
}


def declaration(function):
    """Returns a call as a caller sees it."""
    head = re.sub(r"(?<!&)\bmut (\w+: )", r"\1", function.head)
    return re.sub(r"^(?:pub |const |fn )*", "", re.sub(r",? \)", ")", head.replace("( ", "(")))


def first_sentence(function):
    """Returns the first sentence of a call's doc comment."""
    doc = [it.strip().removeprefix("///").strip() for it in function.above]
    return re.split(r"(?<=[.]) (?=[A-Z`])", " ".join("\n".join(doc).split("\n\n")[0].split()))[0].rstrip(".")


def reads_at_most(function):
    """Returns the bound on what a counted call reads, or an empty text."""
    return ", ".join(fact.removeprefix(ADDS) for _, fact in function.clauses if fact.startswith(ADDS))


def call_with_comment(function, bound):
    """Returns a call as it is declared, below a comment of what this doesn't say."""
    conditions = [fact for kind, fact in function.clauses if kind == "requires"]
    notes = [first_sentence(function)]
    notes += [f"requires {', '.join(conditions)}"] if conditions else []
    notes += [f"reads {bound}"] if bound else []
    declared = textwrap.wrap(declaration(function), 120, subsequent_indent="    ")
    return "\n".join([*(f"// {it}" for it in textwrap.wrap("; ".join(notes), 117)), *declared])


def section(title, functions, in_rust):
    """Returns the calls of one owner, of which `in_rust` are calls of the Rust crate."""
    by_name = {it.name: it for it in functions}
    shown = [it for it in functions if not it.name.endswith("_counted")
             or it.name.removesuffix("_counted") not in by_name]
    bounds = {it: reads_at_most(by_name.get(f"{it.name}_counted", it)) for it in shown}
    same = defaultdict(list)
    for it in shown:
        if it.name in in_rust:
            same[bounds[it]].append(f"`{it.name}`")
    listed = [f"{f'Reads `{bound}`: ' if bound else ''}{', '.join(names)}." for bound, names in same.items()]
    own = [call_with_comment(it, bounds[it]) for it in shown if it.name not in in_rust]
    code = "\n".join(["```text", *own, "```"]) if own else ""
    texts = ("\n".join(textwrap.wrap(it, 120, break_on_hyphens=False)) for it in listed)
    return "\n\n".join(it for it in [f"## {title}", *texts, code] if it)


def public_calls(crate):
    """Returns the public calls of a crate by their owners, without those of traits and the laws."""
    groups = defaultdict(list)
    for it in sorted(public_functions(read_crate(crate)), key=lambda it: (it.source.path, it.first)):
        if not it.trait and not it.is_declared_by_trait and it.source.module != "laws":
            groups[it.holder or it.source.module].append(it)
    return groups


def page():
    """Returns the text of the page of calls."""
    files = [text for path, text in facade_files(f"{TOP}/rust/src") if not path.startswith("inside_tests/")]
    facade = re.sub(r"(?m)//.*$|^\w+! ?[({].*[)}];?$", "", "".join(files))
    # functions, and what macros make functions of
    in_rust = set(re.findall(r"(?<=\bfn )\w+|(?<![(&.])\b\w+(?=,)|\b\w+(?=\(\w+: .*\).*;\n)", facade))
    parts = [read(PAGE).split("\n\n## ")[0]]
    for crate in CRATES:
        for name, of in sorted(public_calls(crate).items()):
            owner = f"{crate}::{name}"
            lacks = in_rust if crate == "vers_tally" else NOT_IN_RUST.get(owner, ())
            parts.append(section(f"`{owner}`", of, in_rust.difference(in_rust if lacks is None else lacks)))
    return "\n\n".join(parts) + "\n"


def misplaced_names():
    """Yields a line for each name of our own that the table lacks, and for each one there that isn't our own."""
    ours = read(DIFFERENCES).partition("\n## Names of our own\n")[2]
    listed = {name for row in re.findall(r"(?m)^\| (`.*?) \|", ours) for name in re.findall(r"`([^`]*)`", row)}
    lists = re.findall(r"(?m)^(\w+):$((?:\n  .*)+)", read(ORIGINAL))
    original = {crate: set(names.split()) for crate, names in lists}
    facade = re.sub(r"(?s)pub mod laws \{.*?\n\}", "", read(FACADE))
    own, types = set(), {"BothEnds", "MadeEnds", "ListEnds"}
    for crate, names in re.findall(r"pub use (\w+)::[\w:]*?\{?\s*(\w+(?:,\s*\w+)*),?\s*\}?;", facade):
        types.update(re.findall(r"\w+", names))
        own.update(set(re.findall(r"\w+", names)) - original.get(crate, set()))
    for crate in CRATES:
        # the bodies of all walks are in `vers_tally`, and their calls are those of the iterators
        known = original.get(crate) or set().union(*original.values())
        for it in public_functions(read_crate(crate)):
            if it.holder in types and not it.name.endswith("_counted") and it.name not in known | {it.holder}:
                own.add(it.full_name)
    yield from (f"{DIFFERENCES}: the table of our own names lacks `{name}`" for name in sorted(own - listed))
    yield from (f"{DIFFERENCES}: `{name}` is no name of our own" for name in sorted(listed - own))


LIST, SPARSE, STALE = "crates/vers_bits/src/bit_vec.rt", "crates/vers_sorted/src/sparse.rt", "isn't what tools/pages.py"
# What `--check` has to print, and where which text is written instead of which.
PLANTS = (
    (f"{PAGE} {STALE}", LIST, "requires { 64 * k < length self.now }\n        ensures { result ≡ limb", "ensures { limb"),
    (f"{PAGE} {STALE}", LIST, "/// Returns limb `k`: the 64 bits", "/// Returns limb `k`: all bits"),
    (f"{PAGE} {STALE}", SPARSE, "pub fn rank0_counted(&self, position: u64, tally", "fn rank0_counted(&self, position: u64, tally"),
    (f"{PAGE} {STALE}", "rust/src/bit_vec/mod.rs", "fn split_at_unchecked(", "fn split_unchecked("),
    (f"{definitions.PAGE} {STALE}", "crates/vers_bits/specs/Bits.antt", "-- rank: how many of", "-- how many of"),
    (f"{manual.PAGE} {STALE}", manual.HELP, "bits 0110  (a bit vector)", "bits 0110  (a list of bits)"),
    (f"{README} {STALE}", README, " ns a query |", " ns |"),
    ("has no times of RsVec over 2^20 bits", SOURCE, "|`RsVec`, bits|2^16|2^20|", "|`RsVec`, bits|2^16|2^21|"),
    ("of our own names lacks `BitVec::limb`", DIFFERENCES, "| `BitVec::limb`, ", "| "),
    ("`BitVec::limbs` is no name of our own", DIFFERENCES, "| `BitVec::limb`, ", "| `BitVec::limb`, `BitVec::limbs`, "),
)


def self_test():
    """Returns the exit status, 1 if a plant isn't found."""
    parts = ("crates", "docs", "rust/src", "tools", README)
    return report_tests(len(PLANTS), [*missed_plants(("tools/pages.py", "--check"), parts, PLANTS)])


if __name__ == "__main__":
    if "--self-test" in sys.argv:
        sys.exit(self_test())
    misplaced = list(misplaced_names())
    print("".join(f"{it}\n" for it in misplaced), end="", file=sys.stderr)
    readme = with_figures(read(README), figures())
    pages = {PAGE: page(), definitions.PAGE: definitions.page(), manual.PAGE: manual.page(), README: readme}
    sys.exit(write_or_check(pages, "tools/pages.py") or bool(misplaced))
