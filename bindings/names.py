#!/usr/bin/env python3
"""Writes bindings/NAMES.md: the name of each call of a structure in C, C++, Rust and Python, and what is left out.

The calls are the public ones of the library, as docs/CALLS.md has them. A call has its own name in each language, or
that of `NAMES`, or is left out for a reason in `LEFT_OUT`. Each name has to be in the header, the classes and the
crate; a call that is neither named nor left out is a fault. `--check` compares the page with what would be written, and
`--self-test` plants what it has to find.
"""
import os
import re
import sys
import textwrap
from fnmatch import fnmatchcase
from glob import glob

sys.path.append(os.path.join(os.path.dirname(os.path.abspath(__file__)), "../tools"))
from pages import CRATES, public_calls
from sources import TOP, missed_plants, read, report_tests, write_or_check

PAGE, LANGUAGES = "bindings/NAMES.md", ("C", "C++", "Rust", "Python")
# A structure, what its names begin with in C, and its files of the Rust crate.
STRUCTURES = {
    "BitVec": ("growing", "bit_vec/mod.rs"),
    "RsVec": ("bits", "bit_vec/fast_rs_vec.rs"),
    "SparseRSVec": ("sparse", "bit_vec/sparse.rs"),
    "EliasFanoVec": ("sorted", "elias_fano/mod.rs"),
    "WaveletMatrix": ("symbols", "wavelet/*.rs"),
    "BinaryRmq": ("binary_rmq", "rmq/*.rs"),
    "FastRmq": ("fast_rmq", "rmq/*.rs"),
    "BpTree": ("tree", "trees/bp.rs"),
    "Postings": ("postings", "postings.rs"),
    "InvertedIndex": ("inverted", "inverted.rs"),
    "TextIndex": ("text", "text.rs"),
}
# The names of calls in languages in which they are not their own (in all but Rust: without `_u64`), or None for none.
# Python writes `len()` and `in`, `[]` is an index, and `()` the class. The first row that fits a call counts; a row has
# patterns as file names have: `*` is any text, `?` a letter, `[01]` one of these.
NAMES = {
    "BpTree.len": {"Rust": None, "Python": "len()"},
    "*.len": {"Python": "len()"},
    "*.is_empty": {"C": "len", "Python": "len()"},
    "RsVec.from_bit_vec BpTree.from_bit_vector": {"C": "of", "C++": "from_words", "Python": "from_words"},
    "BitVec.from_limbs": {"C": "of", "C++": "from_words", "Rust": "from_vec", "Python": "from_words"},
    "BitVec.set": {"Python": "[]"},
    "BitVec.from_zeros": {"C": "of", "C++": "from_words"},
    "BitVec.flip_bit": {"C": "set", "C++": "set", "Python": "flip"},
    "BitVec.count_ones": {"C": None, "C++": None},
    """SparseRSVec.new EliasFanoVec.from_slice WaveletMatrix.from_slice *Rmq.from_vec Postings.from_sorted
    TextIndex.with_step""":
        {"C": "of", "C++": "from", "Python": "()"},
    "InvertedIndex.from_pairs": {"C": "of", "C++": "from", "Python": "()"},
    "InvertedIndex.union": {"C++": "either"},
    "InvertedIndex.intersection_of": {"Python": "intersection"},
    "InvertedIndex.union_of": {"Python": "union"},
    "InvertedIndex.difference_of": {"Python": "difference"},
    "TextIndex.bytes_with_step WaveletMatrix.from_integers": {"C": "of_bytes", "C++": "from", "Python": "()"},
    "TextIndex.u16s_with_step": {"C": "of_u16s", "C++": "from", "Python": "()"},
    "*Rmq.item *Rmq.as_slice": {"C": "get", "C++": "get", "Rust": "[]", "Python": "[]"},
    "Postings.documents": {"C++": "get", "Rust": "get", "Python": "get"},
    "Postings.costs": dict.fromkeys(LANGUAGES, "cost"),
    "EliasFanoVec.select": dict.fromkeys(LANGUAGES, "get"),
    "SparseRSVec.is_set BitVec.is_bit_set": {"C": "get", "C++": "get", "Python": "get"},
    "TextIndex.bits_per_symbol": {"C": "width", "C++": "width"},
    "TextIndex.contains": {"Python": "in"},
    "TextIndex.places_ascending": dict.fromkeys(LANGUAGES, "places"),
    "WaveletMatrix.get_sorted_u64": {"C": "quantile", "C++": "quantile", "Python": "quantile"},
    "WaveletMatrix.rank_offset_u64": {"C": "rank_range", "C++": "rank_range", "Python": "rank_range"},
    """RsVec.*_each EliasFanoVec.*_each WaveletMatrix.get_u64_each WaveletMatrix.rank_u64_each
    WaveletMatrix.select_u64_each WaveletMatrix.quantile_u64_each""": {"C": "each", "C++": "each", "Python": "each"},
}
# The calls that have no row above and no name in C, C++ and Python, by the reason. The first that fits counts.
LEFT_OUT = {
    "They are for structures in Rattle that use this one.":
        """*.is_one_counted *.select_counted *.rank0_with_bit *.limb_block *.items *.allocator *.select[01]_pair
        *.*gathered_* BpTree.bits BpTree.relative BpTree.measure BpTree.level_end""",
    "`get_bits` and `append_bits` take 64 bits at a time, and a `vers_bits` counts.":
        """BitVec.append_bit BitVec.append_word BitVec.append_bit_u* BitVec.limb BitVec.extend*
        BitVec.from_* BitVec.new BitVec.with_capacity BitVec.count_* BitVec.split_at BitVec.pack_* BitVec.unpack_*
        BitVec.*mask_*""",
    "A structure is made from an array, and its items are written to one.":
        """RsVec.into_bit_vec RsVec.*_equals BpTree.into_parentheses_vec SparseRSVec.from_* *.from_iter
        EliasFanoVec.from_numbers InvertedIndex.from_source TextIndex.from_* TextIndex.*_with_step""",
    "Combined documents of terms are plain numbers.": "InvertedIndex.*n_numbers InvertedIndex.difference_numbers",
    "They are for saved forms, which C, C++ and Python load and save as a whole.":
        """TextIndex.column TextIndex.whole_row TextIndex.kept_len TextIndex.kept_row TextIndex.kept_rows
        WaveletMatrix.level EliasFanoVec.ends EliasFanoVec.low_parts EliasFanoVec.high_parts EliasFanoVec.from_parts
        SparseRSVec.ones InvertedIndex.pair_numbers InvertedIndex.from_numbers""",
    "Symbols are numbers of at most 64 bits instead of lists of bits.":
        """WaveletMatrix.bit_len WaveletMatrix.from_* WaveletMatrix.get_value WaveletMatrix.get_sorted
        WaveletMatrix.iter WaveletMatrix.iter_sorted WaveletMatrix.into_iter WaveletMatrix.into_iter_sorted
        WaveletMatrix.rank WaveletMatrix.rank_range WaveletMatrix.rank_offset WaveletMatrix.select
        WaveletMatrix.select_offset WaveletMatrix.quantile WaveletMatrix.predecessor WaveletMatrix.successor
        WaveletMatrix.range_min WaveletMatrix.range_max WaveletMatrix.range_median""",
    "Instead of iterators, there are queries of positions, and `_each` over a range of positions.": "*.*iter* BpTree.*children",
    "The two positions of a range are arguments.": "*Rmq.range_min_*",
    "`places` returns ascending positions, and `first_places` the first ones.": "TextIndex.places",
}
# What the script reads.
PARTS = ("crates", "docs", "rust/src", "tools", "bindings/c/vers.h", "bindings/cpp/vers.hpp", "bindings/python/vers",
         "bindings/names.py", PAGE)
HEAD = """# Names

The name of each call in C, C++, the Rust crate and Python. `bindings/names.py` writes this page from
[CALLS](../docs/CALLS.md), and fails if a call has neither a name nor a reason, or a binding lacks a name. In Python
`[]` is an index, and `each` takes the name of a query. The list above each table has the calls with one name in all
languages: in C with the prefix of the heading, and without `_u64` except in Rust.
"""


def calls():
    """Returns the calls of each structure, without those that require a condition and those with a counter."""
    found = {}
    for crate in CRATES:
        for owner, functions in sorted(public_calls(crate).items()):
            if owner in STRUCTURES:
                names = [it.name for it in functions]
                found[owner] = [it for it in names if not it.endswith("_unchecked")
                                and it.removesuffix("_counted") not in set(names) - {it}]
    return found


def class_body(text, head):
    """Returns the text of a class, with those of the classes that it is made of."""
    found = re.search(head + r"(.*?)(?=^class |\Z)", text, re.M | re.S)
    return found[1] if found else ""


def python_class(text, name):
    """Returns the text of a class of the Python package and of those above it."""
    head = re.search(rf"^class {name}(?:\((.*?)\))?:\n", text, re.M)
    above = re.findall(r"\w+", head[1] or "") if head else []
    return class_body(text, rf"^class {name}\b[^\n]*\n") + "".join(python_class(text, it) for it in above
                                                                   if it != "Generic")


def cpp_class(text, name):
    """Returns the text of a class of the C++ header and of those above it."""
    aliases = dict(re.findall(r"using (\w+) = (\w+)<", text))
    head, body = re.search(rf"(?ms)^class {name}\b([^;{{]*)\{{\n(.*?)^\}};$", text).groups()
    return body + "".join(cpp_class(text, aliases.get(it, it)) for it in re.findall(r"public detail::(\w+)", head))


def has(structure, language, name):
    """Whether a structure has a name in a language."""
    prefix, files = STRUCTURES[structure]
    if language == "C":
        return re.search(rf"\bvers_{prefix}_{name}\(", read("bindings/c/vers.h"))
    if language == "Rust":
        text = "".join(read(it) for it in glob(f"{TOP}/rust/src/{files}"))
        text += read("rust/src/items.rs") if "lengths!(" in text else ""
        return "Deref" in text if name == "[]" else re.search(rf"(?m)\bfn {name}\b|\b{name},|^    {name}\(\w+: ", text)
    if language == "C++":
        return re.search(rf"\b{name}\(", cpp_class(read("bindings/cpp/vers.hpp"), structure))
    text = python_class("".join(read(f"bindings/python/vers/{it}.py") for it in ("_bases", "_lists")), structure)
    special = {"len()": "__len__", "[]": "__getitem__", "()": "__new__", "in": "__contains__"}
    return re.search(rf"\bdef {re.escape(special.get(name, name))}\(", text)


def named_alike(call):
    """Returns the names of a call in each language if they are its own."""
    return {language: call if language == "Rust" else call.replace("_u64", "") for language in LANGUAGES}


def row_of(table, call):
    """Returns the value of the first row of a table that fits a call, or None."""
    return next((value for fits, value in table if any(fnmatchcase(call, it) for it in fits.split())), None)


def shown(structure, language, name):
    """Returns a name as the table has it."""
    name = structure if (language, name) == ("Python", "()") else name
    prefix = f"vers_{STRUCTURES[structure][0]}_" if language == "C" else ""
    return f"`{prefix}{name}`" if name else ""


def main():
    """Writes the page."""
    text, left, faults = HEAD, {reason: [] for reason in LEFT_OUT}, []
    reasons = [(fits, reason) for reason, fits in LEFT_OUT.items()]
    for structure, names in calls().items():
        same, rows = [], ""
        for call in dict.fromkeys(names):
            row, reason = (row_of(table, f"{structure}.{call}") for table in (NAMES.items(), reasons))
            if row is None and reason:
                left[reason].append(f"`{structure}::{call}`")
                continue
            row = named_alike(call) | (row or {})
            faults += [f"{structure}.{call}: no {name} in {language}" for language, name in row.items()
                       if name and not has(structure, language, name)]
            if row == named_alike(call):
                same.append(f"`{call}`")
            else:
                rows += f"| `{call}` | {' | '.join(shown(structure, *it) for it in row.items())} |\n"
        text += f"\n## `{structure}`: `vers_{STRUCTURES[structure][0]}_`\n\n{textwrap.fill(', '.join(same), 120)}\n"
        text += f"\n| Call | {' | '.join(LANGUAGES)} |\n|---|{'---|' * len(LANGUAGES)}\n{rows}"
    text += "\n## Left out of C, C++ and Python\n\nThe Rust crate has those of vers-vecs; C++ also has `from_bits`, and Python `iter0`, `iter1`, `children` and `dfs_iter`.\n\n| Reason | Calls |\n|---|---|\n"
    text += "| Each call tests its arguments. | those whose names end in `_unchecked` or `_counted` |\n"
    text += "| A tree is made from a growing list of bits, or from words. | `BpBuilder` |\n"
    text += "".join(f"| {reason} | {', '.join(names)} |\n" for reason, names in left.items())
    print("".join(f"{it}\n" for it in faults), end="", file=sys.stderr)
    return write_or_check({PAGE: text}, "bindings/names.py") or int(bool(faults))


# What `--check` has to print, and where which text is written instead of which.
PLANTS = (
    ("EliasFanoVec.delta: no delta in C", "bindings/c/vers.h", "vers_sorted_delta(", "vers_sorted_step("),
    ("EliasFanoVec.delta: no delta in C++", "bindings/cpp/vers.hpp", "> delta(", "> step("),
    ("EliasFanoVec.delta: no delta in Rust", "rust/src/elias_fano/mod.rs", "pub fn delta(", "pub fn step("),
    ("EliasFanoVec.delta: no delta in Python", "bindings/python/vers/_lists.py", "def delta(", "def step("),
    ("BpTree.is_empty: no is_empty in C", "bindings/names.py", '"*.is_empty": {"C": "len", ', '"*.is_empty": {'),
    (f"{PAGE} isn't what", PAGE, "| Reason | Calls |", "| Calls | Reason |"),
)


def self_test():
    """Returns the exit status, 1 if a plant isn't found."""
    return report_tests(len(PLANTS), [*missed_plants(("bindings/names.py", "--check"), PARTS, PLANTS)])


if __name__ == "__main__":
    sys.exit(self_test() if "--self-test" in sys.argv else main())
