#!/usr/bin/env python3
"""Rules over the text of the repository that no contract states.

- No text contains what the rows of `PATTERNS` and `PHRASES` name, such as long lines and phrases that aren't plain
  English. Functions have at most 60 lines, except tests. Links lead to a file, and to a heading or an anchor of it.
- docs/DEFINITIONS.md defines the words of `specs/` that public contracts cite. What only proofs need is in
  `specs/inside`, and a crate imports no proofs of a crate below it but its pages of laws.
- crates.txt, the table of structures in docs/ARCHITECTURE.md and the end of docs/LAYOUTS.md agree with what is there.

Exits with status 1 if a rule is broken, and prints a line for each position. `--self-test` breaks each rule in a text
that was read.

`--wrong-bodies` lists the public functions that compute something and that no wrong body reaches: no edit changes them,
or a function of the crate that they name. A body computes something unless it is empty, reads a field, wraps its
argument, or passes its arguments to one call.
"""
import contextlib
import os
import re
import subprocess
import sys
from collections import defaultdict
from functools import lru_cache

from sources import (TOP, Source, reaching, line_of, load_edit, public_functions, read, report, report_tests,
                     wrong_bodies)

DEFINITIONS = "docs/DEFINITIONS.md"
NAMED = "docs/ARCHITECTURE.md"
DRAWN = "docs/LAYOUTS.md", "crates/vers_layouts/stdout"
TEXTS = re.compile(r"(?!rust/src/(?:proved|contracts)).*\.(?:md|rt|antt|edits?|py|sh|txt|rs|h|hpp|c|cpp)|(?:.*/)?(?:test|vers|run|stdout)")
# between two words of a phrase there may be the end of a line and the marks of a comment
GAP = r"(?:\s|//[/!]?|#|--|\*)+"
# the files without these phrases: all but the old entries of the changes and the rules of language with their examples,
# and of proofs the comments; and those whose lines have at most 120 columns
PLAIN = r"(?!CHANGELOG\.md|CONTRIBUTING\.md|tools/text_rules\.py|crates/\w+/proofs/).*"
WRAPPED = r"(?:tools|bindings|bench)/\w+\.py|test|package|(?!CHANGELOG|rust/src/definitions|docs/LAYOUTS).*\.md"
# a phrase that isn't plain English, and what to write instead
PHRASES = (
    ("want of memory", "out of memory"),
    # `at the most recent` is plain
    (r"at the most(?! \w+[ae]nt\b)", "at most"),
    ("let go", "drop"),
    ("(?:is|are|was|were) told", "returns, prints"),
    ("hand(?:s|ed)? on", "passes, forwards"),
    ("in the stead|in (?:the )?place of", "instead of"),
    (r"wanted (?:was|were|are)|wanted is(?! not None)", "target: .."),
    ("so many", "n"),
    ("for want of", "without"),
    ("stands? (?:alone|apart|at|behind|beside|for|in|on|so|there)", "is, depends on, means"),
    ("lies? (?:at|between|beside|in|on|up)", "is"),
    ("comes? to lie", "is placed"),
    ("as (?:it|they) stands?", "unchanged"),
    ("just where", "exactly if"),
    ("a further", "another"),
)
# the files, what they may not contain, and the message with the groups that were found
PATTERNS = (
    (r".*(?<!_rules\.py)", r"(?<![\w-])[DFRTW][12]?\d(?![\w-])|(?<![\w./-])/(?:work|opt|tmp|home|root|srv)/",
     "cites {0}, which the repository doesn't hold"),
    *((files, rf"(?i){before}\b(?:{words.replace(' ', GAP)})\b", f"says `{words}`; write `{instead}`")
      for words, instead in PHRASES for files, before in ((PLAIN, ""), (r"crates/\w+/proofs/.*", r"(?<=-- )[^\n]*"))),
    (r"docs/DEFINITIONS\.md", r"(?m)^- `(\w+)[^`]*`:$", "`{1}` has no comment in `specs/`"),
    (r"crates/\w+/src/.*\.rt", r"\A(?:.*\n){800}", "has more than 800 lines"),
    (r".*\.rt", r'(?m)^(?! *(?:(?:ghost )?use |#\[))[^"\n]{121,}$', "has more than 120 columns"),
    # a table, or a long text, needs more
    (WRAPPED, r"""(?m)^(?!\||.*["'][^\n]{60,}["'])[^\n]{121,}$""", "has more than 120 columns"),
    (r"crates/\w+/src/.*(?<!/main)\.rt", r"\A(?!//!)", "the first line doesn't say what the module is"),
    (r"crates/\w+/src/.*(?<!/main)\.rt", r"(?m)^(?! *(?:///|#\[)).*\n(?: *#\[.*\n)*"
     r" *pub (?:const )?(?:unsafe )?(fn|struct|enum|trait|const|static|type) (\w+)", "{1} {2} has no doc comment"),
    (r"crates/\w+/src/.*(?<!/main)\.rt", r"\blet _ = (?!(?:&\w+(?:\.\w+)+|\w+(?:\.\w+)*\.(?:len|last|ends)\(\)|T::len_of\(\w+\));|eprintln!)([^;]*);",
     "drops `{1}`; allowed: a mention of a field, a length, ends or a last element, and a message on standard error"),
)
FORWARDS = re.compile(r"(?:[\w.:&*]+(?:::<\w+>)?(?:\([\w\s,&.*]*\)|\{\w+\})?)?")
LINK = re.compile(r"\]\(([^)#:\s]*)(?:#([^)\s]*))?\)")
HEADING = re.compile(r"(?m)^#+ (.*)$")
READ_ONCE = lru_cache(maxsize=None)(Source)
EXPORTED_LAWS = re.compile(r"(?m)^pub use Rattle\.\w+\.proofs\.PublicLaws as (\w+)$")
FOREIGN = re.compile(r"\b(\w+)(?:\.|::)(proofs|specs)(?:\.|::)(\w+)(?:(?:\.|::)(\w+))?")
# proofs that depend only on the contracts of a part of their own crate, and the files of that part's inside
ON_CONTRACTS = {
    "crates/vers_sorted/proofs/SparseBits.antt": {"Holds", "Packed", "Buckets", "Makes", "Split", "Scans", "Aheads",
                                                  "inside"},
    "crates/vers_rmq/proofs/Blocks.antt": {"Tables"},
    "crates/vers_rmq/proofs/Names.antt": {"Tables"},
}


def imported_insides(path, text, pages):
    """Yields a line for each import of what is private to a crate, or to a part of it; `pages` are each crate's pages
    of laws."""
    own = path.split("/")[1]
    for found in FOREIGN.finditer(text):
        crate, folder, name, part = found.groups()
        line = f"{path}:{line_of(text, found.start())}"
        if crate == own and name == "inside" and re.fullmatch(rf"crates/{own}/specs/\w+\.antt", path):
            yield f"{line}: a word of public contracts depends on `{folder}.{name}.{part}`, which only proofs need"
        elif crate in pages and crate != own:
            if name == "inside" or folder == "proofs" and name not in pages[crate]:
                allowed = "`PublicLaws`, and `specs` that aren't inside"
                yield f"{line}: imports `{folder}.{name}` of {crate}; allowed: {allowed}"
        elif crate in (own, "crate") and {name, part} & ON_CONTRACTS.get(path, set()):
            yield f"{line}: imports `{part or name}`, and may depend only on contracts"


def undefined(sources, defined):
    """Yields a line for each word of `specs/` that a public contract cites, and that isn't defined or is of
    `specs/inside`."""
    for function in public_functions(sources):
        start = f"{function.where}: {function.full_name} cites"
        for _, page, word in function.words:
            if page.startswith("inside"):
                yield f"{start} `{word}` of `specs/inside`, which no public contract may"
            elif word not in defined and not page.startswith("declared"):
                yield f"{start} `{word}`, which {DEFINITIONS} doesn't define"


def misnamed(texts):
    """Yields a line for each name of the table of structures that a room doesn't have, and for each kind of `vers.h`
    that the table lacks."""
    table = texts[NAMED].partition('<a id="names"></a>')[2].partition("\n## ")[0]
    kinds = dict(re.findall(r"VERS_KIND_\w+ = (\d+),? +/\*\*< A (\w+)\.", texts["bindings/c/vers.h"]))
    rows = [[it.strip().strip("`") for it in row.split("|")[1:-1]] for row in table.splitlines() if row[:3] == "| `"]
    for name, module, line, c_name, kind, series in rows:
        path = "crates/{}/src/{}.rt".format(module.split("::")[0], "/".join(module.split("::")[1:]))
        rooms = {
            module: f"pub struct {name}<" in texts.get(path, ""),
            line: not line or any(f'(b"{line}", ' in text for path, text in texts.items() if path.endswith("/name.rt")),
            c_name: f"typedef struct {c_name} {{" in texts["bindings/c/vers.h"] and (not kind or kinds[kind] == c_name),
            series: not series or f'"{series}"' in texts["crates/vers_bench/src/main.rt"],
        }
        yield from (f"{NAMED}: `{it}` is no name of `{name}`" for it, is_there in rooms.items() if not is_there)
    if lacking := set(kinds) - {row[4] for row in rows}:
        yield f"{NAMED}: the table of names lacks the kinds {sorted(lacking)}"


def missing_wrong_bodies(texts):
    """Yields a line for each public function that computes something and that no edit of its crate reaches."""
    for crate, sources in crates_of(texts).items():
        found, changed = [it for source in sources for it in source.functions if it.has_body], set()
        for edit in [edit for owner, _, edit in wrong_bodies(texts) if owner == crate]:
            with contextlib.suppress(ValueError):
                changed.add(load_edit(edit, sources)[0])
        named = {it: set(re.findall(r"\b\w+\b(?=(?:::<[^>]*>)?\()", it.code)) for it in found}
        reached = reaching(changed, {it: {other for other in found if other.name in named[it]} for it in found})
        for it in found if not re.search("^test_|_tests$", crate) else ():
            is_maker = FORWARDS.fullmatch(re.sub(r"\s+", "", it.code))
            if it.is_public and "ensures" in it.declared and not is_maker and it not in reached:
                yield f"{it.where}: no wrong body reaches {it.full_name}"


def texts_of():
    """Returns the texts that git tracks or would, by their paths."""
    command = ["git", "-C", TOP, "ls-files", "--cached", "--others", "--exclude-standard"]
    paths = sorted(subprocess.run(command, check=True, capture_output=True, text=True).stdout.splitlines())
    return {it: read(it) for it in paths if TEXTS.fullmatch(it) and os.path.exists(f"{TOP}/{it}")}


def crates_of(texts):
    """Returns the sources of each crate."""
    found = defaultdict(list)
    for path, text in texts.items():
        if re.fullmatch(r"crates/\w+/src/.*\.rt", path):
            found[path.split("/")[1]].append(READ_ONCE(path.split("/")[1], path, text))
    return found


def anchors_of(text):
    """Returns the anchors of a page: those of its headings, as GitHub makes them, and its own."""
    text = re.sub(r"(?ms)^```.*?^```$", "", text)
    headings = [re.sub(r"[^\w\- ]", "", re.sub(r"\]\([^)]*\)", "", it)).lower().replace(" ", "-")
                for it in HEADING.findall(text)]
    repeated = (f"{it}-{headings[:at].count(it)}" for at, it in enumerate(headings) if it in headings[:at])
    return {*headings, *repeated, *re.findall(r'<a (?:id|name)="([^"]*)"', text)}


def is_target(path, text, link, anchor):
    """Returns whether a link of a page leads to a file or folder, and its anchor to an anchor of a page."""
    target = os.path.normpath(f"{TOP}/{os.path.dirname(path)}/{link}")
    if not os.path.exists(target):
        return False
    return not (anchor and (not link or link.endswith(".md"))) or anchor in anchors_of(read(target) if link else text)


@lru_cache(maxsize=None)
def text_faults(path, text):
    """Returns what is broken in one text."""
    found = [(it, message) for files, pattern, message in PATTERNS if re.fullmatch(files, path)
             for it in re.finditer(pattern, text)]
    links = LINK.findall(text) if path.endswith(".md") else []
    return [
        *(f"{path}:{line_of(text, it.end())}: {message.format(it[0], *it.groups())}" for it, message in found),
        *(f"{path}: the link {it}{anchor and '#'}{anchor} leads nowhere" for it, anchor in links
          if not is_target(path, text, it, anchor)),
    ]


def faults(texts):
    """Yields what is broken in the texts of a repository."""
    crates = crates_of(texts)
    named = re.findall(r"(?m)^(\w+)[^:\n#]*:", texts["crates.txt"])
    if sorted(named) != sorted(crates):
        yield f"crates.txt lists {sorted(named)}, and crates/ holds {sorted(crates)}"
    if not texts[DRAWN[0]].endswith(f"```text\n{texts[DRAWN[1]]}```\n"):
        yield f"{DRAWN[0]}: its end isn't {DRAWN[1]}"
    yield from misnamed(texts)
    pages = {it: {"PublicLaws", *EXPORTED_LAWS.findall(texts.get(f"crates/{it}/proofs/Lib.antt", ""))} for it in crates}
    for path, text in texts.items():
        yield from text_faults(path, text)
        if path.startswith("crates/") and path.endswith((".antt", ".rt")):
            yield from imported_insides(path, text, pages)
    defined = {word for text in re.findall(r"`([^`]*)`", texts[DEFINITIONS]) for word in re.findall(r"\w+", text)}
    for crate, sources in crates.items():
        yield from undefined(sources, defined)
        for it in [it for source in sources for it in source.functions if it.has_body and not crate.endswith("_tests")]:
            if it.last - it.body + 2 > 60:
                yield f"{it.where}: {it.full_name} has {it.last - it.body + 2} lines"


TALLY, RANK, MINIMA = "crates/vers_tally/src/tally.rt", "crates/vers_rank/", "crates/vers_rmq/proofs/Blocks.antt"
CHUNKS = "    /// Returns the number of chunks of bits loaded.\n"
# what has to be printed, and the change that breaks a rule
BREAKS = {
    "has no doc comment": (TALLY, CHUNKS, ""),
    "doesn't say what the module is": (TALLY, "//! Counters", "// Counters"),
    "reaches Tally::add_chunk": ("crates/vers_tally/wrong/tally.edits", "old: self.chunks = ", "was: self.chunks = "),
    "Tally::chunks has 63 lines": (TALLY, "        self.chunks\n", "        self.chunks\n" + "\n" * 60),
    "has more than 800 lines": (TALLY, "//! Counters", "\n" * 800),
    "has more than 120 columns": (TALLY, "self.chunks\n", f"self.chunks{' ' * 120}\n"),
    "crates.txt lists": ("crates.txt", "vers_words:", "vers_word:"),
    "cites F7": ("README.md", "# ", "# As F7 says "),
    "cites /srv/": ("README.md", "# ", "# In /srv/kit "),
    "cites `no_reads`": (DEFINITIONS, "no_reads", "none_read"),
    "`number` has no comment": (DEFINITIONS, "`number`: the", "`number`:\nthe"),
    "cites `fewest`": (TALLY, "no_reads, one_more", "fewest as no_reads, one_more"),
    "imports `proofs.Own` of vers_bits": (f"{RANK}proofs/Names.antt", "vers_bits.proofs.PublicLaws",
                                          "vers_bits.proofs.Own"),
    "imports `proofs.TreesLaws` of vers_vecs": ("crates/vers_vecs/proofs/Lib.antt", "PublicLaws as Trees",
                                                "Own as Trees"),
    "imports `specs.inside` of vers_tally": (f"{RANK}src/fast_rs_vec.rt", "specs.Reads", "specs.inside.Reads"),
    "depends on `specs.inside.Queries`": (f"{RANK}specs/Rows.antt", "rank.specs.Queries", "rank.specs.inside.Queries"),
    "cites `no_reads` of `specs/inside`": (TALLY, "vers_tally.specs.Reads", "vers_tally.specs.inside.Reads"),
    "`vers_rank` is no name of `RsVec`": (NAMED, "`vers_rank::fast_rs_vec` |", "`vers_rank` |"),
    "`order` is no name of `EliasFanoVec`": (NAMED, "| `sorted` | `vers_sorted` |", "| `order` | `vers_sorted` |"),
    "`vers_sparse` is no name of `SparseRSVec`": (NAMED, "| `vers_sparse` | 4 |", "| `vers_sparse` | 3 |"),
    "`trees` is no name of `BpTree`": (NAMED, "| `vers_tree` | 6 | `tree` |", "| `vers_tree` | 6 | `trees` |"),
    "lacks the kinds ['8']": (NAMED, "| 8 |", "| |"),
    "drops `self.chunks()`": (TALLY, "        self.chunks\n", "        let _ = self.chunks();\n        self.chunks\n"),
    "imports `Tables`": (MINIMA, "rmq.proofs.Minima", "rmq.specs.inside.Tables"),
    "its end isn't": (DRAWN[1], "bits", "bit"),
    "docs/NONE.md leads nowhere": ("README.md", "docs/PROVED.md", "docs/NONE.md"),
    "docs/PROVED.md#none leads nowhere": ("README.md", "docs/PROVED.md", "docs/PROVED.md#none"),
    "says `at the most": ("README.md", "# ", "# At\nthe most "),
    "says `so many`": ("test", '"""Checks', '"""Checks so\n# many'),
    "tools/sources.py:1: has more than 120": ("tools/sources.py", '"""Reads', f'"""{"Reads " * 30}'),
    "CALLS.md:1: has more than 120": ("docs/CALLS.md", "# Calls", f"# Calls{' and' * 40}"),
    "proofs/Names.antt:1: says `a further`": (f"{RANK}proofs/Names.antt", "-- The names", "-- A further list: the names"),
    "says `want of memory`": (TALLY, CHUNKS, f"    /// None for want\n    /// of memory.\n{CHUNKS}"),
}


def self_test():
    """Makes each change to the texts, and returns the exit status, 1 if what it breaks isn't found."""
    texts, missed = texts_of(), []
    for expected, (path, old, new) in BREAKS.items():
        broken = {**texts, path: texts[path].replace(old, new)}
        if not any(expected in line for rule in (faults, missing_wrong_bodies) for line in rule(broken)):
            missed.append(f"not found: {expected}")
    return report_tests(len(BREAKS), missed)


if __name__ == "__main__":
    if "--self-test" in sys.argv:
        sys.exit(self_test())
    rules = missing_wrong_bodies if "--wrong-bodies" in sys.argv else faults
    sys.exit(report("text rules", rules(texts_of())))
