#!/usr/bin/env python3
"""Writes the proved sources as a crate of plain Rust, or compares the stored files with what it writes.

    tools/plain_rust.py                writes proved, contracts.rs and definitions.md in rust/src, the program in
                                       rust/program/src/programs, and the exports to C in bindings/c/src/programs
    tools/plain_rust.py --tests        writes the tests of the proved sources to rust/target, where cargo takes them
                                       with RUSTFLAGS="--cfg proved_tests"
    tools/plain_rust.py --check        compares these, and rust/guards.txt with the sources (tools/rust_contracts.py)
    python3 tools/plain_rust.py --self-test    tries forms that it has to write, and forms that it has to refuse

The script reads a text as tokens in balanced brackets. It leaves out what is ghost, replaces the paths and words that
its tables list, and keeps all else as it is, comments included. It refuses items, words, macros, attributes, paths and
methods that no table names.
"""
import functools
import re
import sys
from pathlib import Path

import rust_contracts
from rust_contracts import guard_faults, pages
from sources import TOP, read_crate, report, report_tests, write_files, write_or_check

RUST = "rust/src"
# The crates: each becomes a module of `proved`, and each crate of tests one of `proved_tests`, written for their runs.
CRATES = """vers_bits vers_tally vers_rank word_rank vers_sorted vers_rmq vers_wavelet wavelet_tree vers_trees
postings text_index sets inverted vers_saved""".split()
TESTS = """test_alloc vers_bits_tests vers_rank_tests word_rank_tests wavelet_tree_tests vers_sorted_tests
vers_rmq_tests vers_wavelet_tests vers_trees_tests postings_tests text_index_tests sets_tests inverted_tests
vers_saved_tests""".split()
# The program that cargo builds, with its libraries, and the exports to C, which the oldest rustc compiles with the
# catalogue. The other programs, and the tests of programs, are written only for the build of wrong bodies
# (tools/mutants.py).
PROGRAM = "vers_io catalogue vers_words vers_engine vers_cli vers_texts vers_files vers_commands".split()
EXPORTS = ["vers_c"]
PROGRAMS = [*PROGRAM, *EXPORTS, "vers_vecs", "vers_uses"]
PROGRAM_TESTS = "vers_cli_tests vers_texts_tests vers_files_tests vers_uses_tests".split()
# The module that each belongs to, and the folders of what is stored, from that of the crate's sources.
MODULES = {"proved": CRATES, "proved_tests": TESTS, "programs": PROGRAMS, "program_tests": PROGRAM_TESTS}
STORED = {"proved": CRATES, "../program/src/programs": PROGRAM, "../../bindings/c/src/programs": EXPORTS}
FOR_OLDEST = {*CRATES, *TESTS, *EXPORTS, "catalogue"}
# The catalogue of the exports is that of the program.
CATALOGUE = '#[path = "../../../../rust/program/src/programs/catalogue/mod.rs"]\npub mod catalogue;\n'
# The files that use raw pointers in Rattle, and their Rust form: types of the support module.
BY_HAND = {
    "test_alloc/refusing.rs": "pub use crate::rattle::refusing::{Plan, Refusing, takes_none};\n",
    "vers_c/held.rs": "pub type Held = crate::rattle::owners::Held<super::kept::Owner>;\n",
    "vers_c/loose.rs": "pub use crate::rattle::owners::Loose;\n",
}

# Functions that some processors have as an instruction. A call goes through a function of the support module, which
# takes the proved one too.
INSTRUCTIONS = {"vers_rank/word.rs": ("position_of_one", )}

# Tests that take minutes without optimization: cargo leaves them out by default. The gate runs them in Rattle.
SLOW = {
    "vers_rank_tests/tests/compared.rs": ("around_a_superblock", "past_two_superblocks"),
    "vers_trees_tests/tests/memory.rs": ("calls_take_memory_or_none", ),
}

# What replaces a `use` of Rattle's std, or of a crate that isn't stored; None for nothing.
HERE = "crate::rattle::"
USES = {
    "std::alloc::Allocator": HERE + "Allocator",
    "std::alloc::AllocError": HERE + "AllocError",
    "std::alloc::Global": HERE + "Global",
    "std::simd::prelude::*": HERE + "lanes::*",
    "std::marker::Model": None,
    "std::test::Fail": HERE + "testing::Fail",
    "std::process::Abort": HERE + "testing::Abort",
    "std::hash::FoldHasher": "std::collections::hash_map::DefaultHasher as FoldHasher",
    "vers_io::Sink": HERE + "io::Sink",
    "vers_io::Source": HERE + "io::Source",
}
# Paths that mean the same in both languages.
SAME = """std::marker::PhantomData std::ops::Range std::ops::Bound std::mem std::mem::replace std::mem::size_of std::io
std::io::Read std::io::Write std::fmt std::hash::Hash std::hash::Hasher std::hash::BuildHasher
std::hash::BuildHasherDefault std::error::Error std::str::from_utf8""".split()
USES.update({it: it for it in SAME})
# Those of programs besides.
PROGRAM_USES = {**USES, "std::io::ErrorKind": "std::io::ErrorKind", "std::fs": HERE + "fs",
                "std::fs::self": HERE + "fs", "std::fs::File": HERE + "fs::File", "std::fs::Files": HERE + "fs::Files",
                "std::path::Path": HERE + "fs::Path", "std::sync::Arc": "crate::shared::Arc",
                "std::env": HERE + "host::env", "std::io::IsTerminal": "std::io::IsTerminal",
                "std::process::ExitCode": "std::process::ExitCode"}

# Methods that the proved sources call and don't define. Those of Rust's own types are assumed to mean the same in both
# languages; the support module has the others.
METHODS = set("""all any as_arrays as_bytes as_mut_slice capacity checked_add checked_mul checked_sub clear
copy_from_slice copy_to_slice div_ceil extend_from_slice is_err is_none is_some is_sorted_by iter_mut leading_zeros map
map_err ok partition_point push push_reserved read_once reserve_exact resize rev reverse rotate_left saturating_add
saturating_mul saturating_sub simd_ge simd_ne size_hint sort_unstable sort_unstable_by_key split split_at_mut
split_first split_once strip_prefix then_some to_array to_bitmask to_le_bytes trailing_ones trailing_zeros unwrap
unwrap_or wrapping_add wrapping_mul wrapping_sub write_once write_str write_usize""".split())
# Those that programs call besides.
PROGRAM_METHODS = set("""alloc as_chunks as_path as_str cast_signed cast_unsigned chain checked_add_unsigned
checked_sub_unsigned collect copied discard into_box into_owner is_ascii_digit is_terminal permissions position read_all
replace set_permissions shrink_to stderr stdin stdout sync_all take unsigned_abs""".split())
# A method that takes a list of Rust's own there, and the one of the support module that takes a list of Rattle's.
RENAMED = {"read_to_end": "read_all"}
# A method that the oldest rustc lacks, and the one of the support module.
RENAMED_FOR_OLDEST = {"as_chunks": "as_arrays"}

KEPT_ATTRIBUTES = {"inline", "cfg", "test"}
DROPPED_ATTRIBUTES = {"tactic"}
# That of an export: bindings/c/src/exports.rs exports the call, and Rust's own tests call it in the build of wrong
# bodies.
EXPORT_ATTRIBUTE = "unsafe"
# A macro of a program for other crates; their modules are in one crate there.
EXPORTED_MACRO = re.compile(r"#\[macro_export\]\nmacro_rules! (\w+)")
DERIVES = {"Clone", "Copy", "PartialEq", "Eq", "Debug"}
MACROS = {"unreachable", "matches"}
GHOST_MACROS = {"prove", "prove_eq", "prove_ne"}
HANDLED_MACROS = {"assert", "assert_eq", "assert_ne"}
# Those of programs, which return a result, and their forms in the support module.
PRINTING = {"println": "crate::print_line", "eprintln": "crate::print_error"}
CLAUSES = {"requires", "ensures"}
# What may follow an item at the top of a file, a visibility or a ghost value.
ITEMS = CLAUSES | set("# pub ( ghost use fn const static type mod struct enum trait impl macro_rules extern ; =".split()) | {""}
# Words that no written file may have.
REFUSED = CLAUSES | {"ghost", "Model", "Drop", "unsafe", "macro_rules", "extern", "async", "dyn", "static_assert",
                     "Box", "Rc", "Cell"}
# Those that programs may have: the support module has a `Box`, and a macro means the same in both languages.
IN_PROGRAMS = {"Box", "macro_rules"}

PRELUDE = "use crate::rattle::prelude::*;"
NOTE = """//! Written by tools/plain_rust.py from the proved sources: not to be edited.
#![allow(unused_imports, unused_labels, unused_variables, unstable_name_collisions)]
#![deny(unconditional_recursion)]

"""

TOKEN = re.compile(
    r"""(?P<blank>(?:\s|//[^\n]*|/\*(?:[^*]|\*(?!/))*\*/)+)
    |(?P<text>b?"(?:[^"\\]|\\.)*")
    |(?P<char>b?'(?:[^'\\\n]|\\(?:[^u]|u\{[0-9a-fA-F_]+\}))')
    |(?P<life>'[A-Za-z_]\w*)
    |(?P<number>\d\w*(?:\.\d\w*)?)
    |(?P<word>[A-Za-z_]\w*)
    |(?P<sign>::|->|=>|[-+*/%^!&|=<>@.,;:\#$?~]|[()\[\]{}])
    |(?P<ghost>[^\x00-\x7f]|\\|')""",
    re.X,
)
CLOSING = {"(": ")", "[": "]", "{": "}"}


class Refused(Exception):
    """A form that no list names."""


class Token:
    """A token and the blanks and comments before it; or a group, with its tokens and the blanks before its end."""

    def __init__(self, kind, text, line, blank=""):
        self.kind, self.text, self.line, self.blank, self.inner, self.tail = kind, text, line, blank, None, ""

    def opens(self, bracket):
        """Returns whether this is a group in such brackets."""
        return self.inner is not None and self.text == bracket


NOTHING = Token("none", "", 0)


def read(text):
    """Returns the tokens of a text, with groups for what is in brackets; the last one has the blanks at its end."""
    groups, opened, blank, line, at = [[]], [], "", 1, 0
    while at < len(text):
        found = TOKEN.match(text, at)
        if not found:
            raise Refused(f"line {line}: no token begins with {text[at:at + 9]!r}")
        token = Token(found.lastgroup, found[0], line, blank)
        if token.text in CLOSING.values():
            if not opened or CLOSING[opened[-1].text] != token.text:
                raise Refused(f"line {line}: a bracket closes that isn't open")
            groups.pop()
            opened.pop().tail = blank
        elif token.kind != "blank":
            groups[-1].append(token)
        if token.text in CLOSING:
            token.inner = []
            groups.append(token.inner)
            opened.append(token)
        blank = token.text if token.kind == "blank" else ""
        line, at = line + token.text.count("\n"), found.end()
    if opened:
        raise Refused(f"line {opened[-1].line}: a bracket stays open")
    return [*groups[0], Token("end", "", line, blank)]


def source_of(tokens):
    """Returns the text that tokens were read from."""
    return "".join(it.blank + it.text + ("" if it.inner is None else source_of(it.inner) + it.tail + CLOSING[it.text])
                   for it in tokens)


def before_left_out(blank):
    """Returns the blanks before an item that is left out, without the comments that belong to it: up to the last empty
    line, or the words of the page."""
    return re.match(r"(?s)(?:.*(?://![^\n]*|(?=\n\n)))?", blank)[0]


def module_of(crate):
    """Returns the path of the module that a crate becomes."""
    return f"crate::{next(it for it in MODULES if crate in MODULES[it])}::{crate}"


def is_program(crate):
    """Returns whether a crate is written for the build of wrong bodies alone."""
    return crate in PROGRAMS + PROGRAM_TESTS


@functools.cache
def exported_macros():
    """Returns the names of the macros that programs export."""
    return {name for crate in PROGRAMS for it in read_crate(crate) for name in EXPORTED_MACRO.findall(it.text)}


class Writer:
    """What is written of one file. It notes the methods that are called and the functions that are defined.

    Each form that isn't written as it is begins with a token of `forms`. Its method gets the tokens and the number of
    that one, and returns what is written for the form and the number of its tokens, or None if it is another form.
    """

    def __init__(self, crate, name):
        self.crate, self.name, self.calls, self.defines, self.chunked = crate, name, {}, set(), set()
        self.refused, self.uses, self.renamed, self.macros = REFUSED, USES, {}, MACROS
        self.dropped, self.kept = DROPPED_ATTRIBUTES, KEPT_ATTRIBUTES
        self.forms = {"#": self.attribute, "pub": self.ghost, "ghost": self.ghost, "impl": self.model,
                      "use": self.use, "fn": self.function, "requires": self.clauses, "ensures": self.clauses,
                      "+": self.bound, ":": self.bound, ".": self.call}
        if is_program(crate):
            self.refused, self.uses, self.renamed = REFUSED - IN_PROGRAMS, PROGRAM_USES, RENAMED
            self.dropped = DROPPED_ATTRIBUTES | {EXPORT_ATTRIBUTE}
            self.kept, self.macros = KEPT_ATTRIBUTES | {"macro_export", "repr"}, MACROS | exported_macros()
            self.forms.update({"macro_rules": self.own_macro, "extern": self.export})
        if crate in FOR_OLDEST:
            # the forms that the oldest rustc lacks
            self.renamed = {**self.renamed, **RENAMED_FOR_OLDEST}
            self.forms.update({"let": self.let_else, "&": self.arrays})

    def refuse(self, token, why):
        """Raises that a form can't be written."""
        raise Refused(f"{self.name}:{token.line}: {why}")

    def code(self, tokens):
        """Returns what is written for tokens."""
        out, k = [], 0
        while k < len(tokens):
            text, count = self.form(tokens, k)
            out.append(text)
            k += count
        return "".join(out)

    def form(self, tokens, k):
        """Returns what is written for the form that begins at a token, and the number of its tokens."""
        it, second, third, _, fifth = (tokens[k:k + 5] + [NOTHING] * 4)[:5]
        special = it.kind in ("word", "sign") and it.text in self.forms and self.forms[it.text](tokens, k)
        if special:
            return special
        if it.inner is not None:
            return it.blank + it.text + self.code(it.inner) + it.tail + CLOSING[it.text], 1
        if it.kind == "word" and second.text == "!" and third.inner is not None:
            return self.macro(tokens, k)
        if it.kind == "text" and "\n" in it.text and not is_program(self.crate):
            self.refuse(it, "a text of several lines")
        if it.kind == "ghost" or it.text == "#" or (it.kind == "word" and it.text in self.refused):
            self.refuse(it, f"{it.text!r} in code")
        if it.kind == "word" and second.text == "::" and (k == 0 or tokens[k - 1].text != "::"):
            return it.blank + self.root(it, third.text, fifth.text), 1
        return it.blank + it.text, 1

    def root(self, it, second, third):
        """Returns the translation of the first word of a path."""
        if it.text == "crate":
            return module_of(self.crate)
        known = MODULES if is_program(self.crate) else ("proved", "proved_tests")
        if it.text != self.crate and any(it.text in MODULES[module] for module in known):
            return module_of(it.text)
        if it.text in ("std", "core", "alloc") and f"std::{second}::{third}" not in SAME:
            self.refuse(it, f"the path {it.text}::{second}::{third}")
        return it.text

    # What bodies, types and values contain.

    def call(self, tokens, k):
        """Notes the call of a method."""
        name, after = (tokens[k + 1:k + 3] + [NOTHING] * 2)[:2]
        if name.kind == "word" and after.text in ("(", "::"):
            name.text = self.renamed.get(name.text, name.text)
            self.calls.setdefault(name.text, name.line)

    def bound(self, tokens, k):
        """Leaves out a bound by Drop. The first one says in Rattle that the type has a size, too."""
        if [it.text for it in tokens[k + 1:k + 2]] == ["Drop"]:
            return tokens[k].blank + ": Sized" if tokens[k].text == ":" else "", 2
        return None

    def macro(self, tokens, k):
        """Writes the use of a macro: as it is, or without the handle that comes first, and a semicolon; or leaves out a
        condition to prove."""
        name, _, group = tokens[k:k + 3]
        text = source_of([group]).strip()
        if name.text in GHOST_MACROS:
            if k + 3 == len(tokens) or tokens[k + 3].text != ";":
                self.refuse(name, "a condition to prove that is no statement")
            return "", 4
        if name.text in self.macros:
            return f"{name.blank}{name.text}!", 2
        if name.text in HANDLED_MACROS or name.text in PRINTING and is_program(self.crate):
            rest = next((n for n, it in enumerate(group.inner, 1) if it.text == ";"), None)
            if rest is None:
                self.refuse(name, f"{name.text}! without a handle")
            macro = PRINTING.get(name.text, name.text)
            return f"{name.blank}{macro}!({self.code(group.inner[rest:]).lstrip()}{group.tail})", 3
        if name.text == "vec" and (found := re.fullmatch(r"\[in ([^;]+); ([^;]+); ([^;]+)\]", text)):
            # An allocator, an item, and how many times.
            return name.blank + self.code(read(f"Vec::from_elem({', '.join(found.groups())})")), 3
        if name.text == "format" and re.match(r"\(in [^;]+; ", text):
            return f"{name.blank}crate::rattle::granted(format!({text.split('; ', 1)[1]})", 3
        return self.refuse(name, f"the macro {name.text}!")

    # The forms that the oldest rustc lacks.

    def let_else(self, tokens, k):
        """Writes a statement `let .. else ..` as a `match`, and notes the name of what `as_chunks` returns: an entry
        of it is borrowed by a call, for as long as the items are."""
        end = next((n for n in range(k, len(tokens)) if tokens[n].text == ";"), k)
        words = tokens[k:end]
        if any(it.text == "as_chunks" for it in words):
            self.chunked.add(words[1].inner[0].text)
        if len(words) < 6 or words[-2].text != "else" or not words[1].text[0].isupper():
            return None
        name = source_of(words[2:3])[1:-1]
        if not re.fullmatch(r"(mut )?\w+|\(\w+(, \w+)*\)", name) or [it.text for it in words[1:4:2]] not in (["Some", "="],
                                                                                                        ["Ok", "="]):
            self.refuse(words[0], "a pattern of another form before `else`")
        bound, value, other = name.replace("mut ", ""), self.code(words[4:-2]), self.code(words[-1:]).lstrip()
        return (f"{words[0].blank}let {name} = match{value}{words[-2].blank}{{ {words[1].text}({bound}) => {bound}, "
                f"_ => {other} }};", end + 1 - k)

    def arrays(self, tokens, k):
        """Writes a type that is a slice of arrays, or an entry of a value of such a type."""
        words = [it for it in tokens[k + 1:k + 3] if it.kind != "life"]
        if len(words) > 1 and words[0].text in self.chunked and words[1].opens("["):
            return f"{tokens[k].blank}{words[0].text}.at({source_of(words[1:])[1:-1]})", 3
        if not (words and words[0].opens("[")):
            return None
        life = tokens[k + 1].text if tokens[k + 1].kind == "life" else "'_"
        found = re.fullmatch(r"\[\[(\w+); (\w+)\]\]", source_of(words[:1]).strip())
        return found and (f"{tokens[k].blank}Arrays<{life}, {found[1]}, {found[2]}>", 2 + (life != "'_"))

    # Items.

    def ghost(self, tokens, k):
        """Leaves out a ghost item: a `use`, or a name with a type or a value in braces."""
        start = k + (tokens[k].text == "pub")
        if tokens[start].text != "ghost":
            return None
        text = " ".join("{}" if it.opens("{") else it.text for it in tokens[start:start + 7]) + " "
        found = re.match(r"ghost \w+ (?:: {} = {}|[:=] {}) (?:[;,] |$)", text)
        if tokens[start + 1].text == "use":
            end = next(n for n in range(start, len(tokens)) if tokens[n].text == ";") + 1
        elif found:
            end = start + len(found[0].split())
        else:
            self.refuse(tokens[start], f"a ghost item of another form: {text}")
        return before_left_out(tokens[k].blank), end - k

    def model(self, tokens, k):
        """Leaves out an impl of Model, which has only ghost items."""
        end = next((n for n in range(k, len(tokens)) if tokens[n].opens("{")), k)
        head = [it.text for it in tokens[k:end]]
        if ("Model", "for") not in zip(head, head[1:]):
            return None
        if self.code(tokens[end].inner).strip():
            self.refuse(tokens[k], "an impl of Model with more than ghost items")
        return before_left_out(tokens[k].blank), end + 1 - k

    def attribute(self, tokens, k):
        """Writes an attribute, or leaves it out with its line."""
        is_inward = tokens[k + 1].text == "!"
        end = k + 2 + is_inward
        name, *rest = tokens[end - 1].inner or [NOTHING]
        whole = source_of(tokens[k:end])
        if name.text == "derive":
            names = [it.text for it in rest[0].inner if it.kind == "word" and it.text != "Drop"]
            if set(names) - DERIVES:
                self.refuse(name, f"a derive of {names}")
            whole = f"{tokens[k].blank}#[derive({', '.join(names)})]" if names else ""
        elif name.text in self.dropped:
            whole = ""
        elif name.text not in self.kept or is_inward:
            self.refuse(name, f"the attribute {whole}")
        if is_inward:
            return tokens[k].blank.rstrip(), end - k
        if not whole:
            tokens[end].blank = tokens[k].blank + tokens[end].blank.lstrip()
        return whole, end - k

    def use(self, tokens, k):
        """Writes a `use`, by the list of translations of std."""
        end = next(n for n in range(k, len(tokens)) if tokens[n].text == ";")
        path = " ".join(source_of(tokens[k + 1:end]).split())
        if is_program(self.crate) and path.split("::")[-1] in exported_macros():
            return f"{tokens[k].blank}use crate::{path.split('::')[-1]};", end + 1 - k
        if path.split("::")[0] not in ("std", "core", "alloc", *["vers_io"] * (not is_program(self.crate))):
            return None
        whole = re.fullmatch(r"(.*::)\{(.*?),? ?\}", path)
        paths = [whole[1] + it.strip() for it in whole[2].split(",")] if whole else [path]
        for it in paths:
            if it not in self.uses:
                self.refuse(tokens[k], f"the path {it}")
        public = "pub " if k and tokens[k - 1].text == "pub" else ""
        lines = [f"use {self.uses[it]};" for it in paths if self.uses[it]]
        return (tokens[k].blank if lines else tokens[k].blank.rstrip()) + f"\n{public}".join(lines), end + 1 - k

    def function(self, tokens, k):
        """Notes the name of a function, and writes the usual signature of `fmt`. A test makes the runtime that it is
        given in Rattle."""
        end = next((n for n in range(k, len(tokens)) if tokens[n].opens("{") or tokens[n].text in CLAUSES | {";"}), k)
        flat = " ".join(source_of(tokens[k:end]).split())
        self.chunked = set()
        self.defines.add(tokens[k + 1].text)
        if given := re.search(r"\((\w+): HostRuntime\)", flat):
            next(it for it in tokens[k:] if it.opens("(")).inner = []
            body = next(it for it in tokens[end:] if it.opens("{"))
            body.inner.insert(0, Token("number", f"\n    let {given[1]} = HostRuntime;", body.line))
        if "fmt::Write" not in flat:
            return None
        if flat != "fn fmt<W: fmt::Write>(&self, f: &mut fmt::Formatter<W>) -> fmt::Result":
            self.refuse(tokens[k], "a signature of fmt that is not the usual one")
        return f"{tokens[k].blank}fn fmt(&self, f: &mut fmt::Formatter<'_>) -> fmt::Result", end - k

    def clauses(self, tokens, k):
        """Leaves out the clauses of a function."""
        form, head = " ".join("{}" if it.opens("{") else it.text for it in tokens[k:]), [it.text for it in tokens[:k]]
        found = re.match(r"(?:(?:requires|ensures) (?:\w+ )?{} )+(?=[{;])", form)
        if not (found and "fn" in head):
            self.refuse(tokens[k], "a clause of another form")
        count, has_bounds = len(found[0].split()), "where" in head[len(head) - head[::-1].index("fn"):]
        tokens[k + count].blank = "" if tokens[k + count].text == ";" else "\n" if has_bounds else " "
        return "", count

    def own_macro(self, tokens, k):
        """Notes the name of a macro of the file's own."""
        self.macros = self.macros | {tokens[k + 2].text}

    def export(self, tokens, k):
        """Leaves out that a function is exported to C."""
        tokens[k + 2].blank = tokens[k].blank
        return "", 2

    def file(self, text):
        """Returns what is written for a file's text."""
        tokens = read(text)
        for before, it in zip([Token("sign", ";", 0), *tokens], tokens):
            if (before.text in (";", "pub") or before.opens("{")) and not (it.text in ITEMS or it.opens("{")):
                self.refuse(it, f"an item that begins with {it.text!r}")
        lines = self.code(tokens).split("\n")
        # The names that every file sees come after the page's words.
        at = next((k for k, it in enumerate(lines) if not it.startswith("//!")), len(lines))
        lines[at:at] = ["", PRELUDE]
        text = re.sub(r"\{\n\n+", "{\n", re.sub(r"\n{3,}", "\n\n", "\n".join(lines)))
        # The program's own `main` calls it, and `bindings/c/src/exports.rs` the exports.
        text = re.sub(r"(?m)^fn main\(", "pub fn main(", text)
        if self.crate in EXPORTS:
            text = re.sub(r"(?m)^mod ", "pub mod ", text)
        for name in INSTRUCTIONS.get(self.name, ()):
            text, count = re.subn(rf"(?<!fn )\b{name}\(", f"{HERE}instructions::{name}({name}, ", text)
            if not count:
                raise Refused(f"{self.name}: no call of {name}")
        for test in SLOW.get(self.name, ()):
            text, count = re.subn(rf"(?m)^#\[test\]\n(?=fn {test}\()",
                                  "#[test]\n#[ignore = \"slow without optimization\"]\n", text)
            if count != 1:
                raise Refused(f"{self.name}: no test {test}")
        return re.sub(r"\{\n\s*\}", "{}", text).strip("\n") + "\n"


def path_of(source):
    """Returns the path that a source file is written to."""
    stem = source.path.partition("/src/")[2].removesuffix(".rt")
    return f"{source.crate}/{'mod' if stem in ('lib', 'main') else stem}.rs"


def written_of(crates):
    """Returns the files that crates become, by their paths, the faults that were met, where each method is called, and
    the functions that are defined."""
    written, faults, calls, defines = {}, [], {}, set()
    for crate in crates:
        for path, text in [(path_of(it), it.text) for it in read_crate(crate)]:
            if path in BY_HAND:
                written[path] = BY_HAND[path]
                continue
            writer = Writer(crate, path)
            try:
                written[path] = writer.file(text)
            except Refused as why:
                faults.append(str(why))
            calls.update({it: f"{path}:{line}" for it, line in writer.calls.items()})
            defines |= writer.defines
    written["mod.rs"] = modules(crates)
    return written, faults, calls, defines


def modules(crates, before=""):
    """Returns the text of the module that has the modules of crates, after other lines."""
    return NOTE + before + "".join(f"pub mod {it};\n" for it in crates)


def written():
    """Returns all files that the script stores, by their paths in the folder of the crate's sources, and the faults
    that it met, in the crates that it doesn't store too."""
    files, faults = pages(f"{TOP}/{RUST}", CRATES)
    known, texts = set(METHODS), {}
    for module, crates in MODULES.items():
        made, wrong, calls, defines = written_of(crates)
        if crates in (CRATES, PROGRAMS):
            known |= defines | (PROGRAM_METHODS if crates is PROGRAMS else set())
            wrong += [f"{calls[it]}: the method {it}" for it in sorted(set(calls) - known)]
        texts.update(made)
        faults += [f"{module}: {it}" for it in wrong]
    for folder, crates in STORED.items():
        files.update({f"{folder}/{path}": text for path, text in texts.items() if path.split("/")[0] in crates})
        files[f"{folder}/mod.rs"] = modules(crates, CATALOGUE * (crates is EXPORTS))
    return files, faults


def write_tests():
    """Writes the tests of the proved sources into cargo's folder."""
    texts, faults, *_ = written_of(TESTS)
    if faults:
        raise Refused("\n".join(faults))
    write_files(f"{TOP}/rust/target/proved_tests", texts)


def stored(folder):
    """Returns the files of the folders that the script alone writes, by their paths in the folder of the crate's
    sources."""
    return {f"{it}/{path.relative_to(Path(folder, it))}" for it in STORED for path in Path(folder, it).rglob("*")
            if path.is_file()}


TRIED = {
    "pub fn f(x: u8) -> u8\n    requires { x < 2 }\n    ensures small { result ≡ x }\n{\n    x\n}\n": "pub fn f(x: u8) -> u8 {\n    x\n}\n",
    "#[derive(Drop)]\npub struct S {\n    /// A.\n    a: u8,\n    ghost low: { a < 2 },\n}\n": "pub struct S {\n    /// A.\n    a: u8,\n}\n",
    "pub trait T: Copy + Drop {\n    ghost n: { Self → ℕ };\n\n    /// F.\n    fn f(self);\n}\n": "pub trait T: Copy {\n    /// F.\n    fn f(self);\n}\n",
    "impl Model for S {\n    ghost view = { λ s. s };\n}\n\nfn f() {\n    prove!(1 < 2);\n    g::<'a', u8>(\"requires { }\")\n}\n":
        "fn f() {\n    g::<'a', u8>(\"requires { }\")\n}\n",
    "use crate::a::B;\nuse vers_bits::c;\n": "use crate::proved::vers_rank::a::B;\nuse crate::proved::vers_bits::c;\n",
    "fn f() {\n    let Some((a, b)) = g(1) else {\n        return;\n    };\n}\n":
        "fn f() {\n    let (a, b) = match g(1) { Some((a, b)) => (a, b), _ => {\n        return;\n    } };\n}\n",
    "fn f(w: &[u64]) -> &[u64; 8] {\n    let (blocks, _) = w.as_chunks::<8>();\n    { &blocks[1] }\n}\n":
        "fn f(w: &[u64]) -> &[u64; 8] {\n    let (blocks, _) = w.as_arrays::<8>();\n    { blocks.at(1) }\n}\n",
    "fn f(x: &'a [[u8; 8]]) {}\n": "fn f(x: Arrays<'a, u8, 8>) {}\n",
    "fn f() { let Err(A { b }) = g() else { return; }; }": None,
    "fn f() { println!(\"\") }": None,
    "fn f() { assert!(x) }": None,
    "fn f() -> bool { prove!(1 < 2) }": None,
    "fn f() { g(\"a\nb\") }": None,
    "fn fmt<W: fmt::Write>(&self, f: W) {}": None,
    "impl Model for S {\n    fn f() {}\n}\n": None,
    "fn f() requires x y { } { }": None,
    "#[repr(C)]\nstruct S;": None,
    "use std::collections::HashMap;": None,
    "use std::fs::File;": None,
    "use vers_io::Device;": None,
    "fn f(x: Box<u8, A>) {}": None,
    "fn f(x: Cell<u8>) {}": None,
    "fn f(x: Rc<u8>) {}": None,
    "fn f(x: &dyn T) {}": None,
    "#[derive(Clone, Ord)]\nstruct S;": None,
    "fn f() { unsafe { g() } }": None,
    "fn f() { std::process::exit(1) }": None,
    "fn f() { core::process::exit(1) }": None,
    "fn f() { alloc::process::exit(1) }": None,
    "macro_rules! m { () => {} }": None,
    "fn f() -> ℕ { 1 }": None,
    "fn f( { }": None,
    "fn f(x] {}": None,
    "union U { a: u8 }": None,
}
# The same in programs.
TRIED_IN_PROGRAMS = {
    "use std::fs::File;\nuse vers_io::Device;\nuse vers_bits::c;\n":
        "use crate::rattle::fs::File;\nuse crate::programs::vers_io::Device;\nuse crate::proved::vers_bits::c;\n",
    "fn f() -> Box<u8, A> {\n    let Err(A { b }) = vec![in alloc; 0u8; N]? else { return; };\n    r.read_to_end(&mut b)\n}\n":
        "fn f() -> Box<u8, A> {\n    let Err(A { b }) = Vec::from_elem(alloc, 0u8, N)? else { return; };\n    r.read_all(&mut b)\n}\n",
    "macro_rules! m {\n    ($x:expr) => {\n        $x\n    };\n}\n\nfn f() -> u8 {\n    m!(1)\n}\n":
        "macro_rules! m {\n    ($x:expr) => {\n        $x\n    };\n}\n\nfn f() -> u8 {\n    m!(1)\n}\n",
    "use catalogue::with_list;\n\nfn f() -> u8 {\n    with_list!(s, list => 1)\n}\n":
        "use crate::with_list;\n\nfn f() -> u8 {\n    with_list!(s, list => 1)\n}\n",
    "#[unsafe(no_mangle)]\npub extern \"C\" fn f(x: u8) -> u8\n    ensures { result ≡ x }\n{\n    x\n}\n": "pub fn f(x: u8) -> u8 {\n    x\n}\n",
    "#[repr(C)]\npub struct S {\n    a: u8,\n    pub ghost low: { a < 2 },\n}\n": "#[repr(C)]\npub struct S {\n    a: u8,\n}\n",
    "fn f() -> u8 { m!(1) }": None,
    "fn f() { vec![1, 2] }": None,
    "use std::net::TcpStream;": None,
    "fn f() { unsafe { g() } }": None,
}


def self_test():
    """Tries forms that are written and forms that are refused, and returns the exit status."""
    faults = [*rust_contracts.self_test(f"{TOP}/{RUST}", CRATES)]
    tried = [("vers_rank", *it) for it in TRIED.items()] + [("vers_cli", *it) for it in TRIED_IN_PROGRAMS.items()]
    for crate, text, wanted in tried:
        try:
            got = Writer(crate, "tried").file(text).split(PRELUDE + "\n", 1)[1].lstrip("\n")
        except Refused:
            got = None
        if got != wanted:
            faults.append(f"of {text!r} came {got!r}, and not {wanted!r}")
    return report_tests(len(tried) + len(rust_contracts.PLANTS), faults)


def main(arguments):
    """Writes the files, compares them, or tries the forms."""
    if arguments == ["--self-test"]:
        return self_test()
    if arguments == ["--tests"]:
        return write_tests()
    folder, is_check = f"{TOP}/{RUST}", arguments == ["--check"]
    files, faults = written()
    faults += [f"{it} is written from nothing" for it in sorted(stored(folder) - set(files))]
    faults += guard_faults(folder, CRATES) if is_check else []
    if report("tools/plain_rust.py", faults) and not is_check:
        return 1
    return write_or_check({f"{RUST}/{path}": text for path, text in files.items()}, "tools/plain_rust.py") or bool(faults)


if __name__ == "__main__":
    try:
        sys.exit(main(sys.argv[1:]))
    except Refused as why:
        sys.exit(f"tools/plain_rust.py: {why}")
