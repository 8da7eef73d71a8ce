#!/usr/bin/env python3
"""Runs the wrong bodies of libraries, programs and exports as plain Rust: all of them in one build, each by the test
that it names. docs/GATE.md says what a rejection is worth.

    tools/mutants.py [CRATE..]      builds, and runs each wrong body; the last line is "N passed, M failed"
    tools/mutants.py --self-test    tries edits of bodies, signatures and constants, and edits that are refused

A wrong body that names no test is a fault, and is printed with the quickest test that fails with it.

Each edit is applied to the source in Rattle. A body with wrong ones becomes

    match rattle::mutants::active() { 17 => { .. } 18 => { .. } _ => { the right body } }

which tools/plain_rust.py writes as Rust, under `cfg(mutants)`; the environment variable MUTANT says which is active. A
test may lower the greatest length of a list, and have requests of the heap refused (rust/src/rattle/mutants.rs).
"""
import functools
import json
import os
import re
import signal
import subprocess
import sys
import time
from collections import Counter, defaultdict
from concurrent.futures import ThreadPoolExecutor
from pathlib import Path

from mutant_plants import EDITS, RIGHT, SMALL
from plain_rust import (BY_HAND, CRATES, MODULES, PROGRAM_TESTS, PROGRAMS, Refused, Writer, path_of, write_tests,
                        written_of)
from sources import (TOP, Source, has_cargo, load_edit, read, read_crate, report_tests, write_files,
                     wrong_bodies)

RUST = f"{TOP}/rust"
# What a test of wrong bodies needs and no caller has, behind a file: a counter whose counts are the greatest.
BESIDES = {"vers_tally/tally.rs": """
impl Tally {
    pub fn full() -> Tally {
        let most = u64::MAX;
        Tally {
            data_words: most, block_entries: most, superblock_entries: most, low_parts: most, rank_calls: most,
            items: most, blocks: most, nodes: most, chunks: most,
        }
    }
}
"""}
# The limits of a run: a multiple of the time of the right bodies, processor seconds more, and bytes of memory; and the
# seconds by the clock after which a test that waits is ended.
TIMES, SECONDS, MEMORY, WAITING = 8, 2, 2 << 30, 1800
# What rustc refuses by itself in a wrong body that it could compile.
NOTE = "#![allow(arithmetic_overflow, unconditional_panic, unconditional_recursion, unreachable_code, unused, unstable_name_collisions)]\n\n"


class Mutant:
    """A wrong body: its crate, its name, its edit, the file that it changes, and the test that has to fail; or a right
    body, which the test of the wrong one of that name has to pass."""

    def __init__(self, crate, name, edit, is_right=False):
        self.crate, self.name, self.edit, self.is_right, self.number = crate, name, edit, is_right, 0
        self.row = next(iter(re.findall(r"(?m)^row: (\S+)$", edit)), "")
        self.path = f"crates/{crate}/{re.search(r'file: ?(.*)', edit)[1]}"

    def line(self, what):
        """Returns a line about it."""
        return f"{self.crate}: {'right body for ' * self.is_right}{self.name}: {what}"

    def change(self, source):
        """Returns the function that it changes in a source and the lines of its body, or raises a `ValueError`."""
        function, lines = load_edit(self.edit, [source])
        if not self.name.startswith(f"{function.name}--") and not self.is_right:
            raise ValueError(f"its name doesn't begin with `{function.name}--`, for the function that it changes")
        writer = Writer(self.crate, self.path)
        writer.macros = writer.macros | set(re.findall(r"macro_rules! (\w+)", source.text))
        writer.file("\n".join(["fn body() {", *lines, "}"]))
        return function, lines


def lowered(lines):
    """Returns lines of a body with greatest lengths that a test may lower."""
    return [re.sub(r"(?<![\w:])(?:\w+::)*MAX_LEN\b", r"rattle::mutants::most(\g<0>)", it) for it in lines]


class Build:
    """The written files with all wrong bodies, and the faults that were met."""

    def __init__(self, mutants):
        self.files, self.faults = {}, []
        for number, it in enumerate(mutants, 1):
            it.number = number
        for module, crates in (("proved", CRATES), ("programs", PROGRAMS)):
            for source in [it for crate in crates for it in read_crate(crate) if path_of(it) not in BY_HAND]:
                path, text = path_of(source), self.with_arms(source, [it for it in mutants if it.path == source.path])
                text = Writer(source.crate, path).file(text).replace("rattle::mutants", "crate::rattle::mutants")
                # A body with many arms that is put into each of its callers would multiply.
                text = text.replace("#[inline(always)]", "#[inline]") + BESIDES.get(path, "")
                self.files[f"{module}/{path}"] = text
            self.files[f"{module}/mod.rs"] = NOTE + "".join(f"pub mod {it};\n" for it in crates)
        self.files.update({f"program_tests/{path}": text for path, text in written_of(PROGRAM_TESTS)[0].items()})
        self.files.update({f"programs/{path}": text for path, text in BY_HAND.items() if path.startswith("vers_c/")})
        # Rust's own tests call functions in private modules.
        for path in [*(f"programs/{it}/mod.rs" for it in PROGRAMS), "proved/text_index/mod.rs"]:
            self.files[path] = re.sub("(?m)^mod ", "pub mod ", self.files[path])

    def with_arms(self, source, mutants):
        """Returns the text of a source in which each wrong body is an arm of a `match`."""
        wrong, lines = defaultdict(list), [*source.lines]
        for it in mutants:
            try:
                function, body = it.change(source)
                wrong[function].append((it, body))
            except (Refused, ValueError) as why:
                self.faults.append(it.line(f"it can't be written: {why}"))
        for function in reversed([it for it in source.functions if it.has_body]):
            lines[function.body:function.last] = lowered(lines[function.body:function.last])
            if function in wrong:
                arms = ["match rattle::mutants::active() {"]
                for it, body in wrong[function]:
                    arms += [f"{it.number} => {{ // wrong body {it.number}", *lowered(body), "}"]
                arms += ["_ => { // right body", *lines[function.body:function.last], "}", "}"]
                lines[function.body:function.last] = arms
        return "\n".join(lines)

    def at_fault(self, errors):
        """Returns the numbers of the wrong bodies in which errors of rustc are."""
        found = set()
        for span in [span for error in errors for span in error["spans"]]:
            lines = self.files.get(span["file_name"].partition("target/mutants/")[2], "").split("\n")
            before = re.findall(r"// (?:wrong|right) body ?(\d*)", "\n".join(lines[:span["line_start"]]))
            found |= {int(it) for it in before[-1:] if it}
        return found


def compiled(mutants):
    """Compiles the tests with all wrong bodies, and returns the program and the faults."""
    build = Build(mutants)
    write_tests()
    write_files(f"{RUST}/target/mutants", build.files)
    flags = {"RUSTFLAGS": "--cfg mutants --cap-lints allow", "CARGO_TARGET_DIR": f"{RUST}/target/mutants/built"}
    done = subprocess.run(["cargo", "test", "--lib", "--no-run", "--offline", "--message-format=json"], cwd=RUST,
                          env={**os.environ, **flags}, stdout=subprocess.PIPE, stderr=subprocess.DEVNULL, text=True,
                          check=False)
    messages = [json.loads(it) for it in done.stdout.splitlines()]
    errors = [it["message"] for it in messages
              if it["reason"] == "compiler-message" and it["message"]["level"] == "error"]
    wrong = build.at_fault(errors)
    faults = build.faults + [it.line("rustc refuses it") for it in mutants if it.number in wrong]
    if errors and not wrong:
        faults += [it["rendered"] for it in errors[:3]]
    built = [it["executable"] for it in messages if it["reason"] == "compiler-artifact" and it.get("executable")]
    return next(iter(built), None), faults


def module_of(row):
    """Returns the path of a test in the crate."""
    crate = row.partition("::")[0]
    return f"{next((f'{it}::' for it in MODULES if crate in MODULES[it]), '')}{row}"


def run(program, test, mutant, seconds):
    """Runs one test with a wrong body, for some processor seconds, and returns how it failed, or None if it passed."""
    command = ["prlimit", f"--as={MEMORY}", f"--cpu={int(seconds) + 1}", program, test, "--exact", "--include-ignored",
               "--test-threads=1", "--nocapture"]
    try:
        done = subprocess.run(command, env={**os.environ, "MUTANT": str(mutant), "RUST_BACKTRACE": "0"},
                              timeout=WAITING, check=False, stdin=subprocess.DEVNULL, capture_output=True,
                              encoding="utf-8", errors="replace")
    except subprocess.TimeoutExpired:
        return "waits"
    if done.returncode in (-signal.SIGXCPU, -signal.SIGKILL):
        return "doesn't end"
    if done.returncode == 0:
        return None if "1 passed" in done.stdout else "isn't there"
    if at := re.search(r"panicked at (?:.*/)?(src/\S+:\d+)", done.stderr):
        return f"fails at {at[1]}"
    return "returns an error" if "1 failed" in done.stdout else "ends the process"


def timed(program, test):
    """Returns how many seconds a test takes with the right bodies, and how it failed."""
    start = time.monotonic()
    end = run(program, test, 0, 300)
    return time.monotonic() - start, end


def judged(program, mutants):
    """Yields for each wrong body with a row whether its test fails with it and passes without it, a line about it, and
    how it failed."""
    with ThreadPoolExecutor(len(os.sched_getaffinity(0))) as pool:
        rows = sorted({it.row for it in mutants})
        right = dict(zip(rows, pool.map(lambda row: timed(program, module_of(row)), rows)))
        ends = pool.map(lambda it: run(program, module_of(it.row), it.number, SECONDS + TIMES * right[it.row][0]),
                        mutants)
        for it, end in zip(mutants, ends):
            if fault := right[it.row][1]:
                yield False, it.line(f"{it.row} fails with the right bodies too: {fault}"), ""
            else:
                kind = re.sub(r"fails at src/(?:\S*/)?\w+_tests/.*", "fails in the test", end or "right: passes")
                kind = re.sub("fails at .*", "panics in the body", kind)
                yield bool(end) != it.is_right, it.line(f"{it.row} {end or 'passes'}"), kind


def rows_found(program, mutants):
    """Yields for each wrong body the quickest test that fails with it, of its own crate's if one does, or None."""
    listed = subprocess.run([program, "--list"], stdout=subprocess.PIPE, text=True, check=True).stdout
    names, time_of = re.findall(r"(?m)^(\w+::.*): test$", listed), functools.cache(lambda it: timed(program, it))
    for mutant in mutants:
        near = [it for it in names if f"::{mutant.crate}_tests::" in it]
        tried = (it for group in (near, names) for it in sorted(group, key=time_of) if not time_of(it)[1])
        failing = (it for it in tried if run(program, it, mutant.number, SECONDS + TIMES * time_of(it)[0]))
        yield re.sub("^(proved|program)_tests::", "", next(failing, "")) or None


def self_test():
    """Tries edits of a small source, and returns the exit status, 1 if one is refused otherwise than it has to be."""
    faults, small = [], Source("small", "crates/small/src/lib.rt", SMALL)
    for name, (edit, expected) in EDITS.items():
        try:
            mutant = Mutant("small", name, edit)
            mutant.change(small)
            refusal = "" if mutant.row else "names no test"
        except ValueError as why:
            refusal = str(why)
        if bool(refusal) != bool(expected) or expected not in refusal:
            faults.append(f"{name} is refused with {refusal!r}, and not with {expected!r}")
    return report_tests(len(EDITS), faults)


def all_mutants(crates):
    """Returns the wrong bodies of crates, or of all of them, and the right ones."""
    texts = {os.path.relpath(it, TOP): read(it) for it in Path(TOP, "crates").glob("*/wrong/**/*.edits")}
    edits = {(crate, name): edit for crate, name, edit in wrong_bodies(texts)}
    if unknown := set(crates) - {crate for crate, _ in edits}:
        sys.exit(f"no wrong bodies of {', '.join(sorted(unknown))}")
    mutants = [Mutant(*it, edit) for it, edit in edits.items() if it[0] in (crates or it)]
    for crate, name, *pair in RIGHT:
        head = re.sub(r"(?m)^(?:old|new): .*\n", "", edits[crate, name])
        mutants.append(Mutant(crate, name, head + "old: {}\nnew: {}\n".format(*pair), is_right=True))
    return mutants


def main(arguments):
    """Builds and runs the wrong bodies."""
    if arguments == ["--self-test"]:
        return self_test()
    if not has_cargo():
        print("left out: the wrong bodies that a test refuses (no cargo 1.88 or newer)")
        return 0
    mutants, ends = all_mutants(arguments), Counter()
    program, faults = compiled(mutants)
    if not program:
        faults.append("the wrong bodies were not built")
    else:
        without_row = [it for it in mutants if not it.row]
        for it, row in zip(without_row, rows_found(program, without_row)):
            faults.append(it.line(f"it names no test that fails with it, such as `row: {row}`"))
        for is_as_wanted, line, end in judged(program, [it for it in mutants if it.row]):
            if is_as_wanted:
                ends[end] += 1
            else:
                faults.append(line)
            if end == "doesn't end":
                print(line)
    counts = Counter(it.crate for it in mutants if not it.is_right)
    print("".join(f"{crate}: {count} wrong bodies\n" for crate, count in counts.items()), end="")
    print("".join(f"{end}: {count}\n" for end, count in ends.most_common()), end="")
    return report_tests(sum(ends.values()) + len(faults), faults)


if __name__ == "__main__":
    sys.exit(main(sys.argv[1:]))
