#!/usr/bin/env python3
"""Proves crates with those below them, two side by side on four processors: proofs.py CRATE..

Each crate begins once those below it are proved, and a library whose build is newer than its sources, by this script or
by `rt ci`, is skipped. Standard error reports each. A library is built as `rt ci` builds it: the crates above read
what it says, and not its proofs. A static library is built into `out`. A program is built and linked, and its file
`out/NAME.built` is then as old as the beginning of the run.
"""
import contextlib
import os
import re
import shutil
import signal
import subprocess
import sys
import tempfile
import threading
import time
from concurrent.futures import FIRST_COMPLETED, ThreadPoolExecutor, wait
from graphlib import TopologicalSorter
from pathlib import Path

from sources import TOP, read, write_files

PARTS = ("src", "specs", "proofs")
TARGET = "x86_64-unknown-linux-gnu"
# What a check says of a fault or an unproved goal: its position, its function, and what is to be shown there.
REASON = re.compile(
    r"^((note: )?(\./)?(src|specs|proofs)/\S+:\d+:\d+: (?!note: ).*|fn (?!.*: (proved|no proof: it calls)).*|note: `.* must prove: .*)", re.M)


class Failure(Exception):
    """Says why something could not be proved or tried."""


def toolchain():
    """Returns the folder of the toolchain."""
    return Path(shutil.which("rt")).resolve().parents[1]


class Crates:
    """The crates of the repository, and the line of each in crates.txt."""

    def __init__(self):
        lines = [line.split("#")[0].strip() for line in read("crates.txt").split("\n")]
        self.lines = {line.split(":")[0].split()[0]: line for line in lines if ":" in line}

    def folder(self, name):
        """Returns the folder of a crate."""
        return f"{TOP}/crates/{name}"

    def is_program(self, name):
        """Returns whether a crate is a program."""
        return os.path.isfile(f"{self.folder(name)}/src/main.rt")

    def built(self, name):
        """Returns the folder that a library is built into."""
        return f"{self.folder(name)}/out/rlib/{name}.rlib"

    def uses(self, name):
        """Returns the repository's libraries that a crate names."""
        return [it for it in self.lines[name].partition(":")[2].split() if it in self.lines]

    def below(self, name):
        """Returns the libraries below a crate, each after those that it depends on."""
        return list(dict.fromkeys(it for use in self.uses(name) for it in [*self.below(use), use]))

    def is_fresh(self, path, names, *others):
        """Returns whether a file or folder is there and as new as the sources of crates and as other files."""
        folders = [Path(self.folder(it), part) for it in names for part in PARTS]
        files = [*others, *folders, *(file for folder in folders for file in folder.rglob("*"))]
        return os.path.exists(path) and all(it.stat().st_mtime <= os.stat(path).st_mtime
                                            for it in [Path(TOP, "crates.txt"), *files] if it.exists())

    def is_built(self, name):
        """Returns whether the build of a library is newer than its sources and than the libraries that it uses."""
        below = [Path(self.built(it)) for it in self.uses(name)]
        return all(map(Path.is_dir, below)) and self.is_fresh(self.built(name), [name], *below)

    def commands(self, name, jobs):
        """Returns the commands that prove a crate in its folder and build it, over the libraries below it as they were
        built: a library for those above it, a static library, or a program, which is linked."""
        kit, out, below = toolchain(), f"{self.folder(name)}/out", self.below(name)
        uses, compiler = self.lines[name].partition(":")[2].split(), ["--toolchain", f"{kit}/toolchain"]
        libraries = {it: self.built(it) if it in below else f"{kit}/rlibs/{it}.rlib" for it in ["std", *uses]}
        build = [
            *(f"{kit}/bin/rattle", "build", "--crate-name", name, "--jobs", str(jobs)),
            "src/main.rt" if self.is_program(name) else "src/lib.rt",
            *(it for library in libraries.items() for it in ("--extern", "=".join(library))),
            *(it for folder in [f"{kit}/rlibs", *(os.path.dirname(self.built(it)) for it in below)]
              for it in ("-L", f"dependency={folder}")),
            *("--antt-project", f"{kit}/rattle/logic/antt-project.json", "--logic-built", f"{kit}/logic_built"),
        ]
        if self.is_program(name):
            code = [f"{out}/{name}.o", f"{kit}/c/libos_c.a", f"{kit}/c/liblibc_c.a"]
            link = [f"{kit}/bin/rattle-link", "--target", TARGET, *compiler, "-o", f"{out}/{name}", *code]
            return [[*build, *compiler, "-o", code[0]], link]
        if "staticlib" in self.lines[name].partition(":")[0].split():
            return [[*build, "--crate-type", "staticlib", *compiler, "-o", f"{out}/lib{name}.a"]]
        return [[*build, "--statements", "-o", self.built(name)]]


class Commands:
    """Runs commands, and ends them all if one fails and on an interrupt."""

    def __init__(self):
        # (four processors at most, since each check needs some gigabytes)
        self.count = min(4, len(os.sched_getaffinity(0)))
        self.running, self.ended, self.lock = set(), "", threading.RLock()
        for it in (signal.SIGINT, signal.SIGTERM, signal.SIGHUP):
            signal.signal(it, lambda *_: self.end("interrupted"))

    def run(self, command, folder):
        """Runs a command in a folder, and returns what it printed and its status."""
        # (what an ended command leaves is removed with its folder for temporary files)
        with tempfile.TemporaryDirectory(prefix="proof-", ignore_cleanup_errors=True) as room:
            how = {"stdin": subprocess.DEVNULL, "stdout": subprocess.PIPE, "stderr": subprocess.STDOUT,
                   "encoding": "utf-8", "errors": "replace", "env": {**os.environ, "TMPDIR": room}}
            with self.lock:
                if self.ended:
                    raise Failure(self.ended)
                child = subprocess.Popen(command, cwd=folder, start_new_session=True, **how)
                self.running.add(child.pid)
            output, _ = child.communicate()
            with self.lock:
                self.running.discard(child.pid)
                if self.ended:
                    raise Failure(self.ended)
            return output, child.returncode

    def end(self, why):
        """Ends all that runs, and lets nothing begin."""
        with self.lock:
            self.ended = self.ended or why
            for it in self.running:
                with contextlib.suppress(ProcessLookupError):
                    os.killpg(it, signal.SIGINT)


def prove_all(crates, names, commands, report):
    """Proves crates with those below them, half as many at a time as there are processors, and reports each. Those that
    can begin do so in the order of crates.txt."""
    needed, running = {it for name in names for it in [*crates.below(name), name]}, {}
    order = TopologicalSorter({it: crates.uses(it) for it in needed})
    order.prepare()
    with ThreadPoolExecutor((commands.count + 1) // 2) as pool:
        while order.is_active():
            ready = sorted(order.get_ready(), key=[*crates.lines].index)
            running |= {pool.submit(prove, crates, it, commands): it for it in ready}
            for done in wait(running, return_when=FIRST_COMPLETED).done:
                report(f"{running[done]} is {done.result()}")
                order.done(running.pop(done))


def prove(crates, name, commands):
    """Proves a crate and builds it, unless it is a library whose build is up to date, and returns what it did."""
    if crates.is_built(name):
        return "up to date"
    began, built = time.time(), Path(crates.built(name))
    os.makedirs(built.parent, exist_ok=True)
    for command in crates.commands(name, commands.count // 2 + 1):
        output, status = commands.run(command, crates.folder(name))
        if status:
            reasons = "\n".join(it[0] for it in REASON.finditer(output))
            commands.end(f"{name} is not proved:\n{reasons or output[-4000:]}")
            raise Failure(commands.ended)
    if built.is_dir():
        # (a source that changed meanwhile is newer)
        os.utime(built, (began, began))
    return f"proved in {(time.time() - began) / 60:.1f} minutes"


def main(names):
    """Proves the crates that are named."""
    began, crates, commands = time.time(), Crates(), Commands()

    def report(text):
        print(f"{names[0]}: {text}, after {(time.time() - began) / 60:.1f} minutes", file=sys.stderr, flush=True)

    try:
        print(f"{names[0]}: proving the crates, those below first; this takes some minutes the first time",
              file=sys.stderr)
        prove_all(crates, names, commands, report)
    except Failure as failure:
        print(f"{names[0]}: {failure}", file=sys.stderr)
        return 1
    for name in filter(crates.is_program, names):
        write_files(crates.folder(name), {f"out/{name}.built": ""})
        os.utime(f"{crates.folder(name)}/out/{name}.built", (began, began))
    return 0


if __name__ == "__main__":
    sys.exit(main(sys.argv[1:]))
