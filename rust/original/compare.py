#!/usr/bin/env python3
"""Compares this crate with the original, vers-vecs 1.10.2, by random calls of each public call that both have.

    python3 original/compare.py --original FOLDER [--seed NUMBER] [--rounds NUMBER]

FOLDER is the original's crate, with src/ and Cargo.toml, or has its sources as text files, src--src--bit_vec--mod.rs.txt
for src/bit_vec/mod.rs. Both crates are copied into a scratch folder, where `differential` depends on both under two names;
the variable CARGO_TARGET_DIR keeps what is built. A panic is an answer. Each difference fails, but for those of
differential/known.rs, whose words are in docs/DIFFERENCES.md. A public call that was compared never fails, too. The last
line is "N calls compared, M failed".
"""
import argparse
import glob
import os
import re
import shutil
import subprocess
import sys
import tempfile
import time

HERE = os.path.dirname(os.path.abspath(__file__))
CRATE = os.path.dirname(HERE)
DIFFERENCES = os.path.join(os.path.dirname(CRATE), "docs", "DIFFERENCES.md")
TYPES = "BitVec MaskedBitVec RsVec SparseRSVec EliasFanoVec WaveletMatrix BinaryRmq FastRmq BpTree BpBuilder".split()
# calls of the original that are left out, with the reason
LEFT_OUT = {
    "RsVec::bit_set_iter0": "the original has it with AVX-512 alone",
    "RsVec::bit_set_iter1": "the original has it with AVX-512 alone",
}
# what an iterator from both ends is asked
WALK = "next next_back nth nth_back len size_hint count last min max skip rev step_by collect".split()
MANIFEST = """[package]
name = "differential"
version = "0.0.0"
edition = "2021"

[dependencies]
vers_vecs = { package = "vers-vecs", path = "ours" }
original = { package = "original-vers-vecs", path = "theirs" }

[profile.release.package.differential]
opt-level = 1

[workspace]
exclude = ["ours", "theirs"]
"""
THEIRS = """[package]
name = "original-vers-vecs"
version = "1.10.2"
edition = "2021"

[lib]
name = "vers_vecs"
"""


def read(path):
    """Returns the text of a file."""
    with open(path, encoding="utf-8") as file:
        return file.read()


def write(path, text):
    """Writes a text into a file of a folder that may not be there yet."""
    os.makedirs(os.path.dirname(path), exist_ok=True)
    with open(path, "w", encoding="utf-8") as file:
        file.write(text)


def original_sources(folder):
    """Returns the text of each source of the original, by its path in src."""
    plain = glob.glob(os.path.join(folder, "src", "**", "*.rs"), recursive=True)
    if plain:
        return {os.path.relpath(it, os.path.join(folder, "src")): read(it) for it in plain}
    texts = glob.glob(os.path.join(folder, "src--src--*.rs.txt"))
    return {os.path.basename(it)[len("src--src--"):-len(".txt")].replace("--", "/"): read(it) for it in texts}


def lay_out(sources, into):
    """Lays out the three crates in a folder."""
    for path, text in sources.items():
        write(os.path.join(into, "theirs", "src", path), text)
    write(os.path.join(into, "theirs", "Cargo.toml"), THEIRS)
    shutil.copytree(CRATE, os.path.join(into, "ours"), ignore=shutil.ignore_patterns("target", "original", "Cargo.lock"))
    shutil.copytree(os.path.join(HERE, "differential"), os.path.join(into, "src"))
    write(os.path.join(into, "Cargo.toml"), MANIFEST)


def public_calls(sources):
    """Returns the public calls of the original's types and traits, as Type::name."""
    calls = set()
    for text in sources.values():
        for head, body in re.findall(r"(?ms)^(?:impl|pub trait)\b([^{;]*)\{\n(.*?)^\}", text):
            owner = re.search(r"\w+", re.sub(r"^\s*<[^>]*>", "", head).rpartition("::")[2])[0]
            if head.lstrip().startswith(("Tree", "LevelTree", "IsAncestor", "SubtreeSize")) and " for " not in head:
                calls.update(f"{owner}::{it}" for it in re.findall(r"(?m)^    fn (\w+)", body))
            elif owner in TYPES and " for " not in head:
                calls.update(f"{owner}::{it}" for it in re.findall(r"(?m)^    pub (?:const )?fn (\w+)", body))
    return calls


def never_compared(sources, compared):
    """Returns the public calls that both crates have and that were compared never."""
    files = glob.glob(os.path.join(CRATE, "src", "**", "*.rs"), recursive=True)
    own = "".join(read(it) for it in files if "/proved" not in it)
    both = {it for it in public_calls(sources) if re.search(rf"\b{it.partition('::')[2]}\b", own)}
    walks = {it.rpartition(".")[0] for it in compared if it.endswith(".nth_back")}
    both |= {f"{walk}.{it}" for walk in walks for it in WALK}
    compared = compared | {it.partition(".")[0] for it in compared}
    return sorted(both - compared - set(LEFT_OUT))


def run(arguments, sources, folder):
    """Builds and runs the comparison, prints what it found, and returns how many calls were compared and how many failed."""
    lay_out(sources, folder)
    target = os.environ.get("CARGO_TARGET_DIR") or os.path.join(folder, "target")
    environment = {**os.environ, "CARGO_TARGET_DIR": target, "RUSTFLAGS": os.environ.get("RUSTFLAGS", "-Awarnings")}
    build = ["cargo", "build", "--release", "--offline", "--quiet"]
    if subprocess.run(build, cwd=folder, env=environment, check=False).returncode:
        return 0, 1
    program = [os.path.join(target, "release", "differential"), str(arguments.seed), str(arguments.rounds), DIFFERENCES]
    done = subprocess.run(program, capture_output=True, text=True, check=False)
    counts = {name: int(count) for name, count in re.findall(r"(?m)^call (\S+) (\d+)$", done.stdout)}
    print(re.sub(r"(?m)^call .*\n", "", done.stdout), end="")
    print("compared: " + ", ".join(f"{name} {count}" for name, count in counts.items()))
    missing = never_compared(sources, set(counts))
    print("".join(f"compared never: {it}\n" for it in missing), end="")
    if done.returncode not in (0, 1):
        print(f"the comparison ended with {done.returncode}: {done.stderr[-500:]}")
    faults = len(re.findall(r"(?m)^(?:different|docs/DIFFERENCES.md doesn't say)", done.stdout))
    return sum(counts.values()), len(missing) + faults + (done.returncode not in (0, 1)) + (not counts)


def main():
    """Compares, and says how many calls were compared."""
    parser = argparse.ArgumentParser(description=__doc__.partition("\n")[0])
    parser.add_argument("--original", required=True, help="the folder of the original's sources")
    parser.add_argument("--seed", type=int, default=int(time.time()))
    parser.add_argument("--rounds", type=int, default=400, help="rounds of some 3,000 calls")
    arguments = parser.parse_args()
    sources = original_sources(arguments.original)
    if not sources:
        sys.exit(f"compare: no sources of the original in {arguments.original}")
    print(f"seed {arguments.seed}")
    with tempfile.TemporaryDirectory() as folder:
        compared, failed = run(arguments, sources, folder)
    print("".join(f"left out: {name}: {why}\n" for name, why in LEFT_OUT.items()), end="")
    print(f"{compared} calls compared, {failed} failed")
    return int(failed > 0)


if __name__ == "__main__":
    sys.exit(main())
