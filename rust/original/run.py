#!/usr/bin/env python3
"""Runs the own tests of the crate vers-vecs 1.10.2 against this crate.

    python3 original/run.py FOLDER

FOLDER has the text of these tests in files `*tests*.txt`, each test module after a line `// ===== src/FILE.rs .. =====`. The tests
are laid out in a copy of this crate, at the end of the module of the same name. Left out are those of private types that this crate
doesn't have, and one whose text ends inside of it. The last line is "N passed, M failed".
"""
import os
import re
import shutil
import subprocess
import sys
import tempfile

HERE = os.path.dirname(os.path.abspath(__file__))
CRATE = os.path.dirname(HERE)
MODULE = re.compile(r"^// ===== src/(\S+)\.rs.*=====\n", re.M)
TEST = re.compile(r"(?ms)^( *)#\[test\]\n(?:\1#\[.*?\]\n)*\1fn (\w+)\(\) \{\n.*?^\1\}\n")
# what only the original has, with the reason that is named of a test that names it
PRIVATE = {
    "SmallBitVector": "it tests a private type of range minima",
    "MinMaxTree": "it tests the private type of a tree's nodes",
}
# what a test module takes from the module that it is in
TAKEN = {"rmq/fast_rmq": "const BLOCK_SIZE: usize = 128;\n"}


def modules(folder):
    """Yields the module of each test module, with its text."""
    for name in sorted(os.listdir(folder)):
        if "tests" in name and name.endswith(".txt"):
            with open(os.path.join(folder, name), encoding="utf-8") as file:
                parts = MODULE.split(file.read())[1:]
            for path, text in zip(parts[::2], parts[1::2]):
                yield re.sub(r"/(?:tests|mod)$", "", path), text


def without_private(text, left_out):
    """Returns the text without the tests that name what only the original has, and adds those to a list."""
    def kept(test):
        reason = next((why for name, why in PRIVATE.items() if name in test[0]), None)
        if reason:
            left_out.append((test[2], reason))
        return "" if reason else test[0]
    text = TEST.sub(kept, text)
    if not text.rstrip().endswith("}"):
        text, _, cut = text.rpartition("#[test]")
        left_out.append((re.search(r"fn (\w+)", cut)[1], "its text ends inside of it"))
    return text


def laid_out(folder, into):
    """Lays out this crate with the tests, and returns the tests that are left out."""
    shutil.copytree(os.path.join(CRATE, "src"), os.path.join(into, "src"))
    shutil.copytree(os.path.join(CRATE, "serde"), os.path.join(into, "serde"))
    for name in ("Cargo.toml", "README.md"):
        shutil.copy(os.path.join(CRATE, name), into)
    os.makedirs(os.path.join(into, "rand", "src"))
    shutil.copy(os.path.join(HERE, "rand.rs"), os.path.join(into, "rand", "src", "lib.rs"))
    with open(os.path.join(into, "rand", "Cargo.toml"), "w", encoding="utf-8") as file:
        file.write('[package]\nname = "rand"\nversion = "0.0.0"\nedition = "2021"\n')
    with open(os.path.join(into, "Cargo.toml"), "a", encoding="utf-8") as file:
        file.write('\n[dev-dependencies]\nrand = { path = "rand" }\n')
    left_out = []
    for module, text in modules(folder):
        text = without_private(text, left_out)
        # Private fields of the original's list of bits, which this crate asks for by calls.
        text = re.sub(r"(?<!\.)\.len\b(?!\s*\()", ".len()", text)
        text = text.replace("bv.data.len()", "bv.iter_limbs().count()")
        files = [os.path.join(into, "src", module + end) for end in (".rs", "/mod.rs")]
        target = next((file for file in files if os.path.exists(file)), None)
        if not target:
            continue
        if "mod tests {" not in text:
            text = f"#[cfg(test)]\nmod tests {{\n{TAKEN.get(module, '')}{text}\n}}\n"
        with open(target, "a", encoding="utf-8") as file:
            file.write("\n" + text)
    return left_out


def main(arguments):
    """Lays out the tests, runs them, and says how many passed."""
    if len(arguments) != 1 or not os.path.isdir(arguments[0]):
        print(__doc__.split("\n\n")[1], file=sys.stderr)
        return 2
    with tempfile.TemporaryDirectory() as into:
        left_out = laid_out(arguments[0], into)
        command = ["cargo", "test", "--offline", "--lib", "--quiet", "--", "--skip", "inside_tests::"]
        run = subprocess.run(command, cwd=into, capture_output=True, encoding="utf-8", check=False)
    print(run.stdout, end="")
    counts = re.search(r"(\d+) passed; (\d+) failed; (\d+) ignored", run.stdout)
    if not counts:
        print(run.stderr, end="")
        print("0 passed, 1 failed")
        return 1
    for name, reason in left_out:
        print(f"left out: {name}: {reason}")
    print(f"{counts[3]} ignored, as in the original")
    print(f"{counts[1]} passed, {counts[2]} failed")
    return int(counts[2] != "0")


if __name__ == "__main__":
    sys.exit(main(sys.argv[1:]))
