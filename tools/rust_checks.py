#!/usr/bin/env python3
"""Checks the crate of plain Rust: tests, lints, pages, package, and checksums.

    python3 tools/rust_checks.py           every check of `run_checks`
    python3 tools/rust_checks.py --quick   only the tests without further features, and the lints
    python3 tools/rust_checks.py --self-test    runs commands that fail, which have to count as failed

The tests are run in debug with overflow checks: those of the crate, the proved crates' own, and the examples of the
documentation; the crate's also without debug assertions. The checksums of the benchmark are those of the Rattle
program's stored run. It names each check that it leaves out because a tool is missing. The last line is "N passed, M
failed".
"""
import os
import re
import shutil
import subprocess
import sys
import tempfile
from glob import glob

from plain_rust import write_tests
from sources import TOP, has_cargo, read, report_tests, write_files

RUST = f"{TOP}/rust"
OLDEST = "1.63"
REGISTRY = "/usr/share/cargo/registry"
EXAMPLES = ("search_engine", "genome_reads", "quantiles", "xml_tree", "dictionary_column", "ip_ranges")
FEATURES = "unchecked,simd,mem_dbg,bp_u16_lookup"
# By default a release has no debug assertions, with which a tree stops at a position without a node.
RELEASED = "--config profile.test.debug-assertions=false"
ARM = "aarch64-unknown-linux-gnu"
# Processors with the instruction that the support module calls.
NEWER = "x86-64-v3"
# Debian's compiler.
RUSTC, CARGO = "/usr/bin/rustc", "/usr/bin/cargo"
# An empty crate instead of serde, for what cargo asks the registry.
NO_SERDE = f'patch.crates-io.serde.path="{RUST}/serde/stand_in"'
CHECKSUMS = [sys.executable, "bench/compare.py", "--checksums"]


class Checks:
    """The number of checks that passed and failed, and the checks that were left out."""

    def __init__(self, folder):
        self.folder, self.passed, self.failed, self.left_out = folder, 0, 0, []

    def run(self, what, command, missing="", cwd=RUST, expected="", **env):
        """Runs a command, counts its tests or itself, and prints its output if it fails; or notes what is missing."""
        if missing:
            self.left_out.append(f"{what} ({missing})")
            return
        print(f"{what}: {' '.join(command)}", flush=True)
        done = subprocess.run(command, cwd=cwd, env={**os.environ, **env}, stdin=subprocess.DEVNULL,
                              stdout=subprocess.PIPE, stderr=subprocess.STDOUT, text=True, check=False)
        counts = re.findall(r"test result: \w+\. (\d+) passed; (\d+) failed", done.stdout)
        is_ok = done.returncode == 0 and expected in done.stdout
        self.passed += sum(int(it[0]) for it in counts) or int(is_ok)
        self.failed += sum(int(it[1]) for it in counts) or int(not is_ok)
        if not is_ok:
            print(done.stdout[-6000:])

    def cargo(self, what, words, missing="", **env):
        """Runs cargo in the crate's folder, without a network, with the tests of the proved sources."""
        command, *rest = words.split()
        env["RUSTFLAGS"] = f"{env.get('RUSTFLAGS', '')} --cfg proved_tests"
        self.run(what, ["cargo", command, "--quiet", "--offline", *rest], missing, **env)


def check_oldest(checks):
    """Compiles the crate, and the library of bindings/c over its sources, by the oldest compiler."""
    is_there = shutil.which(RUSTC) and f"rustc {OLDEST}." in subprocess.check_output([RUSTC, "--version"], text=True)
    for folder in (RUST, f"{TOP}/bindings/c"):
        checks.run(f"rustc {OLDEST} in {os.path.relpath(folder, TOP)}", [CARGO, "build", "--quiet", "--offline"],
                   "" if is_there else f"{RUSTC} is not it", folder, RUSTC=RUSTC,
                   CARGO_TARGET_DIR=f"{checks.folder}/oldest")


def user(checks, name, dependencies, path, text):
    """Writes a package that depends on the crate, with one source file, and returns its folder."""
    folder = f"{checks.folder}/{name}"
    write_files(folder, {path: text, "Cargo.toml":
        f'[package]\nname = "{name}"\nversion = "0.0.0"\nedition = "2021"\n\n[dependencies]\n{dependencies}\n[lib]\npath = "lib.rs"\n', "lib.rs": ""})
    return folder


def check_git(checks):
    """Builds a program that takes the crate from this repository by cargo alone, with the example of the crate's
    page."""
    answer = subprocess.run(["git", "-C", TOP, "rev-parse", "--is-shallow-repository"], capture_output=True, text=True,
                            check=False).stdout
    example = re.search(r"(?ms)^```rust\n(.*?)^```", read(f"{RUST}/README.md"))[1]
    program = f"fn main() {{\n{example}\nprintln!(\"done\");\n}}\n"
    folder = user(checks, "program", f'vers-vecs = {{ git = "file://{TOP}" }}\n', "src/main.rs", program)
    checks.run("a program that takes the crate by git", ["cargo", "run", "--quiet"],
               "" if answer.strip() == "false" else "no whole repository", folder, "done\n",
               CARGO_HOME=f"{checks.folder}/cargo", CARGO_TARGET_DIR=f"{checks.folder}/program_target")


def check_serde(checks):
    """Tests the feature `serde`, with the features of the original that change nothing, over Debian's serde and
    bincode."""
    is_there = all(glob(f"{REGISTRY}/{it}-1*") for it in ("serde", "bincode"))
    crate = f'vers-vecs = {{ path = "{RUST}", features = ["serde", "simd", "mem_dbg", "bp_u16_lookup"] }}'
    folder = user(checks, "forms", f'{crate}\nserde = "1"\nbincode = "1"\n', "tests/forms.rs",
                  read(f"{RUST}/serde/forms.rs"))
    sources = ('source.crates-io.replace-with="debian"', f'source.debian.directory="{REGISTRY}"')
    checks.run("the feature serde", ["cargo", "test", "--quiet", "--config", sources[0], "--config", sources[1]],
               "" if is_there else f"no serde and bincode in {REGISTRY}", folder,
               CARGO_TARGET_DIR=f"{checks.folder}/forms_target")


def no_newer():
    """Returns why programs for newer processors can't run here, or nothing."""
    flags = read("/proc/cpuinfo").split() if os.path.exists("/proc/cpuinfo") else []
    return "" if {"avx2", "bmi2"} <= set(flags) else f"this processor isn't {NEWER}"


def check_arm(checks):
    """Builds the benchmark's driver over the crate for aarch64, and compares its checksums under qemu. (Threads hang in
    some emulators, so the tests, which start some, are not run there.)"""
    missing = [it for it in ("qemu-aarch64", "aarch64-linux-gnu-gcc", CARGO, RUSTC) if not shutil.which(it)]
    if not (missing or glob(f"/usr/lib/rustlib/{ARM}/lib/libstd*")):
        missing = [f"std for {ARM}"]
    missing = missing and f"no {', '.join(missing)}"
    shutil.copytree(f"{TOP}/bench/original", f"{checks.folder}/driver",
                    ignore=shutil.ignore_patterns("target", "Cargo.lock"))
    linker = {f"CARGO_TARGET_{ARM.upper().replace('-', '_')}_LINKER": "aarch64-linux-gnu-gcc"}
    build = [CARGO, "build", "--release", "--quiet", "--offline", "--target", ARM, "--config",
             f'patch.crates-io.vers-vecs.path="{RUST}"']
    checks.run("aarch64", build, missing, f"{checks.folder}/driver", RUSTC=RUSTC, **linker)
    program = f"{checks.folder}/driver/target/{ARM}/release/bench_original"
    checks.run("checksums on aarch64", [*CHECKSUMS, "--program", program, "--under",
                                        "qemu-aarch64 -L /usr/aarch64-linux-gnu"], missing, TOP)


def run_checks(checks, is_quick):
    """Writes the tests of the proved sources, and runs the checks."""
    write_tests()
    checks.cargo("tests", "test")
    for name in EXAMPLES:
        checks.cargo(f"example {name}", f"run --example {name}")
    checks.cargo(f"tests with {FEATURES}", f"test --features {FEATURES} --test *", "quick" if is_quick else "")
    # (debug builds compare the instruction with the proved function)
    checks.cargo(f"tests for {NEWER}", f"test --test * --target-dir target/{NEWER}", "quick" if is_quick else no_newer(),
                 RUSTFLAGS=f"-C target-cpu={NEWER}")
    no_lints = "" if shutil.which("cargo-clippy") and shutil.which("cargo-fmt") else "no clippy or rustfmt"
    checks.cargo("lints", "clippy --all-targets -- -D warnings", no_lints)
    checks.run("layout", ["cargo", "fmt", "--check"], no_lints)
    if not is_quick:
        checks.cargo("without debug assertions", f"test --test * {RELEASED}")
        checks.cargo("pages", "doc --no-deps", RUSTDOCFLAGS="-D warnings")
        check_oldest(checks)
        check_git(checks)
        check_serde(checks)
        checks.run("package", ["cargo", "package", "--quiet", "--offline", "--allow-dirty", "--config", NO_SERDE])
        checks.run("checksums", [*CHECKSUMS, "--original", "rust"], cwd=TOP)
        check_arm(checks)


def self_test():
    """Returns the exit status, 1 if the numbers of what passed and failed are wrong."""
    checks, tests = Checks(""), "echo 'test result: ok. 3 passed; {} failed'; exit {}"
    for command in (tests.format(0, 0), tests.format(2, 0), tests.format(0, 1), "exit 1", "exit 0"):
        checks.run("", ["sh", "-c", command], cwd=TOP)
    checks.run("", ["echo", "another"], cwd=TOP, expected="this")
    checks.run("", ["false"], "no tool", TOP)
    counts = checks.passed, checks.failed, checks.left_out
    return report_tests(1, [] if counts == (10, 5, [" (no tool)"]) else [f"counted as {counts}"])


def main(arguments):
    """Runs the checks, and prints how many passed and failed and which were left out."""
    if arguments == ["--self-test"]:
        return self_test()
    if not has_cargo():
        print("left out: all checks of the Rust crate (no cargo 1.88 or newer)")
        return 0
    with tempfile.TemporaryDirectory(prefix="rust-") as folder:
        checks = Checks(folder)
        run_checks(checks, "--quick" in arguments)
    print("".join(f"left out: {it}\n" for it in checks.left_out), end="")
    print(f"{checks.passed} passed, {checks.failed} failed")
    return int(checks.failed > 0)


if __name__ == "__main__":
    sys.exit(main(sys.argv[1:]))
