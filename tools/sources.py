"""Reads the sources of a crate, in the layout of `rt fmt`: its functions with their heads, clauses and bodies, and its
structs.

In that layout the body of a function is opened by a line as far in as the function's first line, and closed by the next
brace on its own line as far in.

The wrong bodies of src/MODULE.rt are in wrong/MODULE.edits, each as a line 'mutant: FUNCTION--WHAT-IS-WRONG', pairs of
lines 'old: TEXT' and 'new: TEXT', and a line 'row: TEST'. Each TEXT is one line, and the old one occurs once in the
source. FUNCTION is the one that is changed, and TEST the test that fails with it.
"""
import os
import re
import shutil
import subprocess
import sys
import tempfile
from concurrent.futures import ThreadPoolExecutor
from functools import cached_property
from itertools import takewhile
from pathlib import Path

TOP = os.path.dirname(os.path.dirname(os.path.abspath(__file__)))
PUB = r"(?:pub(?:\([a-z]+\))? )?"
HEAD = re.compile(rf"(?: {{4}})?{PUB}(?:const |unsafe |extern \"C\" )*fn (\w+)")
OWNER = re.compile(rf"{PUB}(?:unsafe )?(?:impl|trait)\b")
# The trait that the head of an impl names, and the type; or the trait itself: past a path, and without generics.
OWNED = re.compile(r"\b(?:impl|trait) (?:(?:\w+::)*(\w+) for )?(?:&(?:'\w+ )?(?:mut )?)?(?:\w+::)*(\w+)")
CLAUSE = re.compile(r"(?ms)^\s*(requires|ensures) (?:[a-z_]\w* )?\{ (.*?)\s\}\s*(?=^\s*(?:requires|ensures)\b|\Z)")
STRUCT = re.compile(rf"(?ms)^{PUB}(struct|enum) (\w+)([^;{{(]*)(\{{.*?^\}}|\{{[^\n]*\}}|\([^;]*\);|;)")
IMPORT = re.compile(r"\bghost use Rattle\.(\w+)\.specs\.([\w.]+)\.\{([^}]*)\}")
# A wrong body, in a file of them.
MUTANT = re.compile(r"(?ms)^mutant: (\S+)\n(.*?)(?=^mutant: |\Z)")
# The oldest cargo by which the tests of the Rust crate and the library in C are built. (The crate itself needs 1.63.)
NEW_CARGO = (1, 88)
PARAMETER = re.compile(r"(?:mut )?(\w+): ((?:[^,<()\[]|<[^<>]*(?:<[^<>]*>[^<>]*)*>|\([^()]*\)|\[[^\[\]]*\])+)")


def read(path):
    """Returns the text of a file of the repository."""
    return Path(TOP, path).read_text(encoding="utf-8")


def line_of(text, at):
    """Returns the number of the line of a position in a text."""
    return text.count("\n", 0, at) + 1


def reaching(targets, successors):
    """Returns the targets and all nodes from which one can be reached, by the successors of each node."""
    while more := {it for it, others in successors.items() if others & targets} - targets:
        targets = targets | more
    return targets


def without(pattern, text):
    """Returns a text without what a pattern matches, such as innermost brackets, over and over."""
    while (shorter := re.sub(pattern, "", text)) != text:
        text = shorter
    return text


class Function:
    """A function: the head of its impl or trait, its first line, the first of its body and its last, and parts of its
    text."""

    def __init__(self, source, owner, first, body, last):
        self.source, self.owner, self.first, self.body, self.last = source, owner, first, body, last
        lines = source.lines[first : last + 1]
        self.has_body, self.text, self.where = body is not None, "\n".join(lines), f"{source.path}:{first + 1}"
        declared, inside = self.text, ""
        if body == last:
            declared, _, inside = self.text.removesuffix("}").rpartition("{")
        elif self.has_body:
            declared, inside = "\n".join(lines[: body - first]), "\n".join(lines[body - first : -1])
        # its text before its body; its body without comments; and its declaration, with neither clauses nor `where`
        self.declared, self.code = declared.rstrip("{; \n"), bare(inside)
        self.head = " ".join(re.split(r"\n\s*(?:requires|ensures|where|ghost)\b", self.declared)[0].split())
        self.name = HEAD.match(self.text)[1]
        # the type that it belongs to, or the trait that declares it; and the trait that its impl is of
        found = OWNED.search(without(r"<[^<>]*>", owner.replace("->", "")))
        self.trait, self.holder = (it or "" for it in found.groups()) if found else ("", "")
        self.full_name = f"{self.holder}::{self.name}" if owner else self.name
        self.is_public = bool(re.match(r"pub (?:const |unsafe )?fn\b", self.head))
        self.is_declared_by_trait = bool(re.match(rf"{PUB}trait\b", owner))

    @cached_property
    def clauses(self):
        """Returns its clauses, as (kind, fact)."""
        return [(kind, " ".join(fact.split())) for kind, fact in CLAUSE.findall(self.declared)]

    @cached_property
    def words(self):
        """Returns the words of `specs/` that its clauses cite, as (crate, page, word)."""
        cited = set(re.findall(r"(?<![\w.])\w+", " ".join(fact for _, fact in self.clauses)))
        imported = [(crate, page, it.split(" as ")) for crate, page, names in IMPORT.findall(self.source.text)
                    for it in re.split(r",\s*", names.strip())]
        return [(crate, page, names[0]) for crate, page, names in imported if names[-1] in cited and crate != "std"]

    @cached_property
    def above(self):
        """Returns the lines of comments right above it."""
        found = takewhile(lambda it: it and not it.endswith(("{", "}")), reversed(self.source.lines[:self.first]))
        return [it for it in reversed([*found]) if it.lstrip().startswith("//")]

    @cached_property
    def parameters(self):
        """Returns its parameters but `self`, as (name, type)."""
        return PARAMETER.findall(re.split(r"fn \w+(?:<.*?>)?\(", self.head)[1])


class Source:
    """A source file."""

    def __init__(self, crate, path, text):
        self.crate, self.path, self.text, self.lines = crate, path, text, text.split("\n")
        self.module = os.path.basename(path)[: -len(".rt")]

    @cached_property
    def functions(self):
        """Returns its functions, but for those inside another."""
        found, owner = [], ""
        for at, line in enumerate(self.lines):
            if OWNER.match(line):
                rest = self.lines[at:]
                head = rest[: next(i for i, it in enumerate(rest, 1) if it.endswith(("{", "}")))]
                owner = " ".join(" ".join(head).split())
            elif line == "}":
                owner = ""
            if HEAD.match(line):
                found.append(Function(self, owner, at, *self.span(at)))
        return found

    def span(self, at):
        """Returns the first line of the body of the function that begins at a line, or None for none, and its last
        line."""
        indent, depth = re.match(" *", self.lines[at])[0], 0
        for body, line in enumerate(self.lines[at:], at):
            depth += line.count("{") - line.count("}")
            is_as_far_in = line.startswith(indent) and line[len(indent) :][:1] not in ("", " ")
            if is_as_far_in and line.endswith("}"):
                return body, body
            if is_as_far_in and line.endswith("{"):
                return body + 1, self.lines.index(indent + "}", body)
            if line.endswith(";") and depth == 0:
                return None, body
        raise ValueError(f"{self.path}:{at + 1}: a function without an end")

    @cached_property
    def structs(self):
        """Returns its structs and enums, as (name, fields as (name, type), line)."""
        found, text = [], bare_keeping_lines(self.text)
        for it in STRUCT.finditer(text):
            fields = PARAMETER.findall(it[4].strip("{}();\n"))
            fields += [("0", types) for types in re.findall(r"(?<!pub)\(([^()]*)\)", it[4])]
            found.append((it[2], fields, line_of(text, it.start())))
        return found


def bare(text):
    """Returns code without comments, and with empty texts."""
    return re.sub(r'b?"(?:\\.|[^"\\])*"', '""', re.sub(r"//[^\n]*", "", text))


def bare_keeping_lines(text):
    """Returns a text without comments and ghost members, of which the lines stay."""
    return re.sub(r"(?m)^(\s*)ghost [^\n]*", r"\1", re.sub(r"//[^\n]*", "", text))


def read_crate(crate):
    """Returns the sources of a crate."""
    paths = [f"{at}/{name}" for at, _, names in sorted(os.walk(f"{TOP}/crates/{crate}/src")) for name in sorted(names)]
    return [Source(crate, os.path.relpath(it, TOP), read(it)) for it in paths if it.endswith(".rt")]


def edited(text, edit):
    """Returns a file's text with the pairs of an edit, or raises a `ValueError` that says why they don't apply."""
    pairs = re.findall(r"(?m)^old: ?(.*)\nnew: ?(.*)$", edit)
    if not pairs:
        raise ValueError("it has no pair of texts")
    for old, new in pairs:
        if text.count(old) != 1:
            raise ValueError(f"its old text is {text.count(old)} times in its file, and not once")
        text = text.replace(old, new)
    return text


def wrong_bodies(texts):
    """Yields the wrong bodies in the texts of a repository by their paths, as (crate, name, edit)."""
    for path, text in sorted(texts.items()):
        if found := re.fullmatch(r"crates/(\w+)/wrong/(\S+)\.edits", path):
            yield from ((found[1], it[1], f"file: src/{found[2]}.rt\n{it[2]}") for it in MUTANT.finditer(text))


def load_edit(edit, sources):
    """Returns the function of a crate whose body an edit changes and the lines of the body after it, or raises a
    `ValueError` that says why it can't be tried."""
    file = re.search(r"(?m)^file: (.*)$", edit)[1]
    source = next((it for it in sources if it.path.endswith(f"/{file}")), None)
    if not source:
        raise ValueError(f"there is no file {file} in the crate")
    lines, were = edited(source.text, edit).split("\n"), source.lines
    changed = [at for at, (was, now) in enumerate(zip(were, lines)) if was != now]
    if not changed or len(lines) != len(were):
        raise ValueError("it changes nothing, or the number of lines")
    for it in source.functions:
        if it.has_body and it.body <= changed[0] and changed[-1] < it.last:
            return it, lines[it.body : it.last]
    raise ValueError(f"it changes no body of one function of {file}")


def public_files(sources):
    """Returns the sources of a library that are public modules, down from its `lib.rt`."""
    by_path = {it.path: it for it in sources}
    found = [path for path in by_path if path.endswith("/src/lib.rt")]
    for path in found:
        folder = os.path.dirname(path) if path.endswith("/lib.rt") else path[: -len(".rt")]
        below = {f"{folder}/{name}.rt" for name in re.findall(r"(?m)^pub mod (\w+);", by_path[path].text)}
        found += sorted(below & set(by_path) - set(found))
    return [by_path[it] for it in found]


def public_functions(sources):
    """Yields a library's functions that can be called from outside: by their module, or by that of their type or
    trait."""
    public = public_files(sources)
    exported = set(re.findall(r"\w+",
                              " ".join(it for source in public
                                       for it in re.findall(r"\bpub use ([^;]*);", source.text))))
    named = [(name, source) for source in sources
             for name in re.findall(r"(?m)^pub (?:struct|enum|trait) (\w+)", source.text)]
    shown = {name for name, source in named if source in public or name in exported}
    for function in [it for source in sources for it in source.functions]:
        is_free = not function.owner and (function.source in public or function.name in exported)
        if (function.is_public or function.is_declared_by_trait) and (is_free or function.holder in shown):
            yield function


def has_cargo():
    """Returns whether cargo is there, as new as the tests of the Rust crate need it."""
    version = shutil.which("cargo") and subprocess.run(["cargo", "--version"], capture_output=True, text=True).stdout
    found = re.search(r"cargo (\d+)\.(\d+)", version or "")
    return bool(found) and (int(found[1]), int(found[2])) >= NEW_CARGO


def report(name, faults):
    """Prints what is broken, and returns the exit status, 1 if anything is."""
    lines = list(faults)
    print("\n".join(lines) or f"{name}: ok")
    return int(bool(lines))


def report_tests(count, faults):
    """Prints which tests fail, and the numbers of those that pass and fail; returns the exit status."""
    print("".join(f"{it}\n" for it in faults) + f"{count - len(faults)} passed, {len(faults)} failed")
    return int(bool(faults))


def missed_plants(script, parts, plants):
    """Plants faults, each in a copy of parts of the repository, and yields those that a script doesn't report there. A
    fault is what has to be printed with it and not without it, a path, and what is written there for what."""
    unused = shutil.ignore_patterns("out", "proofs", "wrong", "target", "__pycache__")

    def output(planted):
        with tempfile.TemporaryDirectory(prefix="planted-") as top:
            for it in parts:
                os.makedirs(os.path.dirname(f"{top}/{it}"), exist_ok=True)
                if os.path.isdir(f"{TOP}/{it}"):
                    shutil.copytree(f"{TOP}/{it}", f"{top}/{it}", ignore=unused)
                else:
                    shutil.copy(f"{TOP}/{it}", f"{top}/{it}")
            write_files(top, planted)
            done = subprocess.run([sys.executable, f"{top}/{script[0]}", *script[1:]], capture_output=True, text=True)
            return done.stdout + done.stderr if done.returncode == 1 else ""

    with ThreadPoolExecutor(os.cpu_count()) as pool:
        planted = ({path: read(path).replace(old, new)} for _, path, old, new in plants)
        without, *outputs = pool.map(output, [{}, *planted])
    for (expected, path, old, _), printed in zip(plants, outputs):
        if expected not in printed or expected in without or old not in read(path):
            yield f"not found in {path}: {expected}"


def write_files(top, files):
    """Writes texts below a folder, by their paths, except those that are there."""
    for path, text in files.items():
        to, content = Path(top, path), text.encode()
        if not (to.is_file() and to.read_bytes() == content):
            to.parent.mkdir(parents=True, exist_ok=True)
            to.write_bytes(content)


def write_or_check(pages, script):
    """Writes pages of the repository, or with `--check` compares them; returns the exit status."""
    if sys.argv[1:] != ["--check"]:
        write_files(TOP, pages)
        return 0
    stale = [it for it, text in pages.items() if not os.path.exists(f"{TOP}/{it}") or read(it) != text]
    print("".join(f"{it} isn't what {script} writes\n" for it in stale), end="", file=sys.stderr)
    return 1 if stale else 0
