"""Writes what the pages of the Rust crate say of contracts, and compares the list of its guarded calls with the
sources.

- `contracts.rs` has the macro `contract!`: `contract!(RsVec::rank1)` is the text of that function's contract as its
  source has it, with a link to the definition of each word. It has the functions that the facade cites.
- `definitions.md` is the part of docs/DEFINITIONS.md that these links lead to.
- `rust/guards.txt` has a row for each call of a proved function with a precondition: the file and the function of the
  facade, the proved function, its precondition, and the text in the facade's function that establishes it.
"""
import re
import tempfile
import textwrap
from collections import defaultdict
from pathlib import Path

from sources import public_functions, read, read_crate, write_files

DEFINITIONS, GUARDS = "docs/DEFINITIONS.md", "guards.txt"
WRITTEN = ("proved", "rattle", "contracts.rs")
CITED = re.compile(r"\bcontract!\(\s*(\$?\w+(?:::\$?\w+)?)\s*\)")
CALL = re.compile(r"(?P<receiver>(?:<?[$\w]+(?:::<\w+>)?(?:\(\))?>?(?:\.|::))+)(?P<name>[a-z]\w*)(?:::<[^<>]*>)?\(")
HEAD = re.compile(r"^( *)(?:pub(?:\([a-z]+\))? )?(?:const )?fn (\w+)")
BRACKETS, PLAIN = r"^\((.*)\)$", r"\1"
# A function of the facade with a contract, and its parameters. Besides those that the contract speaks of it may have
# these.
SHOWN = re.compile(r"#\[doc = contract!\((\w+(?:::\w+)?)\)\]\n(?:\s*(?:#\[.*\]|///.*)\n)*\s*(?:pub )?fn \w+(?:<[^(]*>)?\(([^)]*)\)")
ADDED = {"tally", "other"}
ADDS = "AddsAtMost tally.old tally.new "


def facade_files(folder):
    """Yields the path of each file of the facade, below its folder, and its text."""
    for path in sorted(Path(folder).rglob("*.rs")):
        below = path.relative_to(folder)
        if not set(below.parts) & set(WRITTEN):
            yield str(below), read(path)


def definitions_of(crates):
    """Returns the page of definitions of crates with an anchor at each word, and the words, as (crate, word)."""
    page, words = "", set()
    for section in re.split(r"(?m)^## ", read(DEFINITIONS))[1:]:
        title, crate, rows = re.fullmatch(r"(?s)(.*?) \(`crates/(\w+)/specs`\)\n(.*)", section).groups()
        if crate in crates:
            words |= {(crate, it) for it in re.findall(r"(?m)^- `(\w+)", rows)}
            page += f"# {title}\n" + re.sub(r"(?m)^- (?=`(\w+))", rf'- <a id="{crate}-\1"></a>', rows)
    return re.sub(r"\[([^\]]*)\]\([^)]*\)", r"\1", page), words


def contract_of(function, counted, defined):
    """Returns the section of a page that has a function's contract, with links to the words that are defined."""
    lines = ["# Contract", "", "```text", re.sub(r"(?m) +$", "", textwrap.dedent(function.declared)), "```", ""]
    words = list(dict.fromkeys((crate, word) for crate, _, word in function.words))
    bounds = [fact.removeprefix(ADDS) for _, fact in counted.clauses if fact.startswith(ADDS)] if counted else []
    if bounds and counted is not function:
        words += [(crate, it) for crate, _, it in counted.words if (crate, it) not in words and it in bounds[0]]
        lines += [f"Reads at most `{re.sub(BRACKETS, PLAIN, bounds[0])}`, counted by `{counted.name}`.", ""]
    links = [f"[`{word}`](crate::definitions#{crate}-{word})" for crate, word in words if (crate, word) in defined]
    return "\n".join(lines + ([f"Words: {', '.join(links)}."] if links else []))


def known_functions(crates):
    """Returns the public functions of crates by their names, of two with one name the first."""
    functions = [it for crate in crates for it in public_functions(read_crate(crate))]
    return {it.full_name: it for it in reversed(functions)}


def pages(folder, crates):
    """Returns the texts of the two files that the script writes for the facade in a folder, by their paths there, and
    the faults met."""
    (definitions, defined), known = definitions_of(crates), known_functions(crates)
    named = {it for _, text in facade_files(folder) for it in CITED.findall(text)}
    # a macro's variable matches any name
    forms = [re.sub(r"\$\w+", r"\\w+", it) for it in named]
    cited = sorted({name for name in known if any(re.fullmatch(it, name) for it in forms)})
    arms, faults = [], [f"the facade cites the contract of {it}, which is no public function"
                        for it in sorted(named - set(cited)) if "$" not in it]
    for name, shown in [found for _, text in facade_files(folder) for found in SHOWN.findall(text)
                        if found[0] in known]:
        others = set(re.findall(r"(\w+):(?!:)", shown)) - ADDED - {it for it, _ in known[name].parameters}
        faults += [f"the contract of {name}, which the facade shows, has no parameter `{it}`" for it in sorted(others)]
    for it in [known[name] for name in cited]:
        text = contract_of(it, known.get(f"{it.full_name}_counted"), defined)
        arms.append(f'    ({it.full_name}) => {{\n        r##"{text}"##\n    }};\n')
    head = "//! Written by tools/plain_rust.py from the proved sources: the contracts that pages cite. Not to be edited.\n\n"
    macro = f"/// Returns the text of a proved function's contract.\nmacro_rules! contract {{\n{''.join(arms)}}}\n\npub(crate) use contract;\n"
    return {"contracts.rs": head + macro, "definitions.md": definitions}, faults


def required_of(known, types, name):
    """Returns what a call of a name requires, of a value of one of these types."""
    found = [[fact for kind, fact in known[f"{it}::{name}"].clauses if kind == "requires"]
             for it in sorted(types) if f"{it}::{name}" in known]
    return next(filter(None, found), [])


class FacadeFile:
    """A file of the facade: its lines without comments, and the proved types that it names, and those of its fields."""

    def __init__(self, path, text):
        self.path, self.lines = path, [re.sub(r"//.*|#\[doc.*\]", "", it) for it in text.split("\n")]
        self.code = "\n".join(self.lines)
        self.types = set(re.findall(r"\b(?:proved|mask)::(\w+)", self.code))
        self.fields = defaultdict(set)
        for field, type_ in re.findall(r"\b(\w+): (?:&'?\w* ?)?(?:(?:proved|mask)::(?=\w)|(?=\$))(\$?\w+)", self.code):
            self.fields[field].add(type_)

    def types_of(self, receiver, others):
        """Returns the proved types that a receiver may have, none for the facade's own values; `others` are all files
        of the facade."""
        path, field = re.fullmatch(r"(?:proved|mask)::(\w+)(?:::<.*>)?::",
                                   receiver), re.fullmatch(r"(?:\w+\.)+(\w+)\.", receiver)
        found = {path[1]} if path else set()
        if field:
            found = self.fields.get(field[1]) or set().union(*(it.fields.get(field[1], set()) for it in others))
        is_open = "$" in receiver + "".join(found) or receiver.endswith("masked().") or receiver == "self.0."
        return set().union(*(it.types for it in others)) if is_open else found

    def calls(self, known, others):
        """Yields for each call with a precondition the name of its function, the text of that, the callee's name, and
        what it requires."""
        for at, line in enumerate(self.lines):
            for call in CALL.finditer(line):
                if required := required_of(known, self.types_of(call["receiver"], others), call["name"]):
                    yield (*self.function_at(at), call["name"], required)
        for text, callee in self.written_calls():
            if required := required_of(known, self.types, callee):
                yield callee, text, callee, required

    def written_calls(self):
        """Yields for each name that a macro of the file is given, and may call as a proved function, the text of the
        macro with its use, and the name. A name `.._unchecked` is the facade's own, if none such is called."""
        for macro, body in re.findall(r"(?ms)^macro_rules! (\w+) \{\n(.*?)^\}", self.code):
            called = " ".join(re.findall(r"(?:self\.\w+\.|proved::\w+::)(\$\w+)\(", body))
            for use in re.findall(rf"(?ms)^{macro}! \{{(.*?)^\}}", self.code) if called else ():
                names = re.findall(r"\w+", re.sub(r'"[^"]*"', "", use))
                yield from ((body + use, it) for it in names if "_unchecked" in called or "_unchecked" not in it)

    def function_at(self, at):
        """Returns the name of the function in which a line is, and its text."""
        margin = len(self.lines[at]) - len(self.lines[at].lstrip())
        first = next(k for k in range(at, -1, -1) if HEAD.match(self.lines[k])
                     and len(HEAD.match(self.lines[k])[1]) <= margin)
        indent, name = HEAD.match(self.lines[first]).groups()
        end = next(k for k in range(at, len(self.lines)) if self.lines[k].startswith(indent + "}"))
        return name, "\n".join(self.lines[first:end])


def guard_faults(folder, crates):
    """Yields a line for each call with a precondition that the list lacks, and for each row of the list that is not
    so."""
    known, found = known_functions(crates), {}
    files = [FacadeFile(*it) for it in facade_files(folder)]
    for file in files:
        for function, body, callee, required in file.calls(known, files):
            found.setdefault((file.path, function, callee), (body, required))
    listed = set()
    for row in [it for it in read(f"{folder}/../{GUARDS}").splitlines() if it and not it.startswith("#")]:
        path, function, callee, required, guard = row.split(" | ")
        key = path, re.split("::|!", function)[-1], callee.split("::")[-1]
        listed.add(key)
        body, facts = found.get(key, ("", []))
        if not facts:
            yield f"{GUARDS}: {path} has no call of {callee} in {function}"
        elif re.findall(r"requires (?:\w+ )?\{ (.*?) \}(?=; requires|$)", required) != facts:
            yield f"{GUARDS}: {callee}, which {function} calls, requires {facts}"
        elif guard not in body:
            yield f"{GUARDS}: {function} of {path} has no `{guard}`"
    yield from (f"{GUARDS}: no row for {name} of {path}, which calls {callee}"
                for path, name, callee in sorted(set(found) - listed))


# Faults that are planted: the file of the crate, what is written for what, and what has to be reported.
PLANTS = (
    ("guards.txt", "bit_vec/mod.rs | BitVec::flip_bit |", "# ", "no row for flip_bit of bit_vec/mod.rs"),
    ("guards.txt", "| BitVec::flip_bit | requires { position < length self.old }",
     "| BitVec::flip_bit | requires { position ≤ length self.old }", "flip_bit, which"),
    ("src/bit_vec/mod.rs", "assert!(len <= WORD_SIZE,", "assert!(true,",
     "append_bits of bit_vec/mod.rs has no `assert!(len <= WORD_SIZE,`"),
    ("src/bit_vec/mod.rs", "    pub fn count_ones(&self)",
     "    fn word(&self) -> u64 {\n        self.bits.limb(7)\n    }\n\n    pub fn count_ones(&self)",
     "no row for word of bit_vec/mod.rs, which calls limb"),
    ("src/trees/bp.rs", "    depth_counted, depth(node", "    relative, depth(node",
     "no row for relative of trees/bp.rs"),
    ("src/bit_vec/fast_rs_vec.rs", "fn rank1(&self, position: usize)", "fn rank1(&self, pos: usize)",
     "RsVec::rank1, which the facade shows, has no parameter `pos`"),
    ("src/bit_vec/fast_rs_vec.rs", "contract!(RsVec::rank1)", "contract!(RsVec::rank2)",
     "the contract of RsVec::rank2, which is no public function"),
)


def self_test(folder, crates):
    """Plants the faults in copies of the facade, and yields a line for each that isn't found."""
    texts = {f"src/{path}": text for path, text in facade_files(folder)} | {"guards.txt": read(f"{folder}/../{GUARDS}")}
    for path, old, new, expected in PLANTS:
        if old not in texts[path]:
            yield f"the text of a plant is gone: {path}: {old}"
            continue
        with tempfile.TemporaryDirectory() as room:
            write_files(room, {**texts, path: texts[path].replace(old, new, 1)})
            found = [*guard_faults(f"{room}/src", crates), *pages(f"{room}/src", crates)[1]]
        if not any(expected in it for it in found):
            yield f"not found: {path}: {new}, but {found[:3]}"
