#!/usr/bin/env python3
"""Rules over the source text on what is counted, which no contract states.

Entries of counted vectors are reached through a counter, or by a call that takes the token `Uncounted`. So what is left
to see in the text is where that token and a fresh counter are made, and that no counted body, which is that of a
function with a `&mut Tally`, leads there:

1. Only the functions in `WHOLE` use `Uncounted`: clones, equality, conversions and the slice of all items.
2. Only plain queries call `Tally::new`. A plain query `q` of a type with `q_counted` is that form with its own
   parameters and a fresh counter, or written without one, or a trait's query that calls the type's own.
3. A counted body mentions no *uncounted function*: none that makes a token or a counter, and none that mentions such a
   one. A mention is a name before a bracket, after a dot or in a path. If the text shows the type of a call, the rule
   takes that type's function, otherwise all functions of that name. What Rust calls without a name counts as a mention:
   a loop over anything but a range, and a comparison that the text doesn't show to be one of numbers.
4. The counter's type is written as `tally: &mut Tally`, and as in rule 2. Crates with counted bodies have only the Rust
   traits in `TRAITS`, which include no operators. (`plain_rust.py` refuses `unsafe` and macros of their own there.)
5. Types of these crates contain numbers, allocators, counted vectors, each other, and the plain lists in `TABLES`.
6. A counted vector raises the counter once for each read: its counted calls are one raise and one read.
7. Kernels work by lanes or by chunks of words, and makers by counting: their bodies make the calls in `CALLS` and none
   of those in `BARRED`. A proof covers what a kernel returns; only the text shows how.

Exits with status 1 if a rule is broken, and prints a line for each position. `--self-test` plants faults
(`counting_plants.py`).
"""
import re
import sys
from collections import defaultdict

from proofs import Crates
from sources import bare_keeping_lines, reaching, line_of, read_crate, report, without

BELOW, COUNTERS = "vers_bits", "vers_tally"
# The functions that may read a whole list without a counter.
WHOLE = {
    "RsVec::clone", "RsVec::into_bit_vec", "RsVec::eq", "EliasFanoVec::clone", "EliasFanoVec::low_parts",
    "BinaryRmq::clone", "BinaryRmq::as_slice", "FastRmq::clone", "FastRmq::as_slice", "MinMaxTree::copied",
    "PackedNumbers::clone", "WordRank::bits", "WordRank::clone", "WaveletTree::clone", "WaveletTree::to_integers",
}
# Functions that make a counter, besides the calls whose names end in `_unchecked`: those without a counted form, and
# lists that are made of counted numbers.
FRESH = {"RsVec::has_positions_of", "WaveletMatrix::position_from", "BothEnds::last", "put_marked",
         "intersection", "union", "difference", "intersection_of", "union_of", "difference_of"}
# Plain lists that types may contain: tables of numbers that are stored for queries, what is at work while something is
# made, and iterators over counted lists.
TABLES = {
    "BpBuilder.bits": "BitVec<A>", "BinaryRmq.table": "Vec<u32, A>", "FastRmq.positions": "Vec<u8, A>",
    "Met.positions": "[u64; 17]",
    "FastRmq.masks": "Vec<BlockMasks, A>", "WaveletMatrix.levels": "Vec<RsVec<A>, A>", "Words.numbers": "&'a [N]",
    "Packed.bits": "&'a BitVec<A>", "Positions.bits": "&'a BitVec<A>", "Way.nodes": "[Node; 64]",
    "Blocks.minima": "Vec<u64, A>", "Blocks.positions": "Vec<u8, A>",
    "Blocks.masks": "Vec<BlockMasks, A>", "ByteTables.forward": "[u64; 256]", "ByteTables.backward": "[u64; 256]",
    "ChunkWalk.offsets": "[u8; CHUNK]", "SliceNumbers.rest": "&'a [u64]", "SlicePairs.rest": "&'a [(u64, u64)]",
    "Parts.high": "BitVec<A>",
    "Parts.low": "BitVec<A>",
    "AllOf.others": "Vec<S, A>", "AnyOf.others": "Vec<S, A>",
    "Documents.numbers": "EliasFanoRefIter<'a, A>",
    "Grown.nodes": "Vec<Node, A>", "Grown.bits": "BitVec<A>", "Forks.nodes": "Vec<Node, A>",
    "Asked.numbers": "[usize; GROUP]", "Group.slots": "[usize; GROUP]",
}
# The calls that bodies have to make: public calls those of their kernels, and kernels those that make them kernels.
CALLS = {
    "BitVec::count_ones": "ones_of", "ones_of": "as_chunks ones_of_chunk", "BitVec::eq": "are_same",
    "are_same": "as_chunks agree", "agree": "from_array simd_ne any", "RsVec::block_with": "block_among",
    "RsVec::block_among": "read_16 last_up_to", "last_up_to": "differences far_below",
    "differences": "splat from_slice",
    "far_below": "simd_ge to_bitmask count_ones", "ChunkWalk::next_counted": "load",
    "ChunkWalk::load": "put_offsets put_offsets_plainly", "put_offsets": "offsets_in_byte splat put_lanes",
    "offsets_in_byte": "lanes_from", "lanes_from": "from_slice", "put_lanes": "copy_to_slice",
    "Searched::forward": "scan_forward forward_past", "Searched::forward_past": "scan_forward",
    "scan_forward": "bytes_forward", "bytes_forward": "met_forward position_met",
    "Searched::backward": "scan_backward backward_past", "Searched::backward_past": "scan_backward",
    "scan_backward": "bytes_backward", "bytes_backward": "met_backward position_met",
    "WaveletMatrix::from_slice_pc": "counted", "WaveletMatrix::from_bit_vec_pc": "counted",
    "WaveletMatrix::counted": "counted_levels", "counted_levels": "table levels_by_counting",
    "levels_by_counting": "placed_digits start_next", "placed_digits": "copy_first prefix", "start_next": "rank0 zeros",
}
# The calls that bodies may not make: searches of whole bytes read no single bit, and makers by counting don't sort.
BARRED = {
    "scan_forward scan_backward bytes_forward bytes_backward": "is_one is_one_counted get_counted",
    "WaveletMatrix::counted counted_levels levels_by_counting placed_digits start_next":
        "sort sort_by sort_by_digit sort_by_key sort_unstable sort_unstable_by_key sorted sorted_levels levels_by_sorting split",
}
# Kernels of lanes, in which nothing goes on in turns; and searches of whole bytes, which return the position that a
# byte's table gives.
WITHOUT_LOOPS = {"agree", "RsVec::block_among", "last_up_to", "differences", "far_below", "offsets_in_byte",
                 "lanes_from", "put_lanes"}
BYTES = {"bytes_forward", "bytes_backward"}
RETURNED = re.compile(r"\bif let Some\((\w+)\) = position_met\([^;{]*\{\s*return Ok\([^;]*\b\1\b[^;]*\);")
BRACKETS = r"\([^()]*\)|\[[^\[\]]*\]"
NUMBER = r"(?:[ui](?:8|16|32|64|128|size)|bool)"
# What shows that an expression is a number: how it begins or ends, a constant, or an operator between two.
SHOWN = re.compile(rf"(?s)-?\d|{NUMBER}::|[A-Z][A-Z_0-9]*$|.*(?:\blen$|[\w)\]] (?:[-+*/%|^]|>>|<<|&) [\w(])")
SIDES = re.compile(r"(?:^|[({;,&|!]|= )([^={};,]*?)(?<![=!<>])(?:==|!=)(?!=)([^={};,]*?)(?=[){;,]|&&|\|\||$)", re.M)
# Calls of the standard library that counted bodies make: on numbers, options, lanes and lists made there. Others may
# walk a list.
KNOWN = re.compile(
    r"(?:saturating|checked|wrapping)_\w+|(?:leading|trailing|count)_(?:zeros|ones)|div_ceil|unwrap(?:_or)?|ok|is_none|is_some"
    r"|map_err|push|reverse|split_first|splat|to_array|to_bitmask|copy_to_slice|simd_\w+"
)
STANDARD = {"Some", "Ok", "Err", "Vec", "Option", "Result", "PhantomData"}
TRAITS = {"Clone", "DoubleEndedIterator", "From", "IntoIterator", "Iterator", "PartialEq"}
MENTION = re.compile(
    r"(?:(?P<of>[\w.]*\w)\s*\.\s*|(?P<dot>\.)\s*|(?P<path>\w+)(?:::)?(?:<[^<>()]*>)?::)?"
    r"\b(?!(?:if|while|match|for|in|return|let|mut|else|as|loop|break|continue|true|false|self|move|ref)\b)"
    r"(?P<name>[a-z_]\w*)\b(?P<call>\s*(?:\(|::<))?"
)
# Where the counter's type is allowed, and where in the file of counters besides; and what is not allowed elsewhere.
COUNTER = r"^\s*(?:pub )?use [^;]*;|\b\w+: &mut Tally(?=[,)])|let mut tally = Tally::new\(\);"
OF_VECTORS = r"|struct Tally|impl (?:Model for )?Tally \{|-> Tally|^\s*Tally \{|struct Uncounted"
MISPLACED = re.compile(r"\bTally\b|\b(?:struct|type) Uncounted|\b(?:const|static) \w+: [^=;]*Uncounted")
# A variable with the name of the counter that is none.
BINDS = re.compile(
    r"\blet (?:mut )?tally\b(?! = Tally::new\(\);)|\blet \([^=;]*\btally\b|\bfor (?:\([^)]*)?tally\b"
    r"|\|[^|;]*\btally\b[^|;]*\|(?!\|)|\b(?:Some|Ok|Err)\((?:mut |ref )?tally\) (?:=>|=)"
)
RENAMED = re.compile(r"(?m)^\s*(?:pub )?use [^;]*?\b([a-z]\w*|Tally|Uncounted) as (\w+)")


class Library:
    """The functions and structs of the crates with counters."""

    def __init__(self, sources):
        self.functions = [it for source in sources for it in source.functions]
        self.by_name, self.fields, self.types_of_field = defaultdict(list), {}, defaultdict(set)
        for function in self.functions:
            self.by_name[function.name].append(function)
        for struct, fields, _ in [it for source in sources for it in source.structs]:
            for name, type_ in fields:
                self.fields[struct, name] = re.match(r"\W*(?:'\w+ )?(?:mut )?(\w*)", type_)[1]
                self.types_of_field[name].add(type_)
        self.holders = STANDARD | {it for function in self.functions for it in (function.holder, function.trait) if it}
        self.structs = {name for source in sources for name, _, _ in source.structs}
        self.aliases = {word for source in sources
                        for word in re.findall(r"(?m)^(?:pub(?:\([a-z]+\))? )?type (\w+)", source.text)}
        self.traits = {word for source in sources for word in re.findall(r"\btrait (\w+)", source.text)}
        # the functions that lead to a token or to a fresh counter, other than counted bodies, which may not
        plain = [it for it in self.functions if is_checked(it) and not takes_counter(it)]
        made = {it for it in plain if next(self.made(it), None)} | {it for it in self.functions
                                                                    if "Uncounted" in it.declared}
        self.uncounted = reaching(made, {it: {other for other, _ in self.mentions(it)} for it in plain})

    def of_type(self, holder, name):
        """Returns the functions of a name that a type or a trait has."""
        return [it for it in self.by_name[name] if holder in (it.holder, it.trait)]

    def meant(self, function, found):
        """Returns the functions that a mention in a body may mean."""
        name, of, path = found["name"], found["of"], found["path"]
        free = [it for it in self.by_name[name] if not it.owner]
        if path:
            holder = function.holder if path == "Self" else path
            if holder in self.holders or re.fullmatch(NUMBER, holder):
                return self.of_type(holder, name)
            return self.by_name[name] if path[0].isupper() else free
        if not of and not found["dot"]:
            is_bound = name in dict(function.parameters) or re.search(rf"\b(?:let|mut|for|Some\(|Ok\() ?{name}\b",
                                                                      function.code)
            return free if found["call"] or not is_bound else []
        if name in ("min", "max") and not re.match(r"\s*\(\s*\)", function.code[found.end("name") :]):
            return [it for it in self.by_name[name] if it.owner and it.parameters]
        field = re.fullmatch(r"self\.(\w+)", of or "")
        type_ = self.fields.get((function.holder, field[1]),
                                "") if field else {"tally": "Tally", "self": function.holder}.get(of)
        return type_ and self.of_type(type_, name) or [it for it in self.by_name[name] if it.owner]

    def mentions(self, function):
        """Yields the functions that a body may mention, with the text of the mention."""
        for found in MENTION.finditer(function.code):
            if found["call"] or found["path"] or not found["of"] and not found["dot"]:
                yield from ((it, found[0].strip(" (")) for it in self.meant(function, found) if it is not function)
        # `?` turns an error into that of the function's own result
        error = re.search(r"-> Result<.*\b(\w+)(?:<[^<>]*>)?>$", function.head)
        if error and "?" in function.code:
            yield from ((it, "?") for it in self.by_name["from"] if it.holder == error[1])

    def made(self, function):
        """Yields what a body does that reads without its counter, and what Rust calls without a name."""
        if BINDS.search(function.code) or any(name == "tally" and type_ != "&mut Tally"
                                              for name, type_ in function.parameters):
            yield "gives the counter's name to another variable"
        for word in ("Uncounted", "Tally::new", "Tally {"):
            if word in function.code:
                yield f"makes `{word}`"
        for found in MENTION.finditer(function.code):
            if found["call"] and not self.by_name.get(found["name"]) and not KNOWN.fullmatch(found["name"]):
                yield f"calls `{found['name']}`, of which nothing is known"
        for loop in re.finditer(r"\bfor\b[^;{]*?\bin\b([^{]*)\{", function.code):
            if not is_range(loop[1]):
                yield f"loops over `{loop[1].strip()}`, which is no range"
        for sides in SIDES.finditer(function.code):
            if not any(self.is_number(function, it) for it in sides.groups()):
                yield f"compares `{' '.join(sides[0].split())}`, of which neither side is seen to be a number"

    def is_number(self, function, text):
        """Returns whether the text shows that an expression is a number, a truth value or one in an option."""
        text = re.sub(r"^(?:[\s(!*]|(?:if|while|return)\b)+", "", text).strip()
        types = [type_ for name, type_ in function.parameters if name == text]
        if field := re.fullmatch(r"[\w.]+\.(\w+)", text):
            types += self.types_of_field[field[1]]
        if types and all(re.fullmatch(NUMBER, it.strip()) for it in types):
            return True
        return bool(SHOWN.match(without(BRACKETS, text).split("(")[0]))


def is_range(text):
    """Returns whether the head of a loop is a range, maybe in brackets and backward."""
    within = re.fullmatch(r"(?s)\s*\((.*)\)\.rev\(\)\s*", text)
    return ".." in without(BRACKETS, within[1] if within else text)


def is_checked(function):
    """Returns whether a body is checked: not those below the counters, and not those of the counted vectors."""
    return function.has_body and function.source.crate != BELOW and not is_vectors(function.source)


def is_vectors(source):
    """Returns whether a file is that of the counters and the counted vectors."""
    return source.crate == COUNTERS and source.module == "tally"


def takes_counter(function):
    """Returns whether a function takes a counter."""
    return any(type_ == "&mut Tally" for _, type_ in function.parameters)


def on_one_line(function):
    """Returns a body on one line."""
    return " ".join(function.code.split()).replace("( ", "(").replace(", )", ")")


def counted_faults(library, function):
    """Yields what in a counted body may read without the counter."""
    yield from library.made(function)
    for other, text in library.mentions(function):
        if other in library.uncounted:
            yield f"mentions `{text}`, which may be {other.full_name}, which reads without its counter"


def plain_faults(library, function):
    """Yields whether a plain query isn't its counted form, and whether another function makes a counter."""
    where = function.holder, function.source.crate
    counted = [it for it in library.by_name[f"{function.name}_counted"] if (it.holder, it.source.crate) == where]
    names, body = [name for name, _ in function.parameters], on_one_line(function)
    call = f"{function.name}_counted({', '.join([*names, '&mut tally'])})"
    forms = [f"let mut tally = Tally::new(); {of}{call}" for of in ("self.", "Self::", "")]
    forms += [re.sub(r"_counted(\([^()]*?)(?:, )?tally\)", r"\1)", on_one_line(it)) for it in counted]
    forms += [f"self.{function.name}({', '.join(names)})"] if function.trait else []
    is_known = function.full_name in FRESH or function.name.endswith("_unchecked")
    if (counted or "Tally::new" in body and not is_known) and body not in forms:
        yield "is not its counted form with a fresh counter"


def vector_faults(function):
    """Yields whether a call of a counted vector doesn't raise the counter once for one read."""
    own = re.findall(r"\bself\.(?:entries|numbers|bits)\b(?!\.len\(\))", function.code)
    others = re.findall(r"(?<!self\.)\b(?:entries|numbers|bits)\b", function.code)
    raises = re.findall(r"\btally\.(\w+) = tally\.\1\.saturating_add\((?:\d+|reads)\)", function.code)
    is_several = re.search(r"\b(?:for|while|loop|Uncounted)\b|\|\w*[:|]|&self\.\w+\[\w*\.\.\w", function.code)
    if takes_counter(function):
        if len(own) != 1 or len(raises) != 1 or is_several or others:
            yield f"raises the counter {len(raises)} times for {len(own)} reads, or reads several"
    elif function.name != "new" and "Uncounted" not in function.declared and (own or others):
        yield "reads without the counter"


def function_faults(library, function):
    """Yields what is broken in a function."""
    if is_vectors(function.source):
        yield from vector_faults(function)
    elif is_checked(function):
        yield from counted_faults(library, function) if takes_counter(function) else plain_faults(library, function)
    if function.trait and function.source.crate != BELOW:
        if function.trait not in TRAITS | library.traits:
            yield f"is a call of another trait, {function.trait}"
        if len(function.holder) < 2 or function.holder == "Vec" or "[" in function.owner.partition(" for ")[2]:
            yield "is a call of a type that is not of these crates"


def file_faults(source):
    """Yields a line for each place of a file at which the counter's type or a token is not allowed."""
    text, allowed = bare_keeping_lines(source.text), COUNTER
    for found in RENAMED.finditer(text):
        yield line_of(text, found.end()), f"gives `{found[1]}` the name `{found[2]}`"
    if is_vectors(source):
        allowed += OF_VECTORS
        for found in re.finditer(r"(?m)^    pub (\w+):", text):
            yield line_of(text, found.end()), f"{found[1]} can be read from outside"
    rest = re.sub(allowed, lambda it: re.sub(r"[^\n]", " ", it[0]), text, flags=re.M)
    for found in MISPLACED.finditer(rest):
        yield line_of(rest, found.end()), f"`{found[0]}` is not allowed here"


def field_faults(library, source):
    """Yields a line for each field of a type that contains a list other than in a counted vector."""
    known = library.structs - {"Tally", "BitVec", "Uncounted"} | library.traits
    known |= {"PhantomData", "Option", "Alloc", "a"}
    for struct, fields, line in [] if is_vectors(source) else source.structs:
        for name, type_ in fields:
            words = set(re.findall(r"[A-Za-z_]\w*", type_)) - known
            is_list = "[" in type_ or any(not re.fullmatch(rf"{NUMBER}|[A-Z]|[A-Z][A-Z_]+", it) or it in library.aliases
                                          for it in words)
            if is_list and TABLES.get(f"{struct}.{name}") != type_:
                yield line, f"{struct}.{name} contains `{' '.join(type_.split())}`"


def named_faults(library):
    """Yields what is broken in the functions that tables name: those that make tokens, and kernels."""
    made, bodies = {it.full_name for it in library.functions if "Uncounted" in it.code}, defaultdict(list)
    yield from (f"{name} reads a whole list without a counter" for name in sorted(made - WHOLE))
    yield from (f"{name} reads no whole list; remove it from `WHOLE`" for name in sorted(WHOLE - made))
    for function in [it for it in library.functions if it.has_body]:
        bodies[function.full_name].append(function.code)
    for name, calls in CALLS.items():
        barred = " ".join(calls for names, calls in BARRED.items() if name in names.split())
        for body in bodies[name] if len(bodies[name]) == 1 else [""]:
            made = set(re.findall(r"\b([a-z_]\w*)(?:::<[^<>]*>)?\(", body))
            yield from (f"{name} has no call of `{it}`" for it in calls.split() if it not in made)
            yield from (f"{name} calls `{it}`" for it in barred.split() if it in made)
            yield from (f"{name} ignores what `{it}` returns" for it in calls.split()
                        if is_ignored(library, it, body))
            if name in WITHOUT_LOOPS and re.search(r"\b(?:for|while|loop)\b", body):
                yield f"{name} has a loop"
            if name in BYTES and not RETURNED.search(body):
                yield f"{name} doesn't return the position that `position_met` gives"


def is_ignored(library, name, body):
    """Returns whether each call of a function that returns something is a statement of its own, or gives a variable
    that is never read."""
    flat = without(BRACKETS, re.sub(r"::<[^<>]*>", "", body))
    statements = [it for it in re.findall(r"[^;{}]*[;{}]?", flat) if re.search(rf"\b{name}\b", it)]
    variables = [re.match(r"\s*let (?:mut )?(\w+)", it) for it in statements]
    alone = [it for it in statements if re.fullmatch(rf"(?!\s*return\b)[\w.:&*\s]*\b{name}\s*;", it)]
    unread = [it for it in variables if it and len(re.findall(rf"\b{it[1]}\b", body)) < 2]
    is_known = any(" -> " in it.head for it in library.by_name[name])
    return is_known and 0 < len(statements) == len(alone) + len(unread)


def faults(sources):
    """Yields what is broken in the sources of the crates with counters and those below."""
    library = Library(sources)
    for it in library.functions:
        yield from (f"{it.where}: {it.full_name} {what}" for what in function_faults(library, it))
    for source in [it for it in sources if it.crate != BELOW]:
        yield from (f"{source.path}:{line}: {what}"
                    for line, what in [*file_faults(source), *field_faults(library, source)])
    yield from named_faults(library)


if __name__ == "__main__":
    listed = Crates()
    named = [it for it in listed.lines if COUNTERS in [it, *listed.uses(it)]
             and not re.search(r"_tests$|_cli$|_saved$|_vecs$", it)]
    read = [source for name in [BELOW, *named] for source in read_crate(name)]
    if "--self-test" in sys.argv:
        from counting_plants import self_test
        sys.exit(self_test(read, faults))
    sys.exit(report("counting rules", faults(read)))
