"""Ways around the counters, for the self-test of `counting_rules.py` to plant, and what has to be reported of each.

Code is put at the beginning of a function's body, or before a struct's first field; `beside` at the end of its file; of
`instead` the second text is written for the first. A plant whose place is gone is an error.
"""
from collections import namedtuple

from counting_rules import BARRED, CALLS
from sources import Source, report_tests


# A fault: what has to be reported, where it is planted, and what.
Plant = namedtuple("Plant", "expected place code beside instead", defaults=("", "", ()))


def function(head, body):
    """Returns a function."""
    return f"fn {head} {{\n    {body}\n}}"


def method(head, body, of="impl<A> RsVec<A>"):
    """Returns an impl with one function."""
    return f"{of} {{\n    fn {head} {{\n        {body}\n    }}\n}}"


RANK0, RANK1 = "RsVec::rank0_counted", "RsVec::rank1_counted"
RANK, SHARED = "EliasFanoVec::rank_counted", "common_documents"
SPARSE, READ, ENTRIES = "SparseRSVec::rank1_counted", "BlockEntries::read", "BlockEntries"
WALK, WHOLE = "let mut walk = longer.iter();", "self.bits.as_bit_vec(Uncounted)"
WORD_OF = function("word_of<A>(bits: &CountedBits<A>) -> u64", "bits.as_bit_vec(Uncounted).limb(0)")
RAISE = "tally.block_entries = tally.block_entries.saturating_add(1);"
ENTRY = "entry_of<A>(blocks: &BlockEntries<A>) -> u16"
# bodies that read by what Rust calls without a name, by plain queries, and by calls of which nothing is known
IN_BODIES = (
    ("is no range", RANK0, "for _bit in self {}"),
    ("is no range", SHARED, f"{WALK} for _document in walk {{}}"),
    ("neither side is seen to be a number", RANK0, "let _same = *self == *self;"),
    ("neither side is seen to be a number", RANK, "let _same = self.high == self.high;"),
    ("may be RsVec::full_equals,", RANK0, "let _same = self.full_equals(self);"),
    ("may be RsVec::sparse_equals,", RANK0, "let _same = self.sparse_equals::<true>(self);"),
    ("may be RsVec::eq,", RANK, "let _same = PartialEq::eq(&self.high, &self.high);"),
    ("may be RsVec::rank0,", RANK1, "let _zeros = self.rank0(tally.data_words() as usize);"),
    ("may be RsVec::rank1,", RANK, "let _ones = self.high.rank1(0);"),
    ("may be RsVec::rank1,", RANK, "let _ones = RsVec::rank1(&self.high, 0);"),
    ("may be RsVec::rank1,", RANK, "let ask = RsVec::rank1;"),
    ("may be RsVec::rank0,", RANK0, "let span = self; let _zeros = span.rank0(position);"),
    ("may be SparseRSVec::is_set_unchecked,", "SparseRSVec::get_counted", "let _one = self.is_set_unchecked(position);"),
    ("may be BothEnds::next,", RANK0, "while let Some(_bit) = self.iter().next() {}"),
    ("may be BothEnds::min,", SPARSE, "let _least = self.iter1().min();"),
    ("calls `sum`, of which nothing is known", SHARED, f"{WALK} let _sum = walk.sum();"),
    ("may be CountedBits::as_bit_vec,", RANK0, "let whole = CountedBits::as_bit_vec;"),
    ("may be BlockEntries::as_slice,", RANK0, "let _entries = self.blocks.as_slice(Uncounted);"),
    ("may be FastRmq::as_slice,", "Postings::cheapest_counted", "let _costs = self.costs.as_slice();"),
    ("makes `Uncounted`", RANK0, f"let _word = {WHOLE}.limb(0);"),
    ("makes `Tally::new`", RANK1, "let mut own = Tally::new();"),
    ("raises the counter 1 times for 2 reads", READ, "let _first = self.entries[0];"),
    ("or reads several", READ, "let BlockEntries { entries } = other;"),
    ("reads without the counter", "BlockEntries::len", "let _first = self.entries[0];"),
    ("Postings::rank is not its counted form", "Postings::rank_counted",
     "let _first = self.documents.get_counted(0, tally);"),
)
# names of one's own instead of known ones, errors that are turned, and ranges and numbers that are none
IN_BODIES += (
    ("gives the counter's name to another variable", RANK0, "let tally = &self.bits;"),
    ("gives the counter's name to another variable", RANK0, "let (position, tally) = (0, &self.bits);"),
    ("gives the counter's name to another variable", RANK0, "self.each(|tally| tally.limb(0));"),
    ("is no range", RANK0, "for _bit in self.part(0..position) {}"),
    ("is no range", RANK0, "for _bit in self.bits[..position] {}"),
    ("neither side is seen to be a number", RANK0, "let _same = self.part(position + 1) == self.part(position - 1);"),
    ("neither side is seen to be a number", RANK0, "let _same = self.part(self.len()) == self.part(position * 2);"),
    ("far_below has a loop", "far_below", "for _lane in 0..16 {}"),
    ("last_up_to has a loop", "last_up_to", "while false {}"),
)
# what is next to it, in the file of a body that may use it: functions, those of traits and types, second names
BESIDE = (
    ("may be word_of,", RANK0, "peeks::word_of(&self.bits);", f"mod peeks {{\n{WORD_OF}\n}}"),
    ("may be word_of,", RANK0, "self.by(word_of);", WORD_OF),
    ("gives `word_of` the name `tidy`", RANK0, "tidy(&self.bits);", f"use crate::peeks::word_of as tidy;\n{WORD_OF}"),
    ("may be RsVec::list,", RANK0, "self.list();", method("list(&self) -> &BitVec<A>", WHOLE)),
    ("may be RsVec::peek,", RANK0, "self.peek();", method("peek(&self) -> u64", WHOLE, "impl<A> Peek for &RsVec<A>")),
    ("may be Listed::first,", RANK0, "self.first();",
     method("first(&self) -> u64", "as_bit_vec(Uncounted)", "trait Listed<A>")),
    ("may be RsVec::word_at,", RANK0, "self.word_at::<3>();", method("word_at<const K: usize>(&self) -> u64", WHOLE)),
    ("may be usize::peek,", RANK0, "position.peek(self);",
     method("peek(self)", "whole(Uncounted)", "impl Peek for usize")),
    ("may be RsVec::any,", RANK0, "self.any();", method("any(&self) -> bool", "for _bit in self {}")),
    ("RsVec::word_at reads a whole list", RANK0, "", method("word_at(&self) -> u64", f"{WHOLE}.limb(0)")),
    ("a call of another trait, Deref", RANK0, "", method("deref(&self) -> &u64", "&0", "impl<A> Deref for RsVec<A>")),
    ("a type that is not of these crates", RANK0, "",
     method("peek(&self) -> u64", "self[0]", "impl Peek for Vec<u64>")),
    ("a type that is not of these crates", RANK0, "", method("list(&self) -> u64", "0", "impl<T: Send> Indexed for T")),
    ("may be RsVec::max,", RANK0, "self.max(position);", method("max(&self, n: usize) -> u64", WHOLE)),
    ("mentions `?`, which may be AllocError::from,", SHARED, "Err(self)?;",
     method("from(list: &RsVec<A>) -> AllocError", WHOLE, "impl<A> From<&RsVec<A>> for AllocError")),
    ("`const TOKEN: Uncounted` is not allowed here", RANK0, "", "const TOKEN: Uncounted = Uncounted;"),
    ("Cache.words contains `W`", "RsVec", "cache: Cache,", "type W = Vec<u64>;\n\nstruct Cache {\n    words: W,\n}"),
    ("gives `Tally` the name `Counter`", RANK1, "", "use vers_tally::tally::Tally as Counter;"),
    ("`Tally` is not allowed here", RANK1, "", "type Counter = Tally;"),
    ("`Tally` is not allowed here", RANK1, "", function("spare() -> Option<Tally>", "None")),
    ("own_count is not its counted form", RANK1, "", function("own_count() -> u64", "let mut tally = Tally::new();")),
    ("Cache.words contains `Vec<u64, A>`", "RsVec", "cache: Cache<A>,",
     "struct Cache<A> {\n    words: Vec<u64, A>,\n}"),
    ("Cache.0 contains `Vec<u64, A>`", "RsVec", "cache: Cache<A>,", "struct Cache<A>(Vec<u64, A>);"),
    ("contains `Vec<u64, A>`", "RsVec", "cache: Cache<A>,", "enum Cache<A> {\n    None,\n    Words(Vec<u64, A>),\n}"),
    ("reads without the counter", READ, "", f"pub {function(ENTRY, 'blocks.entries[0]')}"),
    ("reads without the counter", READ, "", f"pub {function(ENTRY, 'let BlockEntries { entries } = blocks;')}"),
)
# a text of a body or a struct, and its replacement
INSTEAD = (
    ("ignores what `differences` returns", "last_up_to", "let below = differences(zeros, bit, r);",
     "let _below = differences(zeros, bit, r); let below = zeros;"),
    ("ignores what `far_below` returns", "last_up_to", "let block = 15 - far_below(below);",
     "far_below(below); let block = 0;"),
    ("doesn't return the position that `position_met` gives", "bytes_forward", "return Ok(start + within + position);",
     "return Ok(start + within);"),
    ("doesn't return the position that `position_met` gives", "bytes_backward", "return Ok(start + within + position);",
     "return Ok(start + within);"),
    ("BinaryRmq.table contains `Vec<u64, A>`", "BinaryRmq", "table: Vec<u32, A>", "table: Vec<u64, A>"),
    ("raises the counter 0 times for 1 reads", READ, RAISE, ""),
    ("or reads several", READ, "self.entries[k]", "self.as_slice(Uncounted)[k]"),
    ("or reads several", READ, "self.entries[k]", "{ for j in 0..k {} self.entries[k] }"),
    ("or reads several", READ, "self.entries[k]", "{ let peek = |j: usize| 0; self.entries[k] }"),
    ("reads without the counter", READ, "k: usize, tally: &mut Tally", "k: usize"),
    ("entries can be read from outside", ENTRIES, "entries: Vec<u16, A>", "pub entries: Vec<u16, A>"),
)
# plain queries, their text, and what is not their counted form
PLAIN = {
    ("RsVec::rank1", "self.rank1_counted(position, &mut tally)"): (
        "self.scan(position, &mut tally)", "self.rank1_counted(position, &mut tally) + self.len()",
        "self.rank1_counted(position, &mut spare)", "self.rank1_counted(self.len(), &mut tally)",
        f"{WHOLE}; self.rank1_counted(position, &mut tally)",
    ),
    ("Postings::rank", "self.documents.rank(document)"): (
        "self.costs.rank(document)", "self.documents.below(document)", "self.documents.rank(0)",
        "self.documents.rank(document) + 1", "self.documents.get(0); self.documents.rank(document)",
    ),
}
LISTS = ("Vec<u64, A>", "Option<BitVec<A>>", "BTreeMap<u64, u64>", "[u64; 4]", "u64x8", "Rc<u64>", "Cache<A>",
        "&'static [u64]")
PLANTS = [Plant(*it) for it in IN_BODIES + BESIDE] + [Plant(expected, place, instead=texts)
                                                      for expected, place, *texts in INSTEAD]
for (place, old), others in PLAIN.items():
    PLANTS += [Plant(f"{place} is not its counted form", place, instead=(old, new)) for new in others]
PLANTS += [Plant(f"RsVec.cache contains `{it}`", "RsVec", f"cache: {it},") for it in LISTS]
for place, calls in CALLS.items():
    PLANTS += [Plant(f"{place} has no call of `{it}`", place, instead=(it, "another")) for it in calls.split()]
for places, calls in BARRED.items():
    PLANTS += [Plant(f"{it} calls `{calls.split()[0]}`", it, f"let _ = {calls.split()[0]}(0);")
               for it in places.split()]


def planted(plant, sources):
    """Returns the sources with a fault planted."""
    for at, source in enumerate(sources):
        spans = [(it.first, it.body, it.last) for it in source.functions if it.has_body and it.full_name == plant.place]
        spans += [(line - 1, line, source.lines.index("}", line)) for name, _, line in source.structs
                  if name == plant.place]
        for first, body, last in spans:
            head, inside = ["\n".join(it) for it in (source.lines[first:body], source.lines[body : last + 1])]
            if plant.instead:
                assert plant.instead[0] in head + inside, f"the text of a plant is gone: {plant}"
                head, inside = head.replace(*plant.instead), inside.replace(*plant.instead)
            lines = [*source.lines[:first], head, plant.code, inside, *source.lines[last + 1 :], plant.beside, ""]
            return [*sources[:at], Source(source.crate, source.path, "\n".join(lines)), *sources[at + 1 :]]
    raise AssertionError(f"the place of a plant is gone: {plant}")


def self_test(sources, faults):
    """Plants each fault, and returns the exit status, 1 if one isn't found."""
    missed = [it for it in PLANTS if not any(it.expected in line for line in faults(planted(it, sources)))]
    return report_tests(len(PLANTS), [f"not found: {it}" for it in missed])
