"""What `mutants.py` plants among the wrong bodies, and edits for its self-test."""

# Right bodies, which are run among the wrong ones, in each kind of module: the crate, the wrong body whose row they
# have to pass, and what is written for what. The last three break what only a private contract or a proof says, which
# no caller can see.
RIGHT = (
    ("vers_bits", "is_empty--is-empty-of-one-bit", "self.len() == 0", "self.len() < 1"),
    ("vers_rmq", "least_from--an-equal-item-of-the-first-block-is-passed-over", "if after.value < least {",
     "if least > after.value {"),
    ("vers_trees", "stays_above--a-word-is-passed-over-that-falls-to-the-target", "target < rise - falls",
     "rise - falls > target"),
    ("vers_wavelet", "begin--a-batch-of-ranks-refuses-all-positions", "let is_known = levels <= 64 && self.end <= len;",
     "let is_known = self.end <= len && levels <= 64;"),
    ("vers_saved", "row_is_padded--a-one-past-the-end-is-taken",
     "words.word(k * limbs + limbs + FRAME - 2) < 1 << (bits % 64)",
     "words.word(k * limbs + limbs + FRAME - 2) >> (bits % 64) == 0"),
    ("vers_engine", "take_line--the-end-of-a-line-is-taken-twice", "Ok(end + 1)", "Ok(1 + end)"),
    ("vers_cli", "is_accepted--the-greatest-number-of-values-is-refused", "Some(count) => count <= MAX_LEN,",
     "Some(count) => MAX_LEN >= count,"),
    ("vers_c", "vers_sorted_build--numbers-need-not-ascend", "if !is_ascending(numbers) {",
     "if is_ascending(numbers) == false {"),
    ("vers_bits", "extend_by--a-refused-extension-keeps-half-of-a-list", "self.truncate(len);", "let _ = len;"),
    ("vers_sorted", "position_read--a-walk-skips-what-it-read", "ahead.len = len;", "ahead.len = 64;"),
    ("text_index", "shrink_keys--keys-are-said-to-differ", "passes += 1;", "passes += 2;"),
)

# A small source, and edits of it: each with what its refusal says, or nothing for one that isn't refused.
SMALL = """const STEP: u64 = 1;

pub struct Counter {
    count: u64,
}

impl Counter {
    #[inline]
    pub fn value(&self) -> u64 {
        self.count
    }

    fn reset() {}
}

pub fn next(x: u64) -> u64 {
    x + STEP
}

pub fn second(x: u64) -> u64 {
    next(next(x))
}
"""
EDITS = {
    name: (f"file: src/{file}.rt\nold: {old}\nnew: {new}\n{row}: rows::next\n", expected)
    for name, old, new, expected, row, file in (
        ("next--adds-two", "x + STEP", "x + STEP + STEP", "", "row", "lib"),
        ("value--is-one-more", "self.count", "self.count + 1", "", "row", "lib"),
        ("second--is-third", "next(next(x))", "next(next(next(x)))", "", "row", "lib"),
        ("next--names-no-test", "x + STEP", "x", "names no test", "goal", "lib"),
        ("next--of-another-file", "x + STEP", "x", "no file src/main.rt", "row", "main"),
        ("next--stands-nowhere", "x - STEP", "x", "0 times in its file", "row", "lib"),
        ("next--stands-twice", "next(x", "next(1 + x", "2 times in its file", "row", "lib"),
        ("next--changes-nothing", "x + STEP", "x + STEP", "changes nothing", "row", "lib"),
        ("value--changes-nothing", "self.count", "self.count", "changes nothing", "row", "lib"),
        ("next--changes-a-constant", "STEP: u64 = 1", "STEP: u64 = 2", "no body of one function", "row", "lib"),
        ("next--changes-the-type-of-a-constant", "STEP: u64", "STEP: u32", "no body of one function", "row", "lib"),
        ("value--changes-a-field", "count: u64", "count: u32", "no body of one function", "row", "lib"),
        ("second--changes-a-name", "fn second(x", "fn third(x", "no body of one function", "row", "lib"),
        ("reset--adds-a-function", "fn reset() {}", "fn reset() {} fn stop() {}", "no body of one function", "row", "lib"),
        ("value--changes-an-attribute", "#[inline]", "#[cold]", "no body of one function", "row", "lib"),
        ("value--changes-two-bodies", "self.count", "self.count * 2\nold: next(next(x))\nnew: next(x)",
         "no body of one function", "row", "lib"),
        ("next--is-of-another", "next(next(x))", "next(x)", "begin with `second--`", "row", "lib"),
    )
}
