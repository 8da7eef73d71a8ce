//! The differences that docs/DIFFERENCES.md names, by call and condition.

use crate::log::Call;

/// A difference: of which calls, when, and the words that name it. A name that begins with `*` means all that end
/// so.
pub struct Difference {
    pub names: &'static [&'static str],
    pub when: fn(&Call, &str) -> bool,
    pub sentence: &'static str,
}

const JUNK: &str = "Bits past the length may hold junk";
const OVERFLOW: &str = "sums and products of a position and a length wrap or panic";
const ITERATORS: &str =
    "`nth_back(n)` of select iterators, and `nth(n)` and `nth_back(n)` of iterators over bits, limbs and elements";
const REVERSED: &str =
    "`rank_range` and `quantile` of wavelet matrices underflow on reversed ranges; `select_offset` overflows";
const SAMPLES: &str = "padding counts as ones in the select samples";
const LEVELS: &str =
    "`level_rightmost(0)` is None on a single node and wrong on forests; `level_leftmost(0)` is Some(0) on no bits";
const UNCHECKED: &str = "Calls named `_unchecked` return anything, or panic, if their precondition fails";
const MINIMA: &str = "Range minima return anything, or panic, for a range that is reversed or ends past the array";
const MAKERS: &str = "Makers of ascending lists take numbers that don't ascend";

/// The arguments 0 to 3 of a call, 0 where there are fewer.
fn numbers(call: &Call) -> [u64; 4] {
    std::array::from_fn(|k| call.arguments.get(k).copied().unwrap_or(0))
}

/// Whether position `at` isn't one of the list.
fn is_past(call: &Call) -> bool {
    call.arguments[0] >= call.len
}

/// Whether the list lacks some of `count` bits from `at` on, or the bit there, or they are more than a word.
fn lacks_bits(call: &Call) -> bool {
    let [at, count, ..] = numbers(call);
    count > 64 || at >= call.len || at.checked_add(count).is_none_or(|end| end > call.len)
}

/// Whether the list lacks some bits of element `at` of a width, or it is more than a word.
fn lacks_element(call: &Call) -> bool {
    let [at, width, ..] = numbers(call);
    width > 64 || at.checked_mul(width).and_then(|start| start.checked_add(width)).is_none_or(|end| end > call.len)
}

/// Whether a range, arguments 0 and 1, is empty, reversed or ends past the list.
fn is_no_range(call: &Call) -> bool {
    let [start, end, ..] = numbers(call);
    start >= end || end > call.len
}

fn is_reversed(call: &Call) -> bool {
    call.arguments[0] > call.arguments[1]
}

/// Whether both answered a least value, at other positions.
fn is_equal_minimum(call: &Call, theirs: &str) -> bool {
    let value = |answer: &str| answer.split_once(' ').map(|(_, value)| value.to_owned());
    value(&call.answer).is_some() && value(&call.answer) == value(theirs)
}

pub const KNOWN: &[Difference] = &[
    Difference {
        names: &["BitVec::eq", "BitVec::hash", "RsVec::eq"],
        when: |call, _| call.arguments[0] > 0 && call.arguments[0].is_multiple_of(64),
        sentence: "Equality and hash of `BitVec` ignore the last limb if the length is a positive multiple of 64",
    },
    Difference {
        names: &["BitVec::append_bits_unchecked"],
        when: |call, _| !call.len.is_multiple_of(64) || call.arguments[1] < 64,
        sentence: JUNK,
    },
    Difference {
        names: &["BitVec::iter_limbs.nth", "BitVec::iter_limbs.skip", "BitVec::iter_limbs.collect"],
        when: |call, _| !call.len.is_multiple_of(64),
        sentence: JUNK,
    },
    Difference {
        names: &["BitVec::get_unchecked", "BitVec::is_bit_set_unchecked", "BitVec::flip_bit_unchecked"],
        when: |call, _| is_past(call),
        sentence: JUNK,
    },
    Difference { names: &["BitVec::set_unchecked"], when: |call, _| is_past(call), sentence: JUNK },
    Difference {
        names: &["BitVec::get_bits", "RsVec::get_bits", "MaskedBitVec::get_bits"],
        when: |call, _| call.arguments[0].checked_add(call.arguments[1]).is_none(),
        sentence: OVERFLOW,
    },
    Difference {
        names: &["BitVec::unpack_element"],
        when: |call, _| lacks_element(call) && call.arguments[0] > u64::MAX / 128,
        sentence: OVERFLOW,
    },
    Difference { names: &["BpTree::excess"], when: |call, _| call.arguments[0] == u64::MAX, sentence: OVERFLOW },
    Difference {
        names: &["RsVec::get_bits", "RsVec::get_bits_unchecked"],
        when: |call, _| call.arguments[1] == 0,
        sentence: "`RsVec::get_bits(len, 0)` can read past the end",
    },
    Difference {
        names: &["MaskedBitVec::get_bits", "MaskedBitVec::get_bits_unchecked"],
        when: |call, _| call.arguments[1] == 64 && !call.arguments[0].is_multiple_of(64),
        sentence: "`MaskedBitVec::get_bits` of 64 bits at a place that is no multiple of 64 returns 0",
    },
    Difference {
        names: &["RsVec::predecessor0", "RsVec::predecessor1"],
        when: |call, _| is_past(call),
        sentence: "`predecessor0`, `predecessor1` can read past the end",
    },
    Difference {
        names: &["*.nth", "*.nth_back", "*.skip"],
        when: |call, _| call.arguments.get(1).is_some_and(|left| call.arguments[0] >= *left),
        sentence: ITERATORS,
    },
    Difference {
        names: &[
            "EliasFanoVec::iter.last",
            "EliasFanoVec::into_iter.last",
            "EliasFanoVec::iter.max",
            "EliasFanoVec::into_iter.max",
        ],
        when: |call, _| call.arguments[0] > 0,
        sentence: "`last` and `max` of Elias-Fano iterators leave out the subtracted first element",
    },
    Difference {
        names: &["SparseRSVec::is_set_unchecked", "SparseRSVec::get_unchecked"],
        when: |call, _| call.arguments[0] < call.arguments[1],
        sentence: "`SparseRSVec::is_set_unchecked` underflows left of the first one",
    },
    Difference {
        names: &["LevelTree::level_ancestor"],
        when: |call, _| call.arguments[1] >= 1 << 63,
        sentence: "`level_ancestor` goes wrong from 2^63 levels on",
    },
    Difference {
        names: &["LevelTree::level_leftmost", "LevelTree::level_rightmost"],
        when: |call, _| call.arguments[0] >= 1 << 63,
        sentence: "`level_leftmost` and `level_rightmost` go wrong from 2^63 levels on",
    },
    Difference { names: &["LevelTree::level_rightmost"], when: |call, _| call.arguments[0] == 0, sentence: LEVELS },
    Difference { names: &["LevelTree::level_leftmost"], when: |call, _| call.len == 0, sentence: LEVELS },
    Difference {
        names: &["BpTree::fwd_search"],
        when: |call, _| call.len == 0,
        sentence: "`fwd_search` underflows on no bits",
    },
    Difference {
        names: &[
            "WaveletMatrix::rank_range",
            "WaveletMatrix::rank_range_u64",
            "WaveletMatrix::rank_offset",
            "WaveletMatrix::rank_offset_u64",
            "WaveletMatrix::rank_range_unchecked",
            "WaveletMatrix::rank_range_u64_unchecked",
            "WaveletMatrix::rank_offset_unchecked",
            "WaveletMatrix::rank_offset_u64_unchecked",
            "WaveletMatrix::quantile",
            "WaveletMatrix::quantile_u64",
            "WaveletMatrix::range_min",
            "WaveletMatrix::range_min_u64",
            "WaveletMatrix::range_max",
            "WaveletMatrix::range_max_u64",
            "WaveletMatrix::range_median",
            "WaveletMatrix::range_median_u64",
            "WaveletMatrix::predecessor",
            "WaveletMatrix::predecessor_u64",
            "WaveletMatrix::successor",
            "WaveletMatrix::successor_u64",
        ],
        when: |call, _| is_reversed(call),
        sentence: REVERSED,
    },
    Difference {
        names: &[
            "WaveletMatrix::select_offset",
            "WaveletMatrix::select_offset_u64",
            "WaveletMatrix::select_offset_unchecked",
            "WaveletMatrix::select_offset_u64_unchecked",
        ],
        when: |call, _| call.arguments[0].checked_add(call.arguments[1]).is_none_or(|sum| sum >= u64::MAX - (1 << 32)),
        sentence: REVERSED,
    },
    Difference {
        names: &[
            "FastRmq::range_min",
            "FastRmq::range_min_with_range",
            "BinaryRmq::range_min",
            "BinaryRmq::range_min_with_range",
        ],
        when: is_equal_minimum,
        sentence: "Which of several equal minima a query returns is unspecified",
    },
    Difference {
        names: &["FastRmq::range_min", "BinaryRmq::range_min"],
        when: |call, _| is_reversed(call) || call.arguments[1] >= call.len,
        sentence: MINIMA,
    },
    Difference {
        names: &["FastRmq::range_min_with_range", "BinaryRmq::range_min_with_range"],
        when: |call, _| match call.arguments[..] {
            [0, start, end] => start >= end,
            [1, start, end] => start > end,
            [6, start, end] => start >= end,
            [3, end] => end == 0,
            _ => false,
        },
        sentence: MINIMA,
    },
    Difference {
        names: &["EliasFanoVec::heap_size", "SparseRSVec::heap_size", "RsVec::heap_size"],
        when: |_, _| true,
        sentence: SAMPLES,
    },
    Difference {
        names: &["FastRmq::heap_size"],
        when: |_, _| true,
        sentence: "masks of parts of 16 items, 32 bytes more a block",
    },
    Difference {
        names: &["EliasFanoVec::from_slice", "SparseRSVec::new"],
        when: |call, _| call.answer == "panic",
        sentence: MAKERS,
    },
    Difference {
        names: &[
            "RsVec::get_unchecked",
            "EliasFanoVec::get_unchecked",
            "MaskedBitVec::get_unchecked",
            "MaskedBitVec::is_bit_set_unchecked",
            "WaveletMatrix::get_value_unchecked",
            "WaveletMatrix::get_sorted_unchecked",
        ],
        when: |call, _| is_past(call),
        sentence: UNCHECKED,
    },
    Difference {
        names: &["WaveletMatrix::get_u64_unchecked", "WaveletMatrix::get_sorted_u64_unchecked"],
        when: |call, _| is_past(call) || call.arguments[1] > 64,
        sentence: UNCHECKED,
    },
    Difference {
        names: &["BitVec::get_bits_unchecked", "RsVec::get_bits_unchecked", "MaskedBitVec::get_bits_unchecked"],
        when: |call, _| lacks_bits(call),
        sentence: UNCHECKED,
    },
    Difference {
        names: &["BitVec::unpack_element_unchecked"],
        when: |call, _| lacks_element(call),
        sentence: UNCHECKED,
    },
    Difference {
        names: &["EliasFanoVec::predecessor_unchecked"],
        when: |call, _| call.len == 0 || call.arguments[0] < call.arguments[1],
        sentence: UNCHECKED,
    },
    Difference {
        names: &["EliasFanoVec::successor_unchecked"],
        when: |call, _| call.len == 0 || call.arguments[0] > call.arguments[2],
        sentence: UNCHECKED,
    },
    Difference {
        names: &["WaveletMatrix::quantile_unchecked", "WaveletMatrix::quantile_u64_unchecked"],
        when: |call, _| {
            is_no_range(call) || call.arguments[2] >= call.arguments[1] - call.arguments[0] || numbers(call)[3] > 64
        },
        sentence: UNCHECKED,
    },
    Difference {
        names: &[
            "WaveletMatrix::range_min_unchecked",
            "WaveletMatrix::range_max_unchecked",
            "WaveletMatrix::range_median_unchecked",
            "WaveletMatrix::range_min_u64_unchecked",
            "WaveletMatrix::range_max_u64_unchecked",
            "WaveletMatrix::range_median_u64_unchecked",
        ],
        when: |call, _| is_no_range(call) || numbers(call)[2] > 64,
        sentence: UNCHECKED,
    },
    Difference {
        names: &["WaveletMatrix::rank_range_u64_unchecked", "WaveletMatrix::rank_offset_u64_unchecked"],
        when: |call, _| call.arguments[3] > 64,
        sentence: UNCHECKED,
    },
    Difference {
        names: &["WaveletMatrix::rank_u64_unchecked", "WaveletMatrix::select_u64_unchecked"],
        when: |call, _| call.arguments[2] > 64,
        sentence: UNCHECKED,
    },
    Difference {
        names: &["WaveletMatrix::rank_range_unchecked", "WaveletMatrix::rank_offset_unchecked"],
        when: |call, _| call.arguments[2] < call.arguments[3],
        sentence: UNCHECKED,
    },
    Difference {
        names: &["WaveletMatrix::rank_unchecked", "WaveletMatrix::select_unchecked"],
        when: |call, _| call.arguments[1] < call.arguments[2],
        sentence: UNCHECKED,
    },
    Difference {
        names: &["WaveletMatrix::select_offset_unchecked"],
        when: |call, _| call.arguments[2] < call.arguments[3],
        sentence: UNCHECKED,
    },
    Difference {
        names: &["WaveletMatrix::select_offset_u64_unchecked"],
        when: |call, _| call.arguments[3] > 64,
        sentence: UNCHECKED,
    },
];

impl Difference {
    fn is_of(&self, name: &str) -> bool {
        self.names.iter().any(|it| it.strip_prefix('*').map_or(*it == name, |end| name.ends_with(end)))
    }
}

/// The difference that names this one.
pub fn named(call: &Call, theirs: &str) -> Option<&'static Difference> {
    KNOWN.iter().find(|it| it.is_of(&call.name) && (it.when)(call, theirs))
}
