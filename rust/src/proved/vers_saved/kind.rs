//! Kinds of lists that can be saved.

use crate::rattle::prelude::*;

use crate::proved::vers_saved::{LEVELS_VERSION, PARTS_VERSION, TREE_VERSION, VERSION};
use crate::proved::vers_bits::bit_vec::MAX_LEN;
use crate::proved::vers_rmq::rmq::{binary_rmq, fast_rmq};

/// The order of the words of a list.
#[derive(Clone, Copy, PartialEq, Eq, Debug)]
pub enum Order {
    /// Any order.
    Any,
    /// No word is below the previous one.
    Ascending,
    /// Each word is above the previous one.
    Rising,
    /// Each word of the first half is above the previous one.
    HalfRising,
    /// The words are the ends and the parts of an ascending list.
    Parts,
    /// A length, and then the ends and the parts of a list that ascends strictly and is below it.
    RisingParts,
    /// Two numbers, and then the ends and the parts of a list that ascends strictly and is below their product.
    InvertedParts,
}

impl Order {
    // Returns the order of the words of the first version.
    fn first(self) -> Order {
        match self {
            Order::Parts => Order::Ascending,
            Order::RisingParts => Order::Rising,
            other => other,
        }
    }
}

/// A kind of lists: the requirements on its saved forms.
#[derive(Clone, Copy)]
pub struct Kind {
    /// The number of the kind.
    pub number: u64,
    /// The version of its forms.
    pub version: u64,
    /// The least width of its items.
    pub least_width: u64,
    /// The greatest width of its items.
    pub greatest_width: u64,
    /// The number of bits of an item, or 0 if its width says it.
    pub item_bits: u64,
    /// Whether the bits of the items are in levels: a row for each bit of an item, with a bit of each item.
    pub by_levels: bool,
    /// The least number of items of a list.
    pub least_count: u64,
    /// The greatest number of items of a list.
    pub greatest_count: u64,
    /// The order of its words.
    pub order: Order,
}

/// The number of lists of bits.
pub const BITS: u64 = 1;

/// The number of ascending lists of numbers.
pub const SORTED: u64 = 2;

/// The number of lists of symbols.
pub const SYMBOLS: u64 = 3;

/// The number of lists of bits with few ones.
pub const SPARSE: u64 = 4;

/// The number of lists of numbers in any order.
pub const VALUES: u64 = 5;

/// The number of lists of parentheses.
pub const PARENTHESES: u64 = 6;

/// The number of lists of documents with costs.
pub const POSTINGS: u64 = 7;

/// The number of indexes of texts.
pub const TEXTS: u64 = 9;

/// The number of inverted indexes.
pub const INVERTED: u64 = 10;

/// Rows of bits, each from a whole word on.
#[derive(Clone, Copy)]
pub(crate) struct Rows {
    pub(crate) count: usize,
    pub(crate) bits: usize,
}

impl Rows {
    // Returns the number of words that they fill.
    #[inline]
    pub(crate) fn words(&self) -> usize {
        self.count * self.bits.div_ceil(64)
    }
}

impl Kind {
    // Returns true if a later version of the kind has another form than the first.
    pub(crate) fn has_first(&self) -> bool {
        VERSION < self.version
    }

    // Returns the kind in a version: the first may have the items one after another.
    pub(crate) fn at_version(&self, version: u64) -> Kind {
        if self.has_first() && version == VERSION {
            return Kind {
                number: self.number,
                version: VERSION,
                least_width: self.least_width,
                greatest_width: self.greatest_width,
                item_bits: self.item_bits,
                by_levels: false,
                least_count: self.least_count,
                greatest_count: self.greatest_count,
                order: self.order.first(),
            };
        }
        *self
    }

    // Returns true if a list of this kind may have that width.
    pub(crate) fn takes_width(&self, width: u64) -> bool {
        self.least_width <= width && width <= self.greatest_width
    }

    // Returns true if a list of this kind may have that many items.
    pub(crate) fn takes_count(&self, count: u64) -> bool {
        self.least_count <= count && count <= self.greatest_count
    }

    // Returns the number of rows of the items' bits.
    fn count_rows(&self, width: usize) -> usize {
        if self.by_levels { width } else { 1 }
    }

    // Returns the number of bits in a row of `count` items. `None` if they fill too many words.
    fn count_row(&self, count: usize, width: usize) -> Option<usize> {
        if self.by_levels {
            return Some(count);
        }
        count.checked_mul(self.bits_of_item(width))
    }

    // Returns the rows of the bits of `count` items. `None` if they fill too many words.
    pub(crate) fn rows_of_items(&self, count: usize, width: usize) -> Option<Rows> {
        let rows = Rows {
            count: self.count_rows(width),
            bits: self.count_row(count, width)?,
        };
        let words = rows.count.checked_mul(rows.bits.div_ceil(64))?;
        if words as u64 > GREATEST_WORDS {
            return None;
        }
        Some(rows)
    }

    // Returns the number of bits of an item.
    pub(crate) fn bits_of_item(&self, width: usize) -> usize {
        if self.item_bits == 0 {
            width
        } else {
            self.item_bits as usize
        }
    }
}

/// The greatest number of words of a list in which each item is one.
pub const GREATEST_WORDS: u64 = 288230376151711743;

/// Lists of bits, which have one bit an item.
pub const BIT_LISTS: Kind = Kind {
    number: BITS,
    version: VERSION,
    least_width: 1,
    greatest_width: 1,
    item_bits: 1,
    by_levels: false,
    least_count: 0,
    greatest_count: MAX_LEN as u64,
    order: Order::Any,
};

/// Ascending lists of numbers, by their parts.
pub const SORTED_LISTS: Kind = Kind {
    number: SORTED,
    version: PARTS_VERSION,
    least_width: 64,
    greatest_width: 64,
    item_bits: 64,
    by_levels: false,
    least_count: 0,
    greatest_count: GREATEST_WORDS,
    order: Order::Parts,
};

/// Lists of bits with few ones: the length, and the positions of the ones by their parts.
pub const SPARSE_LISTS: Kind = Kind {
    number: SPARSE,
    version: PARTS_VERSION,
    least_width: 64,
    greatest_width: 64,
    item_bits: 64,
    by_levels: false,
    least_count: 1,
    greatest_count: GREATEST_WORDS,
    order: Order::RisingParts,
};

/// Lists of numbers in any order, with range minima from a sparse table.
pub const TABLE_VALUES: Kind = Kind {
    number: VALUES,
    version: VERSION,
    least_width: 64,
    greatest_width: 64,
    item_bits: 64,
    by_levels: false,
    least_count: 0,
    greatest_count: binary_rmq::MAX_LEN as u64,
    order: Order::Any,
};

/// Lists of numbers in any order, with range minima from blocks.
pub const BLOCK_VALUES: Kind = Kind {
    number: VALUES,
    version: VERSION,
    least_width: 64,
    greatest_width: 64,
    item_bits: 64,
    by_levels: false,
    least_count: 0,
    greatest_count: fast_rmq::MAX_LEN as u64,
    order: Order::Any,
};

/// Documents with costs: the documents, and then the cost of each.
pub const POSTING_LISTS: Kind = Kind {
    number: POSTINGS,
    version: VERSION,
    least_width: 128,
    greatest_width: 128,
    item_bits: 128,
    by_levels: false,
    least_count: 0,
    greatest_count: fast_rmq::MAX_LEN as u64,
    order: Order::HalfRising,
};

/// Lists of symbols of 1 to 64 bits, by their levels.
pub const SYMBOL_LISTS: Kind = Kind {
    number: SYMBOLS,
    version: LEVELS_VERSION,
    least_width: 1,
    greatest_width: 64,
    item_bits: 0,
    by_levels: true,
    least_count: 0,
    greatest_count: MAX_LEN as u64,
    order: Order::Any,
};

/// Lists of symbols of 1 to 64 bits in the first version: their bits, one symbol after another.
pub const PACKED_SYMBOLS: Kind = Kind {
    number: SYMBOLS,
    version: VERSION,
    least_width: 1,
    greatest_width: 64,
    item_bits: 0,
    by_levels: false,
    least_count: 0,
    greatest_count: MAX_LEN as u64,
    order: Order::Any,
};

/// Indexes of texts: numbers, the bits of the wavelet tree of the column (BWT), and the rows of the sampled positions.
/// Their items are words, and their width is that of a symbol.
pub const TEXT_INDEXES: Kind = Kind {
    number: TEXTS,
    version: TREE_VERSION,
    least_width: 1,
    greatest_width: 16,
    item_bits: 64,
    by_levels: false,
    least_count: 4,
    greatest_count: GREATEST_WORDS,
    order: Order::Any,
};

/// Inverted indexes: the number of terms, the limit of documents, and the list of all numbers by its parts.
pub const INVERTED_LISTS: Kind = Kind {
    number: INVERTED,
    version: VERSION,
    least_width: 64,
    greatest_width: 64,
    item_bits: 64,
    by_levels: false,
    least_count: 5,
    greatest_count: GREATEST_WORDS,
    order: Order::InvertedParts,
};
