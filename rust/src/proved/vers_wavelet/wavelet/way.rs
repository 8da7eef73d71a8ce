//! The path down to an element by size, from which the next one is found.

use crate::rattle::prelude::*;

use crate::proved::vers_wavelet::wavelet::digits::Digits;
use crate::proved::vers_wavelet::wavelet::level::{Choice, choose_level};
use crate::rattle::Allocator;
use crate::proved::vers_rank::fast_rs_vec::RsVec;
use crate::proved::vers_tally::tally::Tally;

// A symbol, and the elements by size that are equal to it: `count` of them, from number `from` on.
#[derive(Clone, Copy)]
pub(super) struct Found {
    pub(super) symbol: u64,
    pub(super) from: usize,
    pub(super) count: usize,
}

impl Found {
    // Returns true if element `i` is one of them.
    #[inline(always)]
    pub(super) fn has(self, i: usize) -> bool {
        i >= self.from && i - self.from < self.count
    }
}

// The positions of a level whose symbols have the same digits on the levels above, which make a number; and the
// rank by size of the first of these symbols.
#[derive(Clone, Copy)]
pub(super) struct Node {
    pub(super) start: usize,
    pub(super) end: usize,
    pub(super) from: usize,
    pub(super) number: u64,
}

impl Node {
    // Returns true if element `i` by size is one of its symbols.
    #[inline(always)]
    fn has_element(self, i: usize) -> bool {
        i >= self.from && i - self.from < self.end - self.start
    }
}

// A node and its level.
#[derive(Clone, Copy)]
struct Begin {
    level: usize,
    node: Node,
}

// The nodes on the path down to the last element found, one for each level.
pub(super) struct Way {
    pub(super) nodes: [Node; 64],
}

impl Way {
    // Returns an empty path, of nodes without positions.
    pub(super) fn new() -> Self {
        let none = Node {
            start: 0,
            end: 0,
            from: 0,
            number: 0,
        };
        Way { nodes: [none; 64] }
    }

    // Returns the deepest node of the path that has element `i`, or all positions of the first level if none has.
    #[inline(always)]
    fn begin<A: Allocator + Copy>(&self, levels: &[RsVec<A>], len: usize, i: usize) -> Begin {
        for j in 0..levels.len() {
            let level = levels.len() - (j + 1);
            let node = self.nodes[level];
            if node.has_element(i) {
                return Begin { level, node };
            }
        }
        let node = Node {
            start: 0,
            end: len,
            from: 0,
            number: 0,
        };
        Begin { level: 0, node }
    }

    // Returns the `i`-th smallest element of all positions of some levels: from the deepest node that has it on
    // down.
    #[inline(always)]
    pub(super) fn find<A: Allocator + Copy>(
        &mut self,
        levels: &[RsVec<A>],
        len: usize,
        i: usize,
        tally: &mut Tally,
    ) -> Found {
        let from = self.begin(levels, len, i);
        let mut number = from.node.number;
        let mut choice = Choice {
            start: from.node.start,
            end: from.node.end,
            left: i - from.node.from,
            bit: false,
        };
        for k in from.level..levels.len() {
            self.nodes[k] = Node {
                start: choice.start,
                end: choice.end,
                from: i - choice.left,
                number,
            };
            choice = choose_level(&levels[k], choice, tally);
            number.put_digit(levels.len() - (k + 1), choice.bit);
        }
        Found {
            symbol: number,
            from: i - choice.left,
            count: choice.end - choice.start,
        }
    }
}
