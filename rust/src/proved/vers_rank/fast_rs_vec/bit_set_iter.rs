//! Iterators that turn chunks of 16 bits into the offsets of their zeros or ones.

use crate::rattle::prelude::*;

use super::{LIMB, RsVec};
use crate::proved::vers_rank::offsets::{CHUNK, put_offsets, put_offsets_plainly};
use crate::proved::vers_rank::word::marks;
use crate::rattle::Allocator;
use crate::proved::vers_tally::tally::Tally;

// A walk that has loaded the chunks up to position `end`. In the last one, which begins at position `start`,
// the first `left` offsets are yet to come, the last of them first.
#[derive(Clone, Copy)]
struct ChunkWalk {
    bit: bool,
    start: usize,
    end: usize,
    left: u32,
    offsets: [u8; CHUNK],
}

impl ChunkWalk {
    // Returns the next position of the bit, from the next offset in the buffer. Loads chunks as needed.
    fn next_counted<A: Allocator + Copy>(
        &mut self,
        bits: &RsVec<A>,
        tally: &mut Tally,
    ) -> Option<usize> {
        let _ = &bits.bits;
        while self.left == 0 {
            if self.end >= bits.len() {
                return None;
            }
            self.load(bits, tally);
        }
        self.left -= 1;
        Some(self.start + self.offsets[self.left as usize] as usize)
    }

    // Loads the next chunk if all positions of the last one are passed: 16 bits by lanes, or the rest of the
    // list one by one if it has fewer.
    fn load<A: Allocator + Copy>(&mut self, bits: &RsVec<A>, tally: &mut Tally) {
        tally.add_chunk();
        let limb = bits.bits.limb(self.end / LIMB, tally);
        let chunk = marks(self.bit, limb) >> (self.end % LIMB);
        let rest = bits.len() - self.end;
        self.start = self.end;
        if rest < CHUNK {
            self.left = put_offsets_plainly(chunk, rest, &mut self.offsets);
            self.end += rest;
        } else {
            self.left = put_offsets((chunk & 0xffff) as u16, &mut self.offsets);
            self.end += CHUNK;
        }
    }
}

// The positions of one kind of bit that are yet to come, found by chunks.
struct Chunks<'a, A: Allocator + Copy> {
    bits: &'a RsVec<A>,
    walk: ChunkWalk,
}

impl<'a, A: Allocator + Copy> Chunks<'a, A> {
    fn new(bits: &'a RsVec<A>, bit: bool) -> Self {
        Chunks {
            bits,
            walk: ChunkWalk {
                bit,
                start: 0,
                end: 0,
                left: 0,
                offsets: [0; CHUNK],
            },
        }
    }

    fn next_counted(&mut self, tally: &mut Tally) -> Option<usize> {
        self.walk.next_counted(self.bits, tally)
    }
}

/// An iterator over the positions of the zeros of a list if `ZERO` is true, otherwise of its ones, ascending.
/// It loads chunks of 16 bits and lists the offsets in each by lanes, which is fast if the bit is frequent.
/// Contracts see its `rest` as the list of `bits`, the positions `left`, and the number of chunks that are
/// `unread`. Each chunk is loaded once.
pub struct BitSetIter<'a, const ZERO: bool, A: Allocator + Copy> {
    rest: Chunks<'a, A>,
}

impl<A: Allocator + Copy> RsVec<A> {
    /// Returns an iterator over the positions of the zeros, which scans chunks of bits.
    pub fn bit_set_iter0(&self) -> BitSetIter<'_, true, A> {
        BitSetIter {
            rest: Chunks::new(self, false),
        }
    }

    /// Returns an iterator over the positions of the ones, which scans chunks of bits.
    pub fn bit_set_iter1(&self) -> BitSetIter<'_, false, A> {
        BitSetIter {
            rest: Chunks::new(self, true),
        }
    }
}

impl<'a, const ZERO: bool, A: Allocator + Copy> BitSetIter<'a, ZERO, A> {
    /// Takes the first of the positions left. `None` if none is left.
    pub fn next(&mut self) -> Option<usize> {
        let mut tally = Tally::new();
        self.next_counted(&mut tally)
    }

    /// Takes the first of the positions left. `None` if none is left. Loads as many chunks as `unread` falls
    /// by, each with at most two data words and two queries.
    pub fn next_counted(&mut self, tally: &mut Tally) -> Option<usize> {
        self.rest.next_counted(tally)
    }
}

impl<'a, const ZERO: bool, A: Allocator + Copy> Iterator for BitSetIter<'a, ZERO, A> {
    type Item = usize;

    fn next(&mut self) -> Option<usize> {
        self.next()
    }
}
