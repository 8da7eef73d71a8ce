//! Predecessors and successors: the nearest ones and zeros.

use crate::rattle::prelude::*;

use super::RsVec;
use crate::rattle::Allocator;
use crate::proved::vers_tally::tally::Tally;

impl<A: Allocator + Copy> RsVec<A> {
    /// Returns the least position of a zero above `position`. `None` if there is none, or `position` is past the end.
    #[inline]
    pub fn successor0(&self, position: usize) -> Option<u64> {
        let mut tally = Tally::new();
        self.successor0_counted(position, &mut tally)
    }

    /// Returns the least position of a one above `position`. `None` if there is none, or `position` is past the end.
    #[inline]
    pub fn successor1(&self, position: usize) -> Option<u64> {
        let mut tally = Tally::new();
        self.successor1_counted(position, &mut tally)
    }

    /// Returns the greatest position of a zero below `position`, which may be past the end. `None` if there is none.
    #[inline]
    pub fn predecessor0(&self, position: usize) -> Option<u64> {
        let mut tally = Tally::new();
        self.predecessor0_counted(position, &mut tally)
    }

    /// Returns the greatest position of a one below `position`, which may be past the end. `None` if there is none.
    #[inline]
    pub fn predecessor1(&self, position: usize) -> Option<u64> {
        let mut tally = Tally::new();
        self.predecessor1_counted(position, &mut tally)
    }

    /// Returns `successor0(position)`. Reads at most what one rank and one select do.
    #[inline(always)]
    pub fn successor0_counted(&self, position: usize, tally: &mut Tally) -> Option<u64> {
        self.successor_counted(false, position, tally)
    }

    /// Returns `successor1(position)`. Reads at most what one rank and one select do.
    #[inline(always)]
    pub fn successor1_counted(&self, position: usize, tally: &mut Tally) -> Option<u64> {
        self.successor_counted(true, position, tally)
    }

    /// Returns `predecessor0(position)`. Reads at most what one rank and one select do.
    #[inline(always)]
    pub fn predecessor0_counted(&self, position: usize, tally: &mut Tally) -> Option<u64> {
        self.predecessor_counted(false, position, tally)
    }

    /// Returns `predecessor1(position)`. Reads at most what one rank and one select do.
    #[inline(always)]
    pub fn predecessor1_counted(&self, position: usize, tally: &mut Tally) -> Option<u64> {
        self.predecessor_counted(true, position, tally)
    }

    // Returns the least position of a zero or a one above `position`.
    #[inline(always)]
    fn successor_counted(&self, bit: bool, position: usize, tally: &mut Tally) -> Option<u64> {
        if position >= self.len() {
            return None;
        }
        let before = self.rank_counted(bit, position + 1, tally);
        if before >= self.total(bit) {
            return None;
        }
        Some(self.select_counted(bit, before, tally) as u64)
    }

    // Returns the greatest position of a zero or a one below `position`.
    #[inline(always)]
    fn predecessor_counted(&self, bit: bool, position: usize, tally: &mut Tally) -> Option<u64> {
        let before = self.rank_counted(bit, position, tally);
        if before == 0 {
            return None;
        }
        Some(self.select_counted(bit, before - 1, tally) as u64)
    }

    // Returns the number of zeros or ones below a position.
    #[inline(always)]
    fn rank_counted(&self, bit: bool, position: usize, tally: &mut Tally) -> usize {
        if bit {
            return self.rank1_counted(position, tally);
        }
        self.rank0_counted(position, tally)
    }
}
