//! Successors of rising numbers, each searched from the one before it.

use crate::rattle::prelude::*;

use super::EliasFanoVec;
use super::ahead::Ahead;
use crate::rattle::Allocator;
use crate::proved::vers_tally::tally::Tally;

// The most low parts that are read of elements whose ones were read together.
const PARTS: usize = 4;

// The most words of high parts that are read in a row.
const WORDS: usize = 8;

// The distance of two high parts from which on a search pays off.
const FAR: usize = 512;

// The number of elements that a walk has passed, and the bits of the high parts that it has read past the one of the
// last.
#[derive(Clone, Copy)]
pub(super) struct Passed {
    pub(super) next: usize,
    pub(super) ahead: Ahead,
}

/// The successors of numbers in a list. If the numbers rise, each is searched from the last successor on. Contracts
/// see it as the list.
pub struct Successors<'a, A: Allocator + Copy> {
    list: &'a EliasFanoVec<A>,
    from: u64,
    found: Option<u64>,
    passed: Passed,
}

impl<'a, A: Allocator + Copy> Successors<'a, A> {
    /// Returns the successors of numbers in a list. Reads nothing of it.
    pub fn new(list: &'a EliasFanoVec<A>) -> Self {
        let _ = list.len();
        Successors {
            list,
            from: 0,
            found: list.successor_outside(0),
            passed: Passed::none(),
        }
    }

    /// Returns the least element that is at least `v`, or `None` if there is none.
    #[inline]
    pub fn successor(&mut self, v: u64) -> Option<u64> {
        let mut tally = Tally::new();
        self.successor_counted(v, &mut tally)
    }

    /// Returns `successor(v)`. Reads at most what one search and 9 elements do.
    #[inline(always)]
    pub fn successor_counted(&mut self, v: u64, tally: &mut Tally) -> Option<u64> {
        let _ = self.list.len();
        if v < self.from {
            self.passed = Passed::none();
        } else {
            let element = match self.found { Some(element) => element, _ => {
                return None;
            } };
            if v <= element {
                return Some(element);
            }
        }
        let found = self.list.successor_past(v, &mut self.passed, tally);
        self.from = v;
        self.found = found;
        found
    }
}

impl Passed {
    // Returns the start of a walk.
    #[inline(always)]
    fn none() -> Passed {
        Passed {
            next: 0,
            ahead: Ahead::none(),
        }
    }
}

impl<A: Allocator + Copy> EliasFanoVec<A> {
    // Returns the successor of a number, and passes the elements up to it. Those passed before are below the number.
    #[inline(always)]
    fn successor_past(&self, v: u64, passed: &mut Passed, tally: &mut Tally) -> Option<u64> {
        let _ = self.len();
        if passed.ahead.word != 0 {
            let element = self.element_read(passed, tally);
            if element >= v {
                return Some(element);
            }
        }
        if !self.is_inside(v) {
            return self.successor_outside(v);
        }
        match self.successor_read(v, passed, tally) {
            Some(element) => Some(element),
            None => Some(self.successor_on(v, passed, tally)),
        }
    }

    // Does the same if the successor isn't among the elements whose ones were read.
    #[inline(never)]
    fn successor_on(&self, v: u64, passed: &mut Passed, tally: &mut Tally) -> u64 {
        let zeros = passed.ahead.position.saturating_sub(passed.next);
        if self.high_number(v).saturating_sub(zeros) < FAR {
            if let Some(element) = self.successor_near(v, passed, tally) {
                return element;
            }
        }
        self.successor_searched(v, passed, tally)
    }

    // Does the same if the one of the successor is among the next words of the high parts. `None` otherwise.
    #[inline(always)]
    fn successor_near(&self, v: u64, passed: &mut Passed, tally: &mut Tally) -> Option<u64> {
        self.pass_words(v, passed, tally);
        if let Some(element) = self.successor_read(v, passed, tally) {
            return Some(element);
        }
        self.pass_words(v, passed, tally);
        self.successor_read(v, passed, tally)
    }

    // Passes the elements up to the successor of a number, and returns it, if its one was read. Elements whose high
    // part is less are passed unread. `None` too if many elements have the high part of the number.
    #[inline(always)]
    fn successor_read(&self, v: u64, passed: &mut Passed, tally: &mut Tally) -> Option<u64> {
        let high = self.high_number(v);
        let mut parts = 0;
        while passed.ahead.word != 0 {
            let i = passed.next;
            let part = self.position_read(i, &mut passed.ahead) - i - 1;
            passed.next = i + 1;
            if part >= high {
                let element = self.with_low_part(part as u64, i, tally);
                if element >= v {
                    return Some(element);
                }
                parts += 1;
                if parts == PARTS {
                    return None;
                }
            }
        }
        None
    }

    // Passes the next element, whose one was read ahead, and returns it.
    #[inline(always)]
    fn element_read(&self, passed: &mut Passed, tally: &mut Tally) -> u64 {
        let i = passed.next;
        let part = self.position_read(i, &mut passed.ahead) - i - 1;
        passed.next = i + 1;
        self.with_low_part(part as u64, i, tally)
    }

    // Reads the high parts word by word, and passes the elements of those words whose elements all have a lesser high
    // part than a number.
    #[inline(always)]
    fn pass_words(&self, v: u64, passed: &mut Passed, tally: &mut Tally) {
        for _ in 0..WORDS {
            if passed.ahead.word != 0 {
                return;
            }
            self.pass_word(v, passed, tally);
        }
    }

    // Reads the next word of the high parts, and passes its elements if they all have a lesser high part than a
    // number.
    #[inline(always)]
    fn pass_word(&self, v: u64, passed: &mut Passed, tally: &mut Tally) {
        let _ = self.high.len();
        let ahead = self.bits_from(passed.ahead.position + passed.ahead.len, passed.next, tally);
        let end = ahead.position + ahead.len;
        let next = passed.next + ahead.word.count_ones() as usize;
        if end - next > self.high_number(v) {
            passed.ahead = ahead;
        } else {
            passed.next = next;
            passed.ahead = Ahead {
                position: end,
                len: 0,
                word: 0,
            };
        }
    }

    // Returns the successor of a number by a search, and passes the elements up to it.
    #[inline(always)]
    fn successor_searched(&self, v: u64, passed: &mut Passed, tally: &mut Tally) -> u64 {
        let _ = self.high.len();
        let k = self.rank_counted(v, tally) as usize;
        let position = self.high.select1_counted(k, tally);
        passed.next = k + 1;
        passed.ahead = self.bits_from(position + 1, k + 1, tally);
        self.with_low_part((position - k - 1) as u64, k, tally)
    }

    // Returns the bits of the high parts from a position on, up to 64 of them.
    #[inline(always)]
    fn bits_from(&self, position: usize, next: usize, tally: &mut Tally) -> Ahead {
        let len = (self.high.len() - position).min(64);
        match self.high.get_bits_counted(position, len, tally) {
            Some(word) => Ahead {
                position,
                len,
                word,
            },
            None => Ahead {
                position,
                len: 0,
                word: 0,
            },
        }
    }
}
