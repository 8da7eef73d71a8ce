//! Changes and their codes.

use crate::rattle::prelude::*;

use crate::programs::vers_c::status::{DONE, NO_MEMORY, REFUSED};
use crate::rattle::Global;
use crate::proved::vers_bits::bit_vec::BitVec;

/// A change of a list of bits.
#[derive(Clone, Copy)]
pub enum Change {
    /// Appends the lowest bit of `a`.
    Push,
    /// Appends the low `b` bits of `a`.
    Append,
    /// Sets the bit at position `a` to the lowest bit of `b`.
    Set,
    /// Drops the last `a` bits, or all if there are fewer.
    DropLast,
}

/// The change of each code, which is its index here.
pub const CHANGES: [Change; 4] = [Change::Push, Change::Append, Change::Set, Change::DropLast];

impl Change {
    /// Returns the change of a code, or `None` if there is none.
    pub fn of(code: u32) -> Option<Change> {
        CHANGES.get(code as usize).copied()
    }

    /// Changes a list. Returns a status.
    pub fn make(self, bits: &mut BitVec<Global>, a: u64, b: u64) -> u32 {
        match self {
            Change::Push => match bits.append_bit(a) {
                Ok(()) => DONE,
                Err(_) => NO_MEMORY,
            },
            Change::Append => {
                if b > 64 {
                    return REFUSED;
                }
                match bits.append_bits(a, b as usize) {
                    Ok(()) => DONE,
                    Err(_) => NO_MEMORY,
                }
            }
            Change::Set => match bits.set(a as usize, b) {
                Ok(()) => DONE,
                Err(_) => REFUSED,
            },
            Change::DropLast => {
                bits.drop_last(a as usize);
                DONE
            }
        }
    }
}
