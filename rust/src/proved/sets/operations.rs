//! Intersections, unions and differences of ascending lists. Equal elements count once. Errors of the forms
//! `_counted`: `AllocError` only if the allocator refuses a request.

use crate::rattle::prelude::*;

use crate::proved::sets::cursor::Cursor;
use crate::proved::sets::gather::numbers_of_counted;
use crate::proved::sets::joined::{Both, Either, Without};
use crate::proved::sets::several::{AllOf, AnyOf};
use crate::rattle::AllocError;
use crate::rattle::Allocator;
use crate::proved::vers_sorted::elias_fano::{EliasFanoVec, by_length};
use crate::proved::vers_tally::tally::Tally;

/// Returns the numbers that are in both lists. Errors: `AllocError` only if the allocator refuses a request.
pub fn intersection<A: Allocator + Copy>(
    alloc: A,
    one: &EliasFanoVec<A>,
    other: &EliasFanoVec<A>,
) -> Result<EliasFanoVec<A>, AllocError> {
    let mut tally = Tally::new();
    let found = intersection_numbers_counted(alloc, one, other, &mut tally)?;
    EliasFanoVec::from_slice(alloc, found.as_slice())
}

/// Returns the elements of `intersection(alloc, one, other)`. Takes at most one step more in each list than
/// the shorter has elements.
pub fn intersection_numbers_counted<A: Allocator + Copy>(
    alloc: A,
    one: &EliasFanoVec<A>,
    other: &EliasFanoVec<A>,
    tally: &mut Tally,
) -> Result<Vec<u64, A>, AllocError> {
    let (shorter, longer) = by_length(one, other);
    let both = Both {
        one: Cursor::new(shorter),
        other: Cursor::new(longer),
    };
    numbers_of_counted(alloc, both, tally)
}

/// Returns the numbers that are in one of two lists, or in both. Errors: `AllocError` only if the allocator
/// refuses a request.
pub fn union<A: Allocator + Copy>(
    alloc: A,
    one: &EliasFanoVec<A>,
    other: &EliasFanoVec<A>,
) -> Result<EliasFanoVec<A>, AllocError> {
    let mut tally = Tally::new();
    let found = union_numbers_counted(alloc, one, other, &mut tally)?;
    EliasFanoVec::from_slice(alloc, found.as_slice())
}

/// Returns the elements of `union(alloc, one, other)`. Takes at most one step more in each list than both have
/// elements.
pub fn union_numbers_counted<A: Allocator + Copy>(
    alloc: A,
    one: &EliasFanoVec<A>,
    other: &EliasFanoVec<A>,
    tally: &mut Tally,
) -> Result<Vec<u64, A>, AllocError> {
    let either = Either {
        one: Cursor::new(one),
        other: Cursor::new(other),
    };
    numbers_of_counted(alloc, either, tally)
}

/// Returns the numbers of the first list that are not in the other. Errors: `AllocError` only if the allocator
/// refuses a request.
pub fn difference<A: Allocator + Copy>(
    alloc: A,
    one: &EliasFanoVec<A>,
    other: &EliasFanoVec<A>,
) -> Result<EliasFanoVec<A>, AllocError> {
    let mut tally = Tally::new();
    let found = difference_numbers_counted(alloc, one, other, &mut tally)?;
    EliasFanoVec::from_slice(alloc, found.as_slice())
}

/// Returns the elements of `difference(alloc, one, other)`. Takes at most one step more in each list than
/// the first has elements.
pub fn difference_numbers_counted<A: Allocator + Copy>(
    alloc: A,
    one: &EliasFanoVec<A>,
    other: &EliasFanoVec<A>,
    tally: &mut Tally,
) -> Result<Vec<u64, A>, AllocError> {
    let without = Without {
        one: Cursor::new(one),
        other: Cursor::new(other),
    };
    numbers_of_counted(alloc, without, tally)
}

/// Returns the numbers that are in the first list and in each of the others. The fewer elements the first has,
/// the fewer steps. Errors: `AllocError` only if the allocator refuses a request.
pub fn intersection_of<'a, A: Allocator + Copy>(
    alloc: A,
    first: &'a EliasFanoVec<A>,
    others: &[&'a EliasFanoVec<A>],
) -> Result<EliasFanoVec<A>, AllocError> {
    let mut tally = Tally::new();
    let found = intersection_of_numbers_counted(alloc, first, others, &mut tally)?;
    EliasFanoVec::from_slice(alloc, found.as_slice())
}

/// Returns the elements of `intersection_of(alloc, first, others)`. Takes at most one step more in each list than
/// the first has elements.
pub fn intersection_of_numbers_counted<'a, A: Allocator + Copy>(
    alloc: A,
    first: &'a EliasFanoVec<A>,
    others: &[&'a EliasFanoVec<A>],
    tally: &mut Tally,
) -> Result<Vec<u64, A>, AllocError> {
    let others = cursors_of(alloc, others)?;
    let all = AllOf {
        first: Cursor::new(first),
        others,
    };
    numbers_of_counted(alloc, all, tally)
}

/// Returns the numbers that are in the first list or in one of the others. Errors: `AllocError` only if the allocator
/// refuses a request.
pub fn union_of<'a, A: Allocator + Copy>(
    alloc: A,
    first: &'a EliasFanoVec<A>,
    others: &[&'a EliasFanoVec<A>],
) -> Result<EliasFanoVec<A>, AllocError> {
    let mut tally = Tally::new();
    let found = union_of_numbers_counted(alloc, first, others, &mut tally)?;
    EliasFanoVec::from_slice(alloc, found.as_slice())
}

/// Returns the elements of `union_of(alloc, first, others)`. Takes at most one step more in each list than
/// all have elements.
pub fn union_of_numbers_counted<'a, A: Allocator + Copy>(
    alloc: A,
    first: &'a EliasFanoVec<A>,
    others: &[&'a EliasFanoVec<A>],
    tally: &mut Tally,
) -> Result<Vec<u64, A>, AllocError> {
    let others = cursors_of(alloc, others)?;
    let any = AnyOf {
        first: Cursor::new(first),
        others,
    };
    numbers_of_counted(alloc, any, tally)
}

/// Returns the numbers that are in the first list and in none of the others. Errors: `AllocError` only if the
/// allocator refuses a request.
pub fn difference_of<'a, A: Allocator + Copy>(
    alloc: A,
    first: &'a EliasFanoVec<A>,
    others: &[&'a EliasFanoVec<A>],
) -> Result<EliasFanoVec<A>, AllocError> {
    let mut tally = Tally::new();
    let found = difference_of_numbers_counted(alloc, first, others, &mut tally)?;
    EliasFanoVec::from_slice(alloc, found.as_slice())
}

/// Returns the elements of `difference_of(alloc, first, others)`. Takes at most one step more in each list than
/// the first has elements.
pub fn difference_of_numbers_counted<'a, A: Allocator + Copy>(
    alloc: A,
    first: &'a EliasFanoVec<A>,
    others: &[&'a EliasFanoVec<A>],
    tally: &mut Tally,
) -> Result<Vec<u64, A>, AllocError> {
    let (second, rest) = match others.split_first() { Some((second, rest)) => (second, rest), _ => {
        return numbers_of_counted(alloc, Cursor::new(first), tally);
    } };
    let others = cursors_of(alloc, rest)?;
    let remaining = Without {
        one: Cursor::new(first),
        other: AnyOf {
            first: Cursor::new(second),
            others,
        },
    };
    numbers_of_counted(alloc, remaining, tally)
}

// Returns a cursor at the first element of each list.
fn cursors_of<'a, A: Allocator + Copy>(
    alloc: A,
    lists: &[&'a EliasFanoVec<A>],
) -> Result<Vec<Cursor<'a, A>, A>, AllocError> {
    let mut cursors = Vec::new(alloc);
    for i in 0..lists.len() {
        cursors.push(Cursor::new(lists[i]))?;
    }
    Ok(cursors)
}
