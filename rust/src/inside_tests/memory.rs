//! Tests of the most bytes that calls ask of the allocator, which no contract says.

use crate::proved::postings::Postings;
use crate::proved::text_index::TextIndex;
use crate::rattle::{AllocError, Allocator, Vec};
use std::cell::Cell;

/// An allocator that adds up the bytes that are asked of it.
#[derive(Default)]
struct Counting {
    bytes: Cell<usize>,
}

impl Allocator for Counting {
    fn request(&self, bytes: usize) -> Result<(), AllocError> {
        self.bytes.set(self.bytes.get() + bytes);
        Ok(())
    }
}

/// Asserts that a call asks for at most `most` bytes.
fn asks_at_most<R>(heap: &Counting, most: usize, call: impl FnOnce() -> R) -> R {
    heap.bytes.set(0);
    let answer = call();
    assert!(heap.bytes.get() <= most, "{} bytes, and not {most}", heap.bytes.get());
    answer
}

#[test]
fn positions_of_a_pattern_take_the_room_of_those_that_are_asked_for() {
    let heap = Counting::default();
    let Ok(text) = TextIndex::from_slice(&heap, &[0; 5000], 1) else { panic!() };
    for limit in [0, 1, 10, 4999] {
        let Ok(found) = asks_at_most(&heap, 8 * limit, || text.first_places(&[0], limit)) else { panic!() };
        assert_eq!(found.len(), limit);
    }
    let Ok(Some(piece)) = asks_at_most(&heap, 8 * 7, || text.extract(100..107)) else { panic!() };
    assert_eq!(piece.as_slice(), [0; 7]);
}

#[test]
fn an_intersection_takes_no_more_room_than_the_shorter_list() {
    let heap = Counting::default();
    let list = |step: u64, n: u64| {
        let documents: std::vec::Vec<u64> = (0..n).map(|k| k * step).collect();
        let Ok(costs) = Vec::from_elem(&heap, 1, documents.len()) else { panic!() };
        Postings::from_sorted(&documents, costs).ok().unwrap()
    };
    let (few, many) = (list(300, 10), list(2, 3000));
    // room that doubles as the list grows
    let Ok(both) = asks_at_most(&heap, 3 * 8 * 10, || few.intersect(&many)) else { panic!() };
    assert_eq!(both.len(), 10);
}
