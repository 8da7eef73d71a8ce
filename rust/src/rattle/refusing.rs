//! The allocator of the tests of the proved sources: `test_alloc::refusing` without pointers.

use std::cell::Cell;

use crate::rattle::{AllocError, Allocator};

/// The requests that are refused, and the requests so far. Requests count from 1.
pub struct Plan {
    next: Cell<u64>,
    first: Cell<u64>,
    last: Cell<u64>,
    asked: Cell<u64>,
    refused: Cell<u64>,
    freed: Cell<u64>,
    held: Cell<usize>,
    most_allocated: Cell<usize>,
}

/// Forwards each request to `inner`, except those that its plan refuses. A test owns it and uses references,
/// each of which is an allocator that can be copied.
pub struct Refusing<B: Allocator> {
    inner: B,
    plan: Plan,
}

impl<B: Allocator> Refusing<B> {
    /// Returns an allocator that refuses the requests with the numbers `first` to `last`; none if `first` is
    /// above `last`.
    pub fn between(inner: B, first: u64, last: u64) -> Refusing<B> {
        Refusing {
            inner,
            plan: Plan {
                next: Cell::new(0),
                first: Cell::new(first),
                last: Cell::new(last),
                asked: Cell::new(0),
                refused: Cell::new(0),
                freed: Cell::new(0),
                held: Cell::new(0),
                most_allocated: Cell::new(0),
            },
        }
    }

    /// Returns an allocator that refuses nothing.
    pub fn none(inner: B) -> Refusing<B> {
        Refusing::between(inner, 1, 0)
    }

    /// Returns an allocator that refuses only request number `n`.
    pub fn nth(inner: B, n: u64) -> Refusing<B> {
        Refusing::between(inner, n, n)
    }

    /// Returns an allocator that refuses every request.
    pub fn all(inner: B) -> Refusing<B> {
        Refusing::between(inner, 0, u64::MAX)
    }

    /// Returns an allocator that refuses nothing before `start`, and then the `n`th request. `n` is above 0.
    pub fn after_start(inner: B, n: u64) -> Refusing<B> {
        let heap = Refusing::none(inner);
        heap.plan.next.set(n);
        heap
    }

    /// Starts the refusal that `after_start` planned. The tested call comes next.
    pub fn start(&self) {
        self.refuse_next(self.plan.next.replace(0));
    }

    /// Returns true if the refusal that `after_start` planned waits for `start`.
    pub fn is_waiting(&self) -> bool {
        self.plan.next.get() > 0
    }

    /// Refuses from here on only the `n`th request from now.
    pub fn refuse_next(&self, n: u64) {
        let at = self.plan.asked.get().saturating_add(n);
        self.plan.first.set(at);
        self.plan.last.set(at);
    }

    /// Refuses nothing from here on.
    pub fn allow_all(&self) {
        self.plan.first.set(1);
        self.plan.last.set(0);
    }

    /// Refuses every request from here on.
    pub fn refuse_all(&self) {
        self.plan.first.set(0);
        self.plan.last.set(u64::MAX);
    }

    /// Returns the number of requests for memory, refused ones included.
    pub fn asked(&self) -> u64 {
        self.plan.asked.get()
    }

    /// Returns the number of requests that the plan refused.
    pub fn refused(&self) -> u64 {
        self.plan.refused.get()
    }

    /// Returns true if every granted block was freed.
    pub fn is_empty(&self) -> bool {
        self.asked().checked_sub(self.refused()) == Some(self.freed())
    }

    /// Returns the number of freed blocks.
    pub fn freed(&self) -> u64 {
        self.plan.freed.get()
    }

    /// Returns the number of bytes granted and not freed.
    pub fn held_bytes(&self) -> usize {
        self.plan.held.get()
    }

    /// Returns the greatest number of bytes in use at once, since the start or the last `measure_anew`.
    pub fn most_held_bytes(&self) -> usize {
        self.plan.most_allocated.get()
    }

    /// Restarts the measurement of `most_held_bytes` from the bytes now in use.
    pub fn measure_anew(&self) {
        self.plan.most_allocated.set(self.plan.held.get());
    }
}

// Returns true if the next request, for that many bytes, is refused, and counts it.
fn is_refused(plan: &Plan, size: usize) -> bool {
    let number = plan.asked.get().saturating_add(1);
    plan.asked.set(number);
    let is_refused = plan.first.get() <= number && number <= plan.last.get();
    if is_refused {
        plan.refused.set(plan.refused.get().saturating_add(1));
    } else {
        let held = plan.held.get().wrapping_add(size);
        plan.held.set(held);
        plan.most_allocated.set(plan.most_allocated.get().max(held));
    }
    is_refused
}

// Counts a freed block of that many bytes.
fn count_freed(plan: &Plan, size: usize) {
    plan.freed.set(plan.freed.get().saturating_add(1));
    plan.held.set(plan.held.get().wrapping_sub(size));
}

impl<B: Allocator> Allocator for Refusing<B> {
    fn request(&self, size: usize) -> Result<(), AllocError> {
        if is_refused(&self.plan, size) {
            return Err(AllocError);
        }
        self.inner.request(size)
    }

    fn release(&self, size: usize) {
        count_freed(&self.plan, size);
        self.inner.release(size);
    }
}

/// Returns true if `works` does what it should with every request refused, and makes none.
pub fn takes_none<B: Allocator, F: Fn(&Refusing<B>) -> bool>(inner: B, works: F) -> bool {
    let heap = Refusing::all(inner);
    works(&heap) && heap.asked() == 0
}
