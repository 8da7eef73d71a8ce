//! A value with several owners, whose memory can be refused: `std::sync::Arc` would end the process.

use crate::rattle::prelude::Box;
use crate::rattle::{AllocError, Allocator};
use std::ops::Deref;
use std::ptr::NonNull;
use std::sync::atomic::{fence, AtomicUsize, Ordering};

/// A value, and the number of its owners.
struct Shared<T> {
    owners: AtomicUsize,
    value: T,
}

/// One of the owners of a value, the last of which drops it.
pub struct Arc<T, A: Allocator + Copy> {
    at: NonNull<[Shared<T>; 1]>,
    alloc: A,
}

// SAFETY: an owner gives other threads references to the value, and the last one drops it.
unsafe impl<T: Send + Sync, A: Allocator + Copy + Send> Send for Arc<T, A> {}

// SAFETY: as above.
unsafe impl<T: Send + Sync, A: Allocator + Copy + Sync> Sync for Arc<T, A> {}

impl<T, A: Allocator + Copy> Arc<T, A> {
    /// Returns the first owner of a value. Errors: `AllocError` if the allocator refuses a request.
    pub fn new(alloc: A, value: T) -> Result<Self, AllocError> {
        let shared = Box::new(alloc, Shared { owners: AtomicUsize::new(1), value })?;
        let shared = std::boxed::Box::leak(shared.into_boxed_array());
        Ok(Arc { at: NonNull::from(shared), alloc })
    }

    /// Returns another owner of the same value. Errors: `AllocError` if there are more owners than can be counted.
    pub fn try_clone(owner: &Self) -> Result<Self, AllocError> {
        let owners = &owner.shared().owners;
        if owners.fetch_add(1, Ordering::Relaxed) > isize::MAX as usize {
            owners.fetch_sub(1, Ordering::Relaxed);
            return Err(AllocError);
        }
        Ok(Arc { at: owner.at, alloc: owner.alloc })
    }

    /// Returns the value if it has no other owner.
    pub fn get_mut(owner: &mut Self) -> Option<&mut T> {
        if owner.shared().owners.load(Ordering::Acquire) > 1 {
            return None;
        }
        // SAFETY: the value lives until its last owner is dropped, and this is the only one, borrowed as mutable.
        let [shared] = unsafe { owner.at.as_mut() };
        Some(&mut shared.value)
    }

    fn shared(&self) -> &Shared<T> {
        // SAFETY: the value lives until its last owner is dropped, and only `get_mut` borrows it as mutable.
        let [shared] = unsafe { self.at.as_ref() };
        shared
    }
}

impl<T, A: Allocator + Copy> Deref for Arc<T, A> {
    type Target = T;

    #[inline(always)]
    fn deref(&self) -> &T {
        &self.shared().value
    }
}

impl<T, A: Allocator + Copy> Drop for Arc<T, A> {
    fn drop(&mut self) {
        if self.shared().owners.fetch_sub(1, Ordering::Release) > 1 {
            return;
        }
        // What other owners have read happens before the drop.
        fence(Ordering::Acquire);
        // SAFETY: no other owner is left, and the memory is that of the box in `new`.
        let shared = unsafe { std::boxed::Box::from_raw(self.at.as_ptr()) };
        drop(Box::of_boxed_array(self.alloc, shared));
    }
}
