//! A value on the heap, for programs and exports.

use super::{AllocError, AllocFailed, Allocator};
use core::marker::PhantomData;
use core::mem::size_of;
use core::ops::{Deref, DerefMut};

/// A value on the heap of an allocator.
pub struct Box<T, A: Allocator> {
    value: std::boxed::Box<[T; 1]>,
    room: Room<T, A>,
}

/// The bytes of a value, which an allocator granted and gets back.
struct Room<T, A: Allocator> {
    alloc: A,
    value: PhantomData<T>,
}

impl<T, A: Allocator> Box<T, A> {
    /// Puts a value on the heap, or hands it back.
    pub fn new(alloc: A, value: T) -> Result<Self, AllocFailed<T>> {
        match alloc.request(size_of::<T>()) {
            Ok(()) => {
                let room = Room { alloc, value: PhantomData };
                Ok(Box { value: placed(value)?, room })
            }
            Err(AllocError) => Err(AllocFailed(value)),
        }
    }

    /// Returns the value as a box of Rust's own heap.
    #[inline(always)]
    pub fn into_boxed_array(self) -> std::boxed::Box<[T; 1]> {
        self.value
    }

    /// Returns the box of a value on Rust's own heap, of which the allocator knows.
    #[inline(always)]
    pub fn of_boxed_array(alloc: A, value: std::boxed::Box<[T; 1]>) -> Self {
        Box { value, room: Room { alloc, value: PhantomData } }
    }
}

/// Puts a value on the heap, or hands it back if there is no memory, where `std::boxed::Box::new` would end the process.
fn placed<T>(value: T) -> Result<std::boxed::Box<[T; 1]>, AllocFailed<T>> {
    let mut one = std::vec::Vec::new();
    if one.try_reserve_exact(1).is_err() {
        return Err(AllocFailed(value));
    }
    one.push(value);
    match one.into_boxed_slice().try_into() {
        Ok(placed) => Ok(placed),
        Err(_) => unreachable!(),
    }
}

impl<T, A: Allocator> Deref for Box<T, A> {
    type Target = T;

    fn deref(&self) -> &T {
        &self.value[0]
    }
}

impl<T, A: Allocator> DerefMut for Box<T, A> {
    fn deref_mut(&mut self) -> &mut T {
        &mut self.value[0]
    }
}

impl<T, A: Allocator> Drop for Room<T, A> {
    #[inline(always)]
    fn drop(&mut self) {
        self.alloc.release(size_of::<T>());
    }
}
