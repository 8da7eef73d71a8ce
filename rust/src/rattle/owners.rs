//! Values with several owners, and what the handle of an export has, without raw pointers.

use super::boxed::Box;
use super::{AllocError, AllocFailed, Allocator, Global};
use core::mem::size_of;
use core::ops::Deref;

/// A value with several owners.
pub struct Arc<T, A: Allocator> {
    value: std::sync::Arc<T>,
    alloc: A,
}

impl<T, A: Allocator + Copy> Arc<T, A> {
    /// The first owner of a value, or the value itself.
    pub fn new(alloc: A, value: T) -> Result<Self, AllocFailed<T>> {
        match alloc.request(size_of::<T>()) {
            Ok(()) => Ok(Arc { value: std::sync::Arc::new(value), alloc }),
            Err(AllocError) => Err(AllocFailed(value)),
        }
    }

    /// Another owner.
    pub fn try_clone(owner: &Self) -> Result<Self, AllocError> {
        Ok(Arc { value: owner.value.clone(), alloc: owner.alloc })
    }

    /// The value, if it has no other owner.
    pub fn get_mut(owner: &mut Self) -> Option<&mut T> {
        std::sync::Arc::get_mut(&mut owner.value)
    }
}

impl<T, A: Allocator> Deref for Arc<T, A> {
    type Target = T;

    fn deref(&self) -> &T {
        &self.value
    }
}

/// A box, as its pointer.
pub struct Loose<T, A: Allocator> {
    owner: Box<T, A>,
}

impl<T, A: Allocator> Loose<T, A> {
    /// The pointer of a box.
    pub fn of(owner: Box<T, A>) -> Self {
        Loose { owner }
    }

    /// The box.
    pub fn into_box(self) -> Box<T, A> {
        self.owner
    }
}

/// The pointer to an owner, or a null pointer, as C has it. It is kept until it is taken.
#[repr(transparent)]
pub struct Held<T> {
    owner: Option<std::boxed::Box<[T; 1]>>,
}

impl<T> Held<T> {
    /// A pointer to nothing.
    pub fn vacant(_: Global) -> Self {
        Held { owner: None }
    }

    /// The pointer to an owner.
    #[inline(always)]
    pub fn of(owner: Loose<T, Global>) -> Self {
        Held { owner: Some(owner.into_box().into_boxed_array()) }
    }

    /// The owner, which is there.
    #[inline(always)]
    pub fn into_owner(self) -> Loose<T, Global> {
        let owner = self.owner.expect("an owner");
        Loose { owner: Box::of_boxed_array(Global, owner) }
    }

    /// Drops a pointer to nothing.
    #[inline(always)]
    pub fn discard(self) {
        assert!(self.owner.is_none(), "an owner is lost");
    }
}
