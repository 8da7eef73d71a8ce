//! The iterators of all lists, over the proved ones, and what several types share.

use crate::error::{granted, BuildError};
use crate::proved::vers_bits::bit_vec as proved;
use crate::proved::vers_bits::list_ends::{ListEnds, Listed};
use crate::proved::vers_tally::ends::{BothEnds, Source};
use crate::proved::vers_tally::made_ends::{MadeEnds, Maker};
use crate::rattle::{AllocError, Global};
use crate::BitVec;
use std::fmt;

/// How many items `Debug` shows of a list.
const SHOWN: usize = 32;

/// A proved iterator: the calls that the iterators of this crate make.
pub(crate) trait Walk {
    /// The items.
    type Item;

    /// Returns the number of items left.
    fn left(&self) -> usize;

    /// Returns the next item.
    fn first(&mut self) -> Option<Self::Item>;

    /// Returns the last item.
    fn last(&mut self) -> Option<Self::Item>;

    /// Skips `n` items and returns the next.
    fn after(&mut self, n: usize) -> Option<Self::Item>;

    /// Skips the last `n` items and returns the one before them.
    fn before(&mut self, n: usize) -> Option<Self::Item>;
}

macro_rules! walks {
    ($ends:ident, $source:path, $item:ty, |$found:ident| $answer:expr) => {
        impl<S: $source> Walk for $ends<S> {
            type Item = $item;

            #[inline(always)]
            fn left(&self) -> usize {
                $ends::len(self)
            }

            #[inline(always)]
            fn first(&mut self) -> Option<$item> {
                let $found = self.next();
                $answer
            }

            #[inline(always)]
            fn last(&mut self) -> Option<$item> {
                let $found = self.next_back();
                $answer
            }

            #[inline(always)]
            fn after(&mut self, n: usize) -> Option<$item> {
                let $found = $ends::nth(self, n);
                $answer
            }

            #[inline(always)]
            fn before(&mut self, n: usize) -> Option<$item> {
                let $found = $ends::nth_back(self, n);
                $answer
            }
        }
    };
}

walks!(ListEnds, Listed, S::Item, |found| found);
walks!(BothEnds, Source, S::Item, |found| found);
walks!(MadeEnds, Maker<Item = proved::BitVec<Global>>, BitVec, |found| found.plain());

// No iterator, for a walk that is empty.
impl<W: Walk> Walk for Option<W> {
    type Item = W::Item;

    #[inline(always)]
    fn left(&self) -> usize {
        self.as_ref().map_or(0, Walk::left)
    }

    #[inline(always)]
    fn first(&mut self) -> Option<W::Item> {
        self.as_mut()?.first()
    }

    #[inline(always)]
    fn last(&mut self) -> Option<W::Item> {
        self.as_mut()?.last()
    }

    #[inline(always)]
    fn after(&mut self, n: usize) -> Option<W::Item> {
        self.as_mut()?.after(n)
    }

    #[inline(always)]
    fn before(&mut self, n: usize) -> Option<W::Item> {
        self.as_mut()?.before(n)
    }
}

/// An answer of a proved iterator, with the types of this crate.
pub(crate) trait Plain<T> {
    /// Returns the answer.
    fn plain(self) -> Option<T>;
}

impl<T> Plain<T> for Option<T> {
    #[inline(always)]
    fn plain(self) -> Option<T> {
        self
    }
}

impl Plain<BitVec> for Option<Result<proved::BitVec<Global>, AllocError>> {
    #[inline(always)]
    #[track_caller]
    fn plain(self) -> Option<BitVec> {
        self.map(|made| granted(made).into())
    }
}

/// Returns the first item, which is the least of ascending ones.
pub(crate) fn first_of<W: Walk>(mut walk: W) -> Option<W::Item> {
    walk.first()
}

/// Returns the last item, which is the greatest of ascending ones.
pub(crate) fn last_of<W: Walk>(mut walk: W) -> Option<W::Item> {
    walk.last()
}

/// An iterator from both ends over a proved one. Its parameters are given twice: declared, and named.
macro_rules! iterator {
    (
        $(#[$doc:meta])*
        $name:ident [$($declared:tt)*] [$($named:tt)*] = $from:ty, $item:ty, |$it:ident| $clone:expr
        $(, ascending |$least:ident| $min:expr, |$greatest:ident| $max:expr)?
    ) => {
        $(#[$doc])*
        ///
        /// It iterates from both ends, and knows how many items are left.
        #[must_use = "iterators do nothing unless they are used"]
        pub struct $name<$($declared)*>(pub(crate) $from);

        impl<$($declared)*> Iterator for $name<$($named)*> {
            type Item = $item;

            #[inline(always)]
            fn next(&mut self) -> Option<$item> {
                crate::items::Walk::first(&mut self.0)
            }

            #[inline]
            fn size_hint(&self) -> (usize, Option<usize>) {
                let left = crate::items::Walk::left(&self.0);
                (left, Some(left))
            }

            #[inline]
            fn count(self) -> usize {
                crate::items::Walk::left(&self.0)
            }

            #[inline]
            fn last(mut self) -> Option<$item> {
                crate::items::Walk::last(&mut self.0)
            }

            #[inline]
            fn nth(&mut self, n: usize) -> Option<$item> {
                crate::items::Walk::after(&mut self.0, n)
            }

            $(
                #[inline]
                fn min(self) -> Option<$item> {
                    let $least = self.0;
                    $min
                }

                #[inline]
                fn max(self) -> Option<$item> {
                    let $greatest = self.0;
                    $max
                }
            )?
        }

        impl<$($declared)*> DoubleEndedIterator for $name<$($named)*> {
            #[inline(always)]
            fn next_back(&mut self) -> Option<$item> {
                crate::items::Walk::last(&mut self.0)
            }

            #[inline]
            fn nth_back(&mut self, n: usize) -> Option<$item> {
                crate::items::Walk::before(&mut self.0, n)
            }
        }

        impl<$($declared)*> ExactSizeIterator for $name<$($named)*> {}

        impl<$($declared)*> std::iter::FusedIterator for $name<$($named)*> {}

        impl<$($declared)*> Clone for $name<$($named)*> {
            fn clone(&self) -> Self {
                let $it = &self.0;
                $name($clone)
            }
        }

        impl<$($declared)*> std::fmt::Debug for $name<$($named)*> {
            fn fmt(&self, f: &mut std::fmt::Formatter<'_>) -> std::fmt::Result {
                f.debug_struct(stringify!($name)).field("left", &self.len()).finish()
            }
        }

        #[cfg(test)]
        #[allow(dead_code)]
        impl<$($declared)*> $name<$($named)*> {
            pub(crate) fn advance_by(&mut self, n: usize) -> Result<(), std::num::NonZeroUsize> {
                crate::items::advance(n, self.len(), |n| self.nth(n).is_some())
            }

            pub(crate) fn advance_back_by(&mut self, n: usize) -> Result<(), std::num::NonZeroUsize> {
                crate::items::advance(n, self.len(), |n| self.nth_back(n).is_some())
            }
        }
    };
}

pub(crate) use iterator;

/// Skips `n` items if at least `n` are left; otherwise skips none and returns how many are missing.
#[cfg(test)]
#[allow(dead_code)]
pub(crate) fn advance(n: usize, left: usize, skip: impl FnOnce(usize) -> bool) -> Result<(), std::num::NonZeroUsize> {
    match std::num::NonZeroUsize::new(n.saturating_sub(left)) {
        Some(missing) => Err(missing),
        None => {
            n.checked_sub(1).map(skip);
            Ok(())
        }
    }
}

/// The calls of an iterator that count what they read.
macro_rules! counted_iterator {
    ($name:ident [$($declared:tt)*] [$($named:tt)*], $item:ty) => {
        /// Calls that count their reads.
        impl<$($declared)*> $name<$($named)*> {
            /// Returns the next item, and adds the reads to `tally`.
            #[inline]
            pub fn next_counted(&mut self, tally: &mut crate::reads::Tally) -> Option<$item> {
                crate::items::Plain::plain(self.0.next_counted(&mut tally.0))
            }

            /// Returns the last item, and adds the reads to `tally`.
            #[inline]
            pub fn next_back_counted(&mut self, tally: &mut crate::reads::Tally) -> Option<$item> {
                crate::items::Plain::plain(self.0.next_back_counted(&mut tally.0))
            }

            /// Skips `n` items, returns the next, and adds the reads to `tally`.
            #[inline]
            pub fn nth_counted(&mut self, n: usize, tally: &mut crate::reads::Tally) -> Option<$item> {
                crate::items::Plain::plain(self.0.nth_counted(n, &mut tally.0))
            }

            /// Skips the last `n` items, returns the one before them, and adds the reads to `tally`.
            #[inline]
            #[track_caller]
            pub fn nth_back_counted(&mut self, n: usize, tally: &mut crate::reads::Tally) -> Option<$item> {
                crate::items::Plain::plain(self.0.nth_back_counted(n, &mut tally.0))
            }
        }
    };
}

pub(crate) use counted_iterator;

/// Two iterators over one proved iterator: one owns its list, the other borrows it.
macro_rules! iterators {
    (
        $(#[$doc:meta])*
        $own:ident [$($declared:tt)*] [$($named:tt)*] = $from:ty,
        $borrowed:ident [$($also_declared:tt)*] [$($also_named:tt)*] = $borrowed_from:ty, $item:ty
        $(, ascending |$it:ident| $min:expr, $max:expr)?
    ) => {
        crate::items::iterator! {
            $(#[$doc])* $own [$($declared)*] [$($named)*] = $from, $item,
            |it| crate::error::granted(crate::rattle::Clone::clone(it))
            $(, ascending |$it| $min, |$it| $max)?
        }
        crate::items::iterator! {
            $(#[$doc])* $borrowed [$($also_declared)*] [$($also_named)*] = $borrowed_from, $item, |it| it.clone()
            $(, ascending |$it| $min, |$it| $max)?
        }
    };
}

pub(crate) use iterators;

/// The iterators of a list over its items, from the list itself and from references to it.
macro_rules! iterates {
    ($list:ident, $field:ident, $items:literal, $item:ty, $own:ident, $borrowed:ident) => {
        impl $list {
            #[doc = concat!("Iterates over the ", $items, " in order, from both ends.")]
            #[doc = crate::contracts::contract!($list::iter)]
            #[inline]
            pub fn iter(&self) -> $borrowed<'_> {
                $borrowed(self.$field.iter())
            }
        }

        impl IntoIterator for $list {
            type Item = $item;
            type IntoIter = $own;

            fn into_iter(self) -> $own {
                $own(self.$field.into_iter())
            }
        }

        impl<'a> IntoIterator for &'a $list {
            type Item = $item;
            type IntoIter = $borrowed<'a>;

            fn into_iter(self) -> $borrowed<'a> {
                self.iter()
            }
        }

        impl<'a> IntoIterator for &'a mut $list {
            type Item = $item;
            type IntoIter = $borrowed<'a>;

            fn into_iter(self) -> $borrowed<'a> {
                self.iter()
            }
        }
    };
}

pub(crate) use iterates;

/// Clones a type that is one proved structure.
macro_rules! clones {
    ($name:ident, $field:ident) => {
        impl Clone for $name {
            #[track_caller]
            fn clone(&self) -> $name {
                $name { $field: crate::error::granted(crate::rattle::Clone::clone(&self.$field)) }
            }
        }
    };
}

pub(crate) use clones;

/// Shows a list by its length and its first items.
macro_rules! shows {
    ($name:ident, $items:literal, |$it:ident| $first:expr) => {
        impl std::fmt::Debug for $name {
            fn fmt(&self, f: &mut std::fmt::Formatter<'_>) -> std::fmt::Result {
                let $it = self;
                crate::items::show(f, stringify!($name), $items, self.len() as u64, $first)
            }
        }
    };
}

pub(crate) use shows;

/// Writes the length of a list and its first items, with `..` for the others.
pub(crate) fn show<T: fmt::Debug>(
    f: &mut fmt::Formatter<'_>,
    name: &str,
    what: &str,
    len: u64,
    items: impl Iterator<Item = T>,
) -> fmt::Result {
    let first: Vec<T> = items.take(SHOWN + 1).collect();
    f.debug_struct(name).field("len", &len).field(what, &Shortened(&first)).finish()
}

struct Shortened<'a, T>(&'a [T]);

impl<T: fmt::Debug> fmt::Debug for Shortened<'_, T> {
    fn fmt(&self, f: &mut fmt::Formatter<'_>) -> fmt::Result {
        let mut list = f.debug_list();
        list.entries(self.0.iter().take(SHOWN));
        if self.0.len() > SHOWN {
            list.entry(&format_args!(".."));
        }
        list.finish()
    }
}

/// Compares and hashes a list by its length and its items.
macro_rules! compares {
    ($name:ident, |$it:ident| $items:expr) => {
        impl PartialEq for $name {
            fn eq(&self, other: &Self) -> bool {
                let $it = self;
                let mine = $items;
                let $it = other;
                self.len() == other.len() && mine.eq($items)
            }
        }

        impl Eq for $name {}

        impl std::hash::Hash for $name {
            fn hash<H: std::hash::Hasher>(&self, state: &mut H) {
                let $it = self;
                std::hash::Hash::hash(&self.len(), state);
                $items.for_each(|item| std::hash::Hash::hash(&item, state));
            }
        }
    };
}

pub(crate) use compares;

/// The lengths of a list.
macro_rules! lengths {
    ($name:ident, $field:ident, $items:literal, $number:ident) => {
        impl $name {
            #[doc = concat!("Returns the number of ", $items, ".")]
            #[doc = crate::contracts::contract!($name::len)]
            #[must_use]
            #[inline]
            pub fn len(&self) -> $number {
                self.$field.len()
            }

            #[doc = concat!("Returns true if there are no ", $items, ".")]
            #[doc = crate::contracts::contract!($name::is_empty)]
            #[must_use]
            #[inline]
            pub fn is_empty(&self) -> bool {
                self.$field.is_empty()
            }

            /// Returns the number of bytes on the heap.
            #[doc = crate::contracts::contract!($name::heap_size)]
            #[must_use]
            pub fn heap_size(&self) -> usize {
                self.$field.heap_size()
            }
        }
    };
}

pub(crate) use lengths;

/// The first line of the documentation of a call that counts its reads, with a link to the call without `_counted`.
macro_rules! counts {
    ($of:ident) => {
        concat!("Does what [`", stringify!($of), "`](Self::", stringify!($of), ") does, and adds the reads to `tally`.")
    };
}

pub(crate) use counts;

/// Forms of calls that count what they read. Each delegates to the proved call of the same name.
macro_rules! counted {
    ($name:ident, $field:ident:
        $($call:ident, $of:ident($($arg:ident: $kind:ty),*) $(-> $answer:ty)? $(=> $into:ident)?;)*
    ) => {
        /// Calls that count their reads: each does the same as the call without `_counted`.
        impl $name {
            $(
                #[doc = crate::items::counts!($of)]
                #[doc = crate::contracts::contract!($name::$call)]
                #[inline]
                pub fn $call(&self, $($arg: $kind,)* tally: &mut crate::reads::Tally) $(-> $answer)? {
                    self.$field.$call($($arg,)* &mut tally.0)$(.$into())?
                }
            )*
        }
    };
}

pub(crate) use counted;

/// Replaces each item of a slice by its answer, in groups. `other` is for a query without one.
pub(crate) fn answer_each(items: &mut [u64], other: u64, mut ask: impl FnMut(&mut [Option<u64>])) {
    const GROUP: usize = 64;
    for group in items.chunks_mut(GROUP) {
        let mut found = [None; GROUP];
        let found = &mut found[..group.len()];
        found.iter_mut().zip(group.iter()).for_each(|(found, asked)| *found = Some(*asked));
        ask(found);
        group.iter_mut().zip(found).for_each(|(slot, found)| *slot = found.unwrap_or(other));
    }
}

/// Refuses the first item that `is_right` doesn't accept beside the one before it.
pub(crate) fn check_ascending(items: &[u64], is_right: impl Fn(u64, u64) -> bool) -> Result<(), BuildError> {
    match items.windows(2).position(|pair| !is_right(pair[0], pair[1])) {
        Some(position) => Err(BuildError::NotAscending { position: position + 1 }),
        None => Ok(()),
    }
}
