//! The exports that vers.h names: those of `crates/vers_c`, each with a pointer and a number of items instead of a slice.
//!
//! vers.h requires of the caller what makes them sound: a pointer to as many items as the number after it says, which may
//! be null if there are none; arrays that no other thread writes meanwhile, nor reads if the call writes them; and
//! handles as the last call left them, that differ and that no other thread uses. A panic, which would be an error of the
//! library, becomes `REFUSED` and doesn't cross the border.

use crate::programs::vers_c::answer::VersAnswer;
use crate::programs::vers_c::asked::Ask;
use crate::programs::vers_c::handle::VersHandle;
use crate::programs::vers_c::status::REFUSED;
use crate::programs::vers_c::{asks, builds, combine, documents, quick, saves, shares, texts};
use crate::rattle::Global;
use std::panic::{catch_unwind, AssertUnwindSafe};
use std::slice;

/// Returns the items at a pointer.
///
/// # Safety
/// It points to `count` items, which nobody writes while they are borrowed. It may be null if there are none.
#[inline(always)]
unsafe fn items<'a, T>(at: *const T, count: usize) -> &'a [T] {
    if count == 0 {
        return &[];
    }
    // SAFETY: as required above.
    unsafe { slice::from_raw_parts(at, count) }
}

/// Returns the items at a pointer, to be written.
///
/// # Safety
/// It points to `count` items, which nobody else reads or writes while they are borrowed. It may be null if there are
/// none.
#[inline(always)]
unsafe fn items_mut<'a, T>(at: *mut T, count: usize) -> &'a mut [T] {
    if count == 0 {
        return &mut [];
    }
    // SAFETY: as required above.
    unsafe { slice::from_raw_parts_mut(at, count) }
}

/// What a call can return.
trait Returned {
    /// What it returns if it panics.
    const PANICKED: Self;
}

impl Returned for u32 {
    const PANICKED: u32 = REFUSED;
}

impl Returned for u64 {
    const PANICKED: u64 = u64::MAX;
}

impl Returned for VersAnswer {
    const PANICKED: VersAnswer = VersAnswer { status: REFUSED, value: 0 };
}

impl Returned for () {
    const PANICKED: () = ();
}

/// Returns the result of a call, also if it panics.
#[inline(always)]
fn guarded<T: Returned>(call: impl FnOnce() -> T) -> T {
    catch_unwind(AssertUnwindSafe(call)).unwrap_or(T::PANICKED)
}

/// Writes the exports of modules, which have the names and the parameters of their functions.
macro_rules! exports {
    ($($module:ident { $(fn $name:ident($($parameters:tt)*) -> $result:ty;)* })*) => {
        $($(export!(($module::$name, $name, $result) ($($parameters)*,) () ());)*)*
    };
}

/// Writes an export, parameter by parameter: those left, those of the export, and what it passes.
macro_rules! export {
    (($call:path, $name:ident, $result:ty) () ($($declared:tt)*) ($($passed:expr,)*)) => {
        #[no_mangle]
        pub unsafe extern "C" fn $name($($declared)*) -> $result {
            guarded(|| $call(Global, $($passed,)*))
        }
    };
    ($of:tt ($at:ident: &[$item:ty], $($left:tt)*) ($($declared:tt)*) ($($passed:expr,)*)) => {
        export!($of ($($left)*) ($($declared)* $at: *const $item, count: usize,) ($($passed,)*
            // SAFETY: vers.h requires it of the caller.
            unsafe { items($at, count) },));
    };
    ($of:tt ($at:ident: &mut [$item:ty], $($left:tt)*) ($($declared:tt)*) ($($passed:expr,)*)) => {
        export!($of ($($left)*) ($($declared)* $at: *mut $item, count: usize,) ($($passed,)*
            // SAFETY: vers.h requires it of the caller.
            unsafe { items_mut($at, count) },));
    };
    ($of:tt ($name:ident: $kind:ty, $($left:tt)*) ($($declared:tt)*) ($($passed:expr,)*)) => {
        export!($of ($($left)*) ($($declared)* $name: $kind,) ($($passed,)* $name,));
    };
}

exports! {
    asks {
        fn vers_ask(handle: &mut VersHandle, code: u32, a: u64, b: u64, c: u64) -> VersAnswer;
        fn vers_value(handle: &mut VersHandle, code: u32, a: u64) -> u64;
        fn vers_ask_each(handle: &mut VersHandle, code: u32, numbers: &mut [usize], b: u64, c: u64, other: usize) -> u32;
        fn vers_ask_rows(handle: &mut VersHandle, code: u32, asks: &mut [Ask], other: u64) -> u32;
        fn vers_change(handle: &mut VersHandle, code: u32, a: u64, b: u64) -> u32;
    }
    builds {
        fn vers_growing_build(words: &[u64], len: usize, handle: &mut VersHandle) -> u32;
        fn vers_bits_build(words: &[u64], len: usize, handle: &mut VersHandle) -> u32;
        fn vers_sparse_build(ones: &[u64], len: u64, handle: &mut VersHandle) -> u32;
        fn vers_sorted_build(numbers: &[u64], handle: &mut VersHandle) -> u32;
        fn vers_symbols_build(numbers: &[u64], width: u32, handle: &mut VersHandle) -> u32;
        fn vers_symbols_build_bytes(bytes: &[u8], width: u32, handle: &mut VersHandle) -> u32;
        fn vers_symbols_build_u16s(u16s: &[u16], width: u32, handle: &mut VersHandle) -> u32;
        fn vers_symbols_build_u32s(u32s: &[u32], width: u32, handle: &mut VersHandle) -> u32;
        fn vers_tree_build(words: &[u64], len: usize, handle: &mut VersHandle) -> u32;
        fn vers_fast_rmq_build(values: &[u64], handle: &mut VersHandle) -> u32;
        fn vers_binary_rmq_build(values: &[u64], handle: &mut VersHandle) -> u32;
        fn vers_postings_build(documents: &[u64], costs: &[u64], handle: &mut VersHandle) -> u32;
    }
    documents {
        fn vers_inverted_build(limit: u64, universe: u64, terms: &[u64], documents: &[u64], handle: &mut VersHandle) -> u32;
        fn vers_documents(handle: &mut VersHandle, term: u64, into: &mut VersHandle) -> u32;
        fn vers_joined(handle: &mut VersHandle, code: u32, terms: &[u64], into: &mut VersHandle) -> u32;
    }
    quick {
        fn vers_quick_bits_get(handle: &mut VersHandle, position: u64) -> VersAnswer;
        fn vers_quick_bits_rank0(handle: &mut VersHandle, position: u64) -> VersAnswer;
        fn vers_quick_bits_rank1(handle: &mut VersHandle, position: u64) -> VersAnswer;
        fn vers_quick_bits_select0(handle: &mut VersHandle, number: u64) -> VersAnswer;
        fn vers_quick_bits_select1(handle: &mut VersHandle, number: u64) -> VersAnswer;
        fn vers_quick_sorted_get(handle: &mut VersHandle, position: u64) -> VersAnswer;
        fn vers_quick_sorted_rank(handle: &mut VersHandle, number: u64) -> VersAnswer;
        fn vers_quick_sorted_predecessor(handle: &mut VersHandle, number: u64) -> VersAnswer;
        fn vers_quick_sorted_successor(handle: &mut VersHandle, number: u64) -> VersAnswer;
        fn vers_quick_symbols_get(handle: &mut VersHandle, position: u64) -> VersAnswer;
        fn vers_quick_symbols_rank(handle: &mut VersHandle, end: u64, symbol: u64) -> VersAnswer;
        fn vers_quick_symbols_quantile(handle: &mut VersHandle, from: u64, to: u64, number: u64) -> VersAnswer;
        fn vers_quick_tree_get(handle: &mut VersHandle, position: u64) -> VersAnswer;
        fn vers_quick_tree_close(handle: &mut VersHandle, position: u64) -> VersAnswer;
        fn vers_quick_tree_parent(handle: &mut VersHandle, node: u64) -> VersAnswer;
        fn vers_quick_tree_first_child(handle: &mut VersHandle, node: u64) -> VersAnswer;
        fn vers_quick_tree_next_sibling(handle: &mut VersHandle, node: u64) -> VersAnswer;
        fn vers_quick_tree_depth(handle: &mut VersHandle, node: u64) -> VersAnswer;
        fn vers_quick_values_get(handle: &mut VersHandle, position: u64) -> VersAnswer;
        fn vers_quick_values_range_min(handle: &mut VersHandle, from: u64, to: u64) -> VersAnswer;
    }
    saves {
        fn vers_saved_size(handle: &mut VersHandle) -> VersAnswer;
        fn vers_save(handle: &mut VersHandle, bytes: &mut [u8]) -> u32;
        fn vers_load(code: u32, bytes: &[u8], handle: &mut VersHandle) -> u32;
    }
    combine {
        fn vers_combine(one: &mut VersHandle, other: &mut VersHandle, code: u32, into: &mut VersHandle) -> u32;
    }
    shares {
        fn vers_clone(handle: &mut VersHandle, other: &mut VersHandle) -> u32;
        fn vers_intersect(one: &mut VersHandle, other: &mut VersHandle, into: &mut VersHandle) -> u32;
        fn vers_free(handle: &mut VersHandle) -> ();
    }
    texts {
        fn vers_text_build(symbols: &[u64], width: u32, step: usize, handle: &mut VersHandle) -> u32;
        fn vers_text_build_bytes(bytes: &[u8], width: u32, step: usize, handle: &mut VersHandle) -> u32;
        fn vers_text_build_u16s(u16s: &[u16], width: u32, step: usize, handle: &mut VersHandle) -> u32;
        fn vers_count(handle: &mut VersHandle, pattern: &[u64]) -> VersAnswer;
        fn vers_count_each(handle: &mut VersHandle, symbols: &[u64], ends: &mut [u64]) -> u32;
        fn vers_places(handle: &mut VersHandle, pattern: &[u64], into: &mut VersHandle) -> u32;
        fn vers_first_places(handle: &mut VersHandle, pattern: &[u64], limit: usize, into: &mut VersHandle) -> u32;
        fn vers_extract(handle: &mut VersHandle, from: usize, to: usize, into: &mut VersHandle) -> u32;
    }
}

#[cfg(test)]
mod tests {
    use super::*;
    use std::mem::size_of;
    use std::ptr::{null, null_mut};

    #[test]
    fn a_panic_becomes_a_status() {
        assert_eq!(guarded(|| -> u32 { panic!("expected") }), REFUSED);
        assert_eq!(guarded(|| -> u64 { panic!("expected") }), u64::MAX);
        let answer = guarded(|| -> VersAnswer { panic!("expected") });
        assert_eq!((answer.status, answer.value), (REFUSED, 0));
    }

    #[test]
    fn no_items_are_at_null() {
        // SAFETY: null is for no items.
        let (read, written): (&[u64], &mut [u64]) = unsafe { (items(null(), 0), items_mut(null_mut(), 0)) };
        assert!(read.is_empty() && written.is_empty());
    }

    #[test]
    fn a_handle_has_a_flag_and_a_pointer() {
        assert_eq!(size_of::<VersHandle>(), 2 * size_of::<*const u8>());
    }
}
