//! The heap of the library: a large block begins at a large page, and such pages are requested for it.
//!
//! Queries read a large list at scattered positions, and each read first needs the address of its page. Of pages of
//! 2 MiB the processor keeps the addresses of many gigabytes, of pages of 4 KiB those of some megabytes. Linux gives
//! large pages on request if `/sys/kernel/mm/transparent_hugepage/enabled` says `madvise`.

use std::alloc::{GlobalAlloc, Layout, System};
use std::ptr;

/// The bytes of a large page, and of the smallest block that begins at one.
const PAGE: usize = 1 << 21;

pub struct Heap;

/// The layout with which the system allocates a block.
fn placed(layout: Layout) -> Layout {
    if layout.size() < PAGE {
        return layout;
    }
    layout.align_to(PAGE).unwrap_or(layout)
}

#[cfg(target_os = "linux")]
fn request_large_pages(block: *mut u8, size: usize) {
    use std::os::raw::{c_int, c_void};

    const MADV_HUGEPAGE: c_int = 14;
    extern "C" {
        fn madvise(block: *mut c_void, size: usize, advice: c_int) -> c_int;
    }
    // SAFETY: the block has as many bytes, and advice changes none of them. Without large pages it fails, which is fine.
    unsafe { madvise(block.cast(), size, MADV_HUGEPAGE) };
}

#[cfg(not(target_os = "linux"))]
fn request_large_pages(_: *mut u8, _: usize) {}

// SAFETY: each block is one of the system's, with the layout of `placed`, which depends only on the block's layout.
unsafe impl GlobalAlloc for Heap {
    unsafe fn alloc(&self, layout: Layout) -> *mut u8 {
        // SAFETY: the size is that of the caller, who passes none of 0 bytes.
        let block = unsafe { System.alloc(placed(layout)) };
        if layout.size() >= PAGE && !block.is_null() {
            request_large_pages(block, layout.size());
        }
        block
    }

    unsafe fn dealloc(&self, block: *mut u8, layout: Layout) {
        // SAFETY: the block was allocated with this layout.
        unsafe { System.dealloc(block, placed(layout)) }
    }

    unsafe fn alloc_zeroed(&self, layout: Layout) -> *mut u8 {
        if layout.size() < PAGE {
            // SAFETY: as for `alloc`.
            return unsafe { System.alloc_zeroed(layout) };
        }
        // SAFETY: as for `alloc`.
        let block = unsafe { self.alloc(layout) };
        if !block.is_null() {
            // SAFETY: the block has as many bytes.
            unsafe { ptr::write_bytes(block, 0, layout.size()) };
        }
        block
    }

    unsafe fn realloc(&self, block: *mut u8, layout: Layout, size: usize) -> *mut u8 {
        if layout.size() < PAGE && size < PAGE {
            // SAFETY: the block is one of the system's, with this layout.
            return unsafe { System.realloc(block, layout, size) };
        }
        // SAFETY: the caller passes a size that makes a layout with the alignment of the block.
        let other = unsafe { self.alloc(Layout::from_size_align_unchecked(size, layout.align())) };
        if !other.is_null() {
            // SAFETY: both blocks have as many bytes, and the first was allocated with this layout.
            unsafe {
                ptr::copy_nonoverlapping(block, other, layout.size().min(size));
                self.dealloc(block, layout);
            }
        }
        other
    }
}

#[cfg(test)]
mod tests {
    use super::PAGE;

    fn is_placed(list: &[u64]) -> bool {
        list.as_ptr() as usize % PAGE == 0
    }

    #[test]
    fn large_blocks_begin_at_large_pages() {
        for count in [PAGE / 8, PAGE / 8 + 1, 3 * PAGE / 8] {
            assert!(is_placed(&vec![1; count]) && is_placed(&vec![0; count]));
        }
        for _ in 0..4 {
            // the system reuses the block
            drop(vec![u64::MAX; PAGE / 8]);
            assert!(vec![0_u64; PAGE / 8].iter().all(|it| *it == 0));
        }
    }

    #[test]
    fn lists_keep_their_items_across_sizes() {
        let mut list: Vec<u64> = (0..1000).collect();
        for count in [PAGE / 8, PAGE / 2, PAGE, PAGE / 4, PAGE / 8 - 1, 10, PAGE] {
            list.truncate(count);
            let first = list.len() as u64;
            list.extend(first..count as u64);
            list.shrink_to_fit();
            assert!(list.len() == count && list.iter().zip(0..).all(|(it, k)| *it == k));
            assert!(count < PAGE / 8 || is_placed(&list));
        }
    }

    #[test]
    #[cfg(target_os = "linux")]
    fn blocks_of_other_sizes_are_freed() {
        let mapped = || -> usize {
            let pages = std::fs::read_to_string("/proc/self/statm").unwrap();
            4096 * pages.split(' ').next().unwrap().parse::<usize>().unwrap()
        };
        let before = mapped();
        for _ in 0..10 {
            let mut list: Vec<u8> = Vec::with_capacity(32 * PAGE);
            list.shrink_to(20 * PAGE);
        }
        assert!(mapped() < before + 5 * 32 * PAGE);
    }
}
