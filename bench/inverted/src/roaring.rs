//! The bitmaps of libroaring.

use std::ffi::c_void;

/// The structure `roaring_statistics_t`.
#[repr(C)]
#[derive(Default)]
struct Statistics {
    containers: u32,
    array_containers: u32,
    run_containers: u32,
    bitset_containers: u32,
    array_values: u32,
    run_values: u32,
    bitset_values: u32,
    array_bytes: u32,
    run_bytes: u32,
    bitset_bytes: u32,
    greatest: u32,
    least: u32,
    sum: u64,
    count: u64,
}

/// The structure `mallinfo2` of the C library.
#[repr(C)]
struct Allocated {
    fields: [usize; 10],
}

#[link(name = "roaring")]
extern "C" {
    fn roaring_bitmap_of_ptr(count: usize, numbers: *const u32) -> *mut c_void;
    fn roaring_bitmap_run_optimize(bitmap: *mut c_void) -> bool;
    fn roaring_bitmap_shrink_to_fit(bitmap: *mut c_void) -> usize;
    fn roaring_bitmap_and(one: *const c_void, other: *const c_void) -> *mut c_void;
    fn roaring_bitmap_and_inplace(one: *mut c_void, other: *const c_void);
    fn roaring_bitmap_get_cardinality(bitmap: *const c_void) -> u64;
    fn roaring_bitmap_to_uint32_array(bitmap: *const c_void, numbers: *mut u32);
    fn roaring_bitmap_portable_size_in_bytes(bitmap: *const c_void) -> usize;
    fn roaring_bitmap_statistics(bitmap: *const c_void, statistics: *mut Statistics);
    fn roaring_bitmap_free(bitmap: *mut c_void);
}

extern "C" {
    fn mallinfo2() -> Allocated;
}

/// A bitmap that is freed with its owner.
pub struct Bitmap(*mut c_void);

// SAFETY of all calls below: a `Bitmap` has a pointer that libroaring returned, which isn't null, and owns it.
impl Bitmap {
    /// Returns the bitmap of ascending numbers, in its smallest form.
    pub fn new(numbers: &[u32]) -> Self {
        let bitmap = unsafe { roaring_bitmap_of_ptr(numbers.len(), numbers.as_ptr()) };
        assert!(!bitmap.is_null(), "no memory");
        unsafe { roaring_bitmap_run_optimize(bitmap) };
        unsafe { roaring_bitmap_shrink_to_fit(bitmap) };
        Bitmap(bitmap)
    }

    /// Returns the numbers that are in both bitmaps.
    pub fn and(&self, other: &Self) -> Self {
        let bitmap = unsafe { roaring_bitmap_and(self.0, other.0) };
        assert!(!bitmap.is_null(), "no memory");
        Bitmap(bitmap)
    }

    /// Keeps the numbers that are in the other bitmap too.
    pub fn keep(&mut self, other: &Self) {
        unsafe { roaring_bitmap_and_inplace(self.0, other.0) };
    }

    /// Puts the numbers into a vector, instead of those that it had.
    pub fn numbers(&self, numbers: &mut Vec<u32>) {
        let count = unsafe { roaring_bitmap_get_cardinality(self.0) } as usize;
        numbers.resize(count, 0);
        unsafe { roaring_bitmap_to_uint32_array(self.0, numbers.as_mut_ptr()) };
    }

    /// Returns the bytes of the containers alone.
    pub fn container_bytes(&self) -> u64 {
        let mut it = Statistics::default();
        unsafe { roaring_bitmap_statistics(self.0, &mut it) };
        [it.array_bytes, it.run_bytes, it.bitset_bytes]
            .map(u64::from)
            .iter()
            .sum()
    }

    /// Returns the bytes of the portable saved form.
    pub fn saved_bytes(&self) -> u64 {
        unsafe { roaring_bitmap_portable_size_in_bytes(self.0) as u64 }
    }
}

impl Drop for Bitmap {
    fn drop(&mut self) {
        unsafe { roaring_bitmap_free(self.0) };
    }
}

/// Returns the bytes that the C library has allocated, its own included.
pub fn allocated() -> u64 {
    // SAFETY: a call without arguments; fields 4 and 7 are those of mapped and of other memory in use.
    let fields = unsafe { mallinfo2() }.fields;
    (fields[4] + fields[7]) as u64
}
