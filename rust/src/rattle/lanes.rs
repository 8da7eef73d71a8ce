//! Lanes as arrays, which the compiler turns into the processor's where it has some.
#![allow(non_camel_case_types)]

use core::ops::{Add, Sub};

/// What lanes were compared to be: a one for each of which it is true.
#[derive(Clone, Copy, Debug)]
pub struct Mask<const N: usize>([u16; N]);

impl<const N: usize> Mask<N> {
    /// Whether some lane is true.
    #[inline(always)]
    pub fn any(self) -> bool {
        self.0.iter().fold(0, |some, it| some | it) != 0
    }

    /// A digit for each lane, of which only the ones are asked for. Their sum is what every processor's lanes are good at.
    #[inline(always)]
    pub fn to_bitmask(self) -> Self {
        self
    }

    /// How many lanes are true.
    #[inline(always)]
    pub fn count_ones(self) -> u32 {
        u32::from(self.0.iter().fold(0, |sum: u16, it| sum.wrapping_add(*it)))
    }
}

macro_rules! lanes {
    ($name:ident, $item:ty, $count:literal) => {
        /// Lanes of one kind.
        #[derive(Clone, Copy, Debug)]
        pub struct $name([$item; $count]);

        #[allow(dead_code)]
        impl $name {
            /// The same item in each lane.
            #[inline(always)]
            pub fn splat(item: $item) -> Self {
                $name([item; $count])
            }

            /// The items of an array.
            #[inline(always)]
            pub fn from_array(items: [$item; $count]) -> Self {
                $name(items)
            }

            /// The first items of a slice.
            #[inline(always)]
            #[cfg_attr(test, track_caller)]
            pub fn from_slice(items: &[$item]) -> Self {
                #[cfg(test)]
                super::reads::note(
                    items.as_ptr(),
                    items.as_ptr(),
                    $count,
                    super::reads::Way::Lanes,
                    core::panic::Location::caller(),
                );
                match items[..$count].try_into() {
                    Ok(items) => $name(items),
                    Err(_) => unreachable!(),
                }
            }

            /// The items.
            #[inline(always)]
            pub fn to_array(self) -> [$item; $count] {
                self.0
            }

            /// Puts the items into the first places of a slice.
            #[inline(always)]
            pub fn copy_to_slice(self, items: &mut [$item]) {
                items[..$count].copy_from_slice(&self.0);
            }

            /// Which lanes differ.
            #[inline(always)]
            pub fn simd_ne(self, other: Self) -> Mask<$count> {
                Mask(core::array::from_fn(|k| u16::from(self.0[k] != other.0[k])))
            }

            /// Which lanes are at least as great.
            #[inline(always)]
            pub fn simd_ge(self, other: Self) -> Mask<$count> {
                Mask(core::array::from_fn(|k| u16::from(self.0[k] >= other.0[k])))
            }
        }

        // As in Rattle and in std::simd, sums and differences of lanes go round the end of the numbers.
        impl Add for $name {
            type Output = Self;

            #[inline(always)]
            fn add(self, other: Self) -> Self {
                $name(core::array::from_fn(|k| self.0[k].wrapping_add(other.0[k])))
            }
        }

        impl Sub for $name {
            type Output = Self;

            #[inline(always)]
            fn sub(self, other: Self) -> Self {
                $name(core::array::from_fn(|k| self.0[k].wrapping_sub(other.0[k])))
            }
        }
    };
}

lanes!(u8x8, u8, 8);
lanes!(u16x16, u16, 16);
lanes!(u64x8, u64, 8);
