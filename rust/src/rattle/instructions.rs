//! Functions that some processors have as an instruction, which Rattle lacks.

/// Returns the position in a word of its one `r`, as `proved` does: by the instruction `pdep` on processors with BMI2. Debug
/// builds compare both.
#[cfg(target_feature = "bmi2")]
#[allow(unsafe_code)]
#[inline(always)]
pub fn position_of_one(proved: impl Fn(u64, usize) -> usize, word: u64, r: usize) -> usize {
    // SAFETY: the instruction needs BMI2, without which this function isn't compiled.
    let one = unsafe { std::arch::x86_64::_pdep_u64(1 << r, word) };
    let position = one.trailing_zeros() as usize;
    debug_assert_eq!(position, proved(word, r));
    position
}

/// Returns the position in a word of its one `r`, as `proved` does.
#[cfg(not(target_feature = "bmi2"))]
#[inline(always)]
pub fn position_of_one(proved: impl Fn(u64, usize) -> usize, word: u64, r: usize) -> usize {
    proved(word, r)
}
