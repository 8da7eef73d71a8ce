//! What the original has under a feature, and this crate always.

#[test]
fn chunks_are_there_without_a_feature() {
    let bits: vers_vecs::RsVec = (0..100).map(|position| position % 3 == 0).collect();
    assert!(bits.bit_set_iter1().eq((0..100).step_by(3)));
}
