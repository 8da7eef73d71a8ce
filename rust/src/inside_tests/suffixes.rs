//! The test of a suffix array, asked for lists that the sort never makes. Only the build of wrong bodies shows this
//! function.

use crate::proved::text_index::checked::is_suffix_order;

/// All lists of some numbers below a limit.
fn lists(len: usize, limit: u32) -> Vec<Vec<u32>> {
    (0..limit.pow(len as u32)).map(|code| (0..len).map(|k| code / limit.pow(k as u32) % limit).collect()).collect()
}

#[test]
fn nothing_but_the_suffix_array_passes() {
    for len in 0..4 {
        for text in lists(len, 3) {
            let symbols: Vec<u8> = text.iter().map(|symbol| *symbol as u8).collect();
            let mut order: Vec<u32> = (0..=len as u32).collect();
            order.sort_by_key(|position| &symbols[*position as usize..]);
            let heads: Vec<u32> =
                (0..3).map(|it| 1 + symbols.iter().filter(|symbol| **symbol < it).count() as u32).collect();
            for positions in lists(len + 1, len as u32 + 2) {
                let passes = is_suffix_order(&symbols, &positions, &mut heads.clone(), &mut [0]);
                assert_eq!(passes, positions == order, "the text {symbols:?}, the positions {positions:?}");
            }
            assert!(!is_suffix_order(&symbols, &order[1..], &mut heads.clone(), &mut [0]));
        }
    }
}
