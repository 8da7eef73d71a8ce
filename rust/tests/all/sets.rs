//! Compares intersections, unions and differences of lists with those of `BTreeSet`.

use std::collections::BTreeSet;

use vers_vecs::{sets, EliasFanoVec};

/// Lists of multiples, with equal numbers, and lists at both ends of the numbers.
fn lists() -> Vec<Vec<u64>> {
    let multiples = |step: u64, len: u64| (0..len).map(|i| i / 2 * step).collect::<Vec<_>>();
    vec![
        vec![],
        vec![0],
        vec![u64::MAX],
        vec![0, 0, 7, u64::MAX - 1, u64::MAX, u64::MAX],
        multiples(2, 100),
        multiples(3, 300),
        multiples(5, 40),
        multiples(1 << 40, 50),
    ]
}

fn set(list: &[u64]) -> BTreeSet<u64> {
    list.iter().copied().collect()
}

fn numbers(list: &EliasFanoVec) -> Vec<u64> {
    list.iter().collect()
}

#[test]
fn operations_on_two_lists() {
    for one in lists() {
        for other in lists() {
            let (left, right) = (EliasFanoVec::from_slice(&one), EliasFanoVec::from_slice(&other));
            let (one, other) = (set(&one), set(&other));
            assert_eq!(
                numbers(&sets::intersection(&left, &right)),
                one.intersection(&other).copied().collect::<Vec<_>>()
            );
            assert_eq!(numbers(&sets::union(&left, &right)), one.union(&other).copied().collect::<Vec<_>>());
            assert_eq!(numbers(&sets::difference(&left, &right)), one.difference(&other).copied().collect::<Vec<_>>());
        }
    }
}

#[test]
fn operations_on_all_lists() {
    let all: Vec<EliasFanoVec> = lists()[3..].iter().map(|list| EliasFanoVec::from_slice(list)).collect();
    let others: Vec<&EliasFanoVec> = all[1..].iter().collect();
    let united: BTreeSet<u64> = lists()[3..].iter().flatten().copied().collect();
    assert_eq!(numbers(&sets::union_of(&all[0], &others)), united.into_iter().collect::<Vec<_>>());
    assert_eq!(numbers(&sets::intersection_of(&all[0], &others)), [0]);
    assert_eq!(numbers(&sets::intersection_of(&all[0], &[])), [0, 7, u64::MAX - 1, u64::MAX]);
}

#[test]
fn differences_of_all_lists() {
    let lists = lists();
    let all: Vec<EliasFanoVec> = lists.iter().map(|list| EliasFanoVec::from_slice(list)).collect();
    for (first, plain) in all.iter().zip(&lists) {
        for chosen in 0..1 << lists.len() {
            let others = (0..lists.len()).filter(|k| chosen >> k & 1 == 1);
            let taken: BTreeSet<u64> = others.clone().flat_map(|k| &lists[k]).copied().collect();
            let others: Vec<&EliasFanoVec> = others.map(|k| &all[k]).collect();
            let left: Vec<u64> = set(plain).difference(&taken).copied().collect();
            assert_eq!(numbers(&sets::difference_of(first, &others)), left);
        }
    }
}
