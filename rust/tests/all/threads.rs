//! Structures that many threads ask, and that pass from one to another.
use crate::plain::Random;
use std::panic::{RefUnwindSafe, UnwindSafe};
use std::sync::mpsc;
use std::thread;
use vers_vecs::{BinaryRmq, BitVec, BpTree, EliasFanoVec, FastRmq, RsVec, SparseRSVec, WaveletMatrix};

fn crosses<T: Send + Sync + UnwindSafe + RefUnwindSafe + Clone + std::fmt::Debug + 'static>() {}

#[test]
fn all_types_cross_threads() {
    crosses::<BitVec>();
    crosses::<RsVec>();
    crosses::<EliasFanoVec>();
    crosses::<SparseRSVec>();
    crosses::<WaveletMatrix>();
    crosses::<BinaryRmq>();
    crosses::<FastRmq>();
    crosses::<BpTree>();
}

#[test]
fn many_threads_ask_one_list() {
    let numbers = &Random::new(1).numbers(5000, 1 << 12);
    let here = WaveletMatrix::from_slice(numbers, 12);
    let elsewhere = thread::scope(|scope| scope.spawn(|| WaveletMatrix::from_slice(numbers, 12)).join().unwrap());
    for list in [here, elsewhere] {
        // more threads than there are handles
        thread::scope(|scope| {
            for seed in 0..40 {
                let list = &list;
                scope.spawn(move || {
                    let mut random = Random::new(seed);
                    let own = (seed % 3 == 0).then(|| list.clone());
                    for _ in 0..5000 {
                        let position = random.below(numbers.len() as u64) as usize;
                        assert_eq!(own.as_ref().unwrap_or(list).get_u64(position), Some(numbers[position]));
                    }
                });
            }
            for _ in 0..10 {
                for (position, &number) in numbers.iter().enumerate() {
                    assert_eq!(list.get_u64(position), Some(number));
                }
            }
        });
    }
}

#[test]
fn a_list_passes_from_thread_to_thread() {
    let (send, receive) = mpsc::channel();
    let maker = thread::spawn(move || send.send(RsVec::from_bit_vec(BitVec::from_ones(1000))).unwrap());
    let list: RsVec = receive.recv().unwrap();
    maker.join().unwrap();
    assert_eq!(list.rank1(700), 700);
    let clone = list.clone();
    thread::spawn(move || assert_eq!(list.select1(999), 999)).join().unwrap();
    assert_eq!(clone.rank0(1000), 0);
}

/// How many bytes of memory this process takes; 0 where the system doesn't tell.
fn bytes_taken() -> usize {
    let pages = std::fs::read_to_string("/proc/self/statm").unwrap_or_default();
    pages.split(' ').nth(1).map_or(0, |pages| pages.parse::<usize>().unwrap() * 4096)
}

#[test]
fn the_last_owner_frees() {
    let words = Random::new(2).numbers(1 << 14, u64::MAX);
    let before = bytes_taken();
    for _ in 0..1000 {
        let list = RsVec::from_bit_vec(BitVec::from_limbs(&words));
        let clone = list.clone();
        thread::scope(|scope| scope.spawn(|| list.rank1(9)).join().unwrap());
        drop(list);
        assert_eq!(clone.len(), 1 << 20);
    }
    // a list is 128 KiB
    assert!(bytes_taken() < before + (64 << 20), "{before} bytes before, {} after", bytes_taken());
}
