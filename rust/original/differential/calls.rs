// Random calls of each public type. This file is compiled twice: where `subject` is this crate, and where it is the
// original. Both draw the same numbers, since nothing that is drawn depends on an answer.

use crate::ask;
use crate::log::{Log, Random, Shown};
use std::collections::hash_map::DefaultHasher;
use std::hash::{Hash, Hasher};
use std::ops::Bound;
use subject::bit_vec::mask::MaskedBitVec;
use subject::{
    BinaryRmq, BitVec, BpBuilder, BpTree, EliasFanoVec, FastRmq, IsAncestor, LevelTree, RsVec, SparseRSVec,
    SubtreeSize, Tree, TreeBuilder, WaveletMatrix,
};

impl Shown for BitVec {
    fn shown(&self) -> String {
        let ends = (0..self.len()).step_by(64).map(|at| self.get_bits(at, 64.min(self.len() - at)));
        format!("{} bits, {}", self.len(), ends.collect::<Vec<_>>().shown())
    }
}

impl Shown for RsVec {
    fn shown(&self) -> String {
        self.clone().into_bit_vec().shown()
    }
}

/// Walks over what an iterator gives, from both ends, as long as positions are within.
fn walk<I>(log: &mut Log, name: &str, random: &mut Random, len: usize, make: impl Fn() -> I)
where
    I: DoubleEndedIterator + ExactSizeIterator,
    I::Item: Shown + Ord,
{
    let mut items = make();
    let mut left = len;
    for _ in 0..random.below(8) {
        let taken = step(log, name, random, left, &mut items);
        if taken > left {
            return;
        }
        left -= taken;
    }
    let n = random.position(left);
    match random.below(8) {
        0 => ask!(log, &format!("{name}.count"), [left], items.count()),
        1 => ask!(log, &format!("{name}.last"), [left, len], items.last()),
        2 => ask!(log, &format!("{name}.skip"), [n, left], items.skip(n).take(3).collect::<Vec<_>>()),
        3 => ask!(log, &format!("{name}.rev"), [left], items.rev().take(70).collect::<Vec<_>>()),
        4 => ask!(log, &format!("{name}.max"), [left, len], items.max()),
        5 => ask!(log, &format!("{name}.min"), [left], items.min()),
        6 => ask!(log, &format!("{name}.step_by"), [left], items.step_by(1 + n % 70).collect::<Vec<_>>()),
        _ => ask!(log, &format!("{name}.collect"), [left], items.collect::<Vec<_>>()),
    }
}

/// Asks an iterator once, and answers how many elements that takes, more than are left where it goes past the end.
fn step<I>(log: &mut Log, name: &str, random: &mut Random, left: usize, items: &mut I) -> usize
where
    I: DoubleEndedIterator + ExactSizeIterator,
    I::Item: Shown,
{
    let n = if random.below(6) == 0 { random.position(left) } else { random.below(left.min(600) + 1) };
    match random.below(6) {
        0 => ask!(log, &format!("{name}.next"), [left], items.next()),
        1 => ask!(log, &format!("{name}.next_back"), [left], items.next_back()),
        2 => ask!(log, &format!("{name}.nth"), [n, left], items.nth(n)),
        3 => ask!(log, &format!("{name}.nth_back"), [n, left], items.nth_back(n)),
        4 => ask!(log, &format!("{name}.len"), [left], items.len()),
        _ => ask!(log, &format!("{name}.size_hint"), [left], items.size_hint()),
    }
    match log.calls.last().map(|call| call.name.rsplit('.').next()) {
        Some(Some("next" | "next_back")) => 1,
        Some(Some("nth" | "nth_back")) => n.saturating_add(1),
        _ => 0,
    }
}

/// Walks over what an iterator gives, from its start.
fn walk_on<I>(log: &mut Log, name: &str, random: &mut Random, make: impl Fn() -> I)
where
    I: Iterator,
    I::Item: Shown,
{
    let n = random.position(40);
    match random.below(4) {
        0 => ask!(log, &format!("{name}.nth"), [n], make().nth(n)),
        1 => ask!(log, &format!("{name}.count"), [], make().count()),
        2 => ask!(log, &format!("{name}.skip"), [n], make().skip(n).collect::<Vec<_>>()),
        _ => ask!(log, &format!("{name}.collect"), [], make().collect::<Vec<_>>()),
    }
}

/// Words with few, half or all bits set.
fn words(random: &mut Random, count: usize) -> Vec<u64> {
    let density = random.below(6);
    let word = |_| match density {
        0 => 0,
        1 => u64::MAX,
        2 => random.next() & random.next() & random.next() & random.next() & random.next() & random.next(),
        3 => 1 << random.below(64) & (random.below(9) as u64 / 8).wrapping_neg(),
        4 => random.next() | random.next() | random.next() | random.next(),
        _ => random.next(),
    };
    (0..count).map(word).collect()
}

fn bits(random: &mut Random, len: usize) -> BitVec {
    let mut bits = BitVec::from_limbs(&words(random, len.div_ceil(64)));
    bits.drop_last(bits.len() - len);
    bits
}

fn hash(bits: &BitVec) -> u64 {
    let mut state = DefaultHasher::new();
    bits.hash(&mut state);
    state.finish()
}

pub fn bit_vec_makers(log: &mut Log, random: &mut Random) {
    let count = random.below(200);
    let of = words(random, count);
    let width = random.of(&[0, 1, 3, 7, 8, 9, 16, 17, 31, 32, 33, 63, 64, 65, 100]);
    log.len = count;
    let (bytes, halves, small) = (narrow(&of, |it| it as u8), narrow(&of, |it| it as u16), narrow(&of, |it| it as u32));
    let bools = narrow(&of, |it| it & 1 > 0);
    ask!(log, "BitVec::new", [], BitVec::new());
    ask!(log, "BitVec::with_capacity", [count], BitVec::with_capacity(count));
    ask!(log, "BitVec::from_zeros", [count], BitVec::from_zeros(count));
    ask!(log, "BitVec::from_ones", [count], BitVec::from_ones(count));
    ask!(log, "BitVec::from_bits", [], BitVec::from_bits(&bytes));
    ask!(log, "BitVec::from_bits_u16", [], BitVec::from_bits_u16(&halves));
    ask!(log, "BitVec::from_bits_u32", [], BitVec::from_bits_u32(&small));
    ask!(log, "BitVec::from_bits_u64", [], BitVec::from_bits_u64(&of));
    ask!(log, "BitVec::from_bits_iter", [], BitVec::from_bits_iter(small.iter().copied()));
    ask!(log, "BitVec::from_limbs", [], BitVec::from_limbs(&of));
    ask!(log, "BitVec::from_limbs_iter", [], BitVec::from_limbs_iter(of.iter().copied()));
    ask!(log, "BitVec::from_vec", [], BitVec::from_vec(of.clone()));
    ask!(log, "BitVec::from", [], (BitVec::from(&of[..]), BitVec::from(of.clone())));
    ask!(log, "BitVec::from_iter", [], of.iter().copied().collect::<BitVec>());
    ask!(log, "BitVec::from_bools", [], BitVec::from_bools(&bools));
    ask!(log, "BitVec::from_bool_iter", [], BitVec::from_bool_iter(bools.iter().copied()));
    ask!(log, "BitVec::pack_sequence_u64", [width], BitVec::pack_sequence_u64(&of, width));
    ask!(log, "BitVec::pack_sequence_u32", [width], BitVec::pack_sequence_u32(&small, width));
    ask!(log, "BitVec::pack_sequence_u16", [width], BitVec::pack_sequence_u16(&halves, width));
    ask!(log, "BitVec::pack_sequence_u8", [width], BitVec::pack_sequence_u8(&bytes, width));
    ask!(log, "BitVec::pack_from_iter_u64", [width], BitVec::pack_from_iter_u64(of.iter().copied(), width));
    ask!(log, "BitVec::pack_from_iter_u32", [width], BitVec::pack_from_iter_u32(small.iter().copied(), width));
    ask!(log, "BitVec::pack_from_iter_u16", [width], BitVec::pack_from_iter_u16(halves.iter().copied(), width));
    ask!(log, "BitVec::pack_from_iter_u8", [width], BitVec::pack_from_iter_u8(bytes.iter().copied(), width));
}

fn narrow<T>(words: &[u64], of: fn(u64) -> T) -> Vec<T> {
    words.iter().map(|it| of(*it)).collect()
}

/// Makes a change of a copy, and answers what it answers and what the list is then.
fn changed<T: Shown>(bits: &BitVec, change: impl FnOnce(&mut BitVec) -> T) -> (String, BitVec) {
    let mut copy = bits.clone();
    (change(&mut copy).shown(), copy)
}

pub fn bit_vec_changes(log: &mut Log, random: &mut Random) {
    let len = random.length().min(2000);
    let list = bits(random, len);
    log.len = len;
    for _ in 0..20 {
        append(log, random, &list);
        change(log, random, &list);
    }
    grow(log, random);
}

/// Appends to a copy of a list.
fn append(log: &mut Log, random: &mut Random, list: &BitVec) {
    let (word, count) = (random.next(), random.below(67));
    let len = random.length().min(300);
    let other = bits(random, len);
    match random.below(10) {
        0 => ask!(log, "BitVec::append", [word & 1], changed(list, |it| it.append(word & 1 > 0))),
        1 => ask!(log, "BitVec::append_bit", [word], changed(list, |it| it.append_bit(word))),
        2 => ask!(log, "BitVec::append_bit_u32", [word], changed(list, |it| it.append_bit_u32(word as u32))),
        3 => ask!(log, "BitVec::append_bit_u16", [word], changed(list, |it| it.append_bit_u16(word as u16))),
        4 => ask!(log, "BitVec::append_bit_u8", [word], changed(list, |it| it.append_bit_u8(word as u8))),
        5 => ask!(log, "BitVec::append_word", [word], changed(list, |it| it.append_word(word))),
        6 => ask!(log, "BitVec::append_bits", [word, count], changed(list, |it| it.append_bits(word, count))),
        7 => {
            let call = |it: &mut BitVec| it.append_bits_unchecked(word, count);
            ask!(log, "BitVec::append_bits_unchecked", [word, count], changed(list, call))
        }
        8 => ask!(log, "BitVec::extend_bitvec", [], changed(list, |it| it.extend_bitvec(&other))),
        _ => {
            ask!(log, "BitVec::extend", [], changed(list, |it| it.extend([&other, &other])));
            ask!(log, "BitVec::extend", [], changed(list, |it| it.extend([other.clone()])))
        }
    }
}

/// Changes a copy of a list otherwise.
fn change(log: &mut Log, random: &mut Random, list: &BitVec) {
    let (position, word) = (random.position(list.len()), random.next());
    let len = if random.below(2) == 0 { list.len() } else { random.length().min(300) };
    let mask = bits(random, len);
    match random.below(8) {
        0 => ask!(log, "BitVec::drop_last", [position], changed(list, |it| it.drop_last(position))),
        1 => ask!(log, "BitVec::flip_bit", [position], changed(list, |it| it.flip_bit(position))),
        2 => ask!(log, "BitVec::flip_bit_unchecked", [position], changed(list, |it| it.flip_bit_unchecked(position))),
        3 => {
            let call = |it: &mut BitVec| it.set(position, word).map_err(str::to_owned);
            ask!(log, "BitVec::set", [position, word], changed(list, call))
        }
        4 => ask!(log, "BitVec::set_unchecked", [position, word], changed(list, |it| it.set_unchecked(position, word))),
        5 => ask!(log, "BitVec::split_at", [position], list.clone().split_at(position)),
        // Past the end the original requests more memory than there is, which stops the process.
        6 => {
            let position = position.min(list.len());
            ask!(log, "BitVec::split_at_unchecked", [position], list.clone().split_at_unchecked(position))
        }
        _ => apply_masks(log, list, &mask),
    }
}

fn apply_masks(log: &mut Log, list: &BitVec, mask: &BitVec) {
    let custom: fn(u64, u64) -> u64 = |a, b| a & !b;
    ask!(log, "BitVec::apply_mask_or", [mask.len()], changed(list, |it| it.apply_mask_or(mask).is_ok()));
    ask!(log, "BitVec::apply_mask_and", [mask.len()], changed(list, |it| it.apply_mask_and(mask).is_ok()));
    ask!(log, "BitVec::apply_mask_xor", [mask.len()], changed(list, |it| it.apply_mask_xor(mask).is_ok()));
    ask!(
        log,
        "BitVec::apply_mask_custom",
        [mask.len()],
        changed(list, |it| it.apply_mask_custom(mask, custom).is_ok())
    );
}

/// Changes one list many times, as long as what is asked is granted by both.
fn grow(log: &mut Log, random: &mut Random) {
    let mut list = BitVec::new();
    for _ in 0..40 {
        let (word, count) = (random.next(), random.below(65));
        let word = if count < 64 { word & !(u64::MAX << count) } else { word };
        match random.below(6) {
            0 => list.append(word & 1 > 0),
            1 => list.append_bits(word, count),
            2 => list.append_word(word),
            3 => list.drop_last(count),
            4 if !list.is_empty() => list.flip_bit(word as usize % list.len()),
            _ => list.append_bit(word & 1),
        }
    }
    log.len = list.len();
    ask!(log, "BitVec::append_bits", [0, 0, 1], &list);
}

pub fn bit_vec(log: &mut Log, random: &mut Random) {
    let len = random.length();
    let list = bits(random, len);
    log.len = len;
    ask!(log, "BitVec::len", [], list.len());
    ask!(log, "BitVec::is_empty", [], list.is_empty());
    ask!(log, "BitVec::count_ones", [], list.count_ones());
    ask!(log, "BitVec::count_zeros", [], list.count_zeros());
    ask!(log, "BitVec::heap_size", [], list.heap_size());
    for _ in 0..120 {
        let (position, count) = (random.position(len), random.below(67));
        let index = random.position(len / count.max(1));
        match random.below(9) {
            0 => ask!(log, "BitVec::get", [position], list.get(position)),
            1 => ask!(log, "BitVec::get_unchecked", [position], list.get_unchecked(position)),
            2 => ask!(log, "BitVec::is_bit_set", [position], list.is_bit_set(position)),
            3 => ask!(log, "BitVec::is_bit_set_unchecked", [position], list.is_bit_set_unchecked(position)),
            4 => ask!(log, "BitVec::get_bits", [position, count], list.get_bits(position, count)),
            5 => ask!(log, "BitVec::get_bits_unchecked", [position, count], list.get_bits_unchecked(position, count)),
            6 => ask!(log, "BitVec::unpack_element", [index, count], list.unpack_element(index, count)),
            7 => {
                let call = || list.unpack_element_unchecked(index, count);
                ask!(log, "BitVec::unpack_element_unchecked", [index, count], call())
            }
            _ => equality(log, random, &list),
        }
    }
    for _ in 0..8 {
        walk(log, "BitVec::iter", random, len, || list.iter());
        walk(log, "BitVec::into_iter", random, len, || list.clone().into_iter());
        walk_on(log, "BitVec::iter_limbs", random, || list.iter_limbs());
    }
    let other = if random.below(4) == 0 { bits(random, len + 1) } else { bits(random, len) };
    masks(log, random, &list, &other);
}

/// Compares a list with one that differs from it in one bit or none, or in its length.
fn equality(log: &mut Log, random: &mut Random, list: &BitVec) {
    let (mut other, position) = (list.clone(), random.below(list.len()));
    match random.below(3) {
        0 if !list.is_empty() => other.flip_bit(position),
        1 => other.drop_last(position),
        _ => {}
    }
    let both = (list.len() as u64, other.len() as u64);
    ask!(log, "BitVec::eq", [both.0, both.1], *list == other);
    let is_consistent = !(*list == other) || hash(list) == hash(&other);
    ask!(log, "BitVec::hash", [both.0, both.1], is_consistent);
    log_rs_equality(log, list, &other);
}

fn log_rs_equality(log: &mut Log, one: &BitVec, other: &BitVec) {
    let (one, other) = (RsVec::from_bit_vec(one.clone()), RsVec::from_bit_vec(other.clone()));
    ask!(log, "RsVec::full_equals", [one.len(), other.len()], one.full_equals(&other));
    ask!(log, "RsVec::sparse_equals", [0, one.len(), other.len()], one.sparse_equals::<false>(&other));
    ask!(log, "RsVec::sparse_equals", [1, one.len(), other.len()], one.sparse_equals::<true>(&other));
    ask!(log, "RsVec::eq", [one.len(), other.len()], one == other);
}

fn masks(log: &mut Log, random: &mut Random, list: &BitVec, other: &BitVec) {
    ask!(log, "BitVec::mask_or", [other.len()], list.mask_or(other).map(|it| it.to_bit_vec()).map_err(|_| ()));
    ask!(log, "BitVec::mask_and", [other.len()], list.mask_and(other).map(|it| it.to_bit_vec()).map_err(|_| ()));
    ask!(log, "BitVec::mask_xor", [other.len()], list.mask_xor(other).map(|it| it.to_bit_vec()).map_err(|_| ()));
    let custom = list.mask_custom(other, |a, b| a & !b);
    ask!(log, "BitVec::mask_custom", [other.len()], custom.as_ref().map(|it| it.to_bit_vec()).map_err(|_| ()));
    match custom {
        Ok(masked) => ask_mask(log, random, list.len(), &masked),
        Err(_) => {}
    }
}

fn ask_mask<F: Fn(u64, u64) -> u64>(log: &mut Log, random: &mut Random, len: usize, list: &MaskedBitVec<'_, '_, F>) {
    ask!(log, "MaskedBitVec::count_ones", [], list.count_ones());
    ask!(log, "MaskedBitVec::count_zeros", [], list.count_zeros());
    ask!(log, "MaskedBitVec::to_bit_vec", [], list.to_bit_vec());
    for _ in 0..60 {
        let (position, count) = (random.position(len), random.below(67));
        match random.below(6) {
            0 => ask!(log, "MaskedBitVec::get", [position], list.get(position)),
            1 => ask!(log, "MaskedBitVec::get_unchecked", [position], list.get_unchecked(position)),
            2 => ask!(log, "MaskedBitVec::is_bit_set", [position], list.is_bit_set(position)),
            3 => ask!(log, "MaskedBitVec::is_bit_set_unchecked", [position], list.is_bit_set_unchecked(position)),
            4 => ask!(log, "MaskedBitVec::get_bits", [position, count], list.get_bits(position, count)),
            _ => ask!(log, "MaskedBitVec::get_bits_unchecked", [position, count], list.get_bits_unchecked(position, count)),
        }
    }
}

pub fn rs_vec(log: &mut Log, random: &mut Random) {
    let len = random.length();
    let source = bits(random, len);
    log.len = len;
    let list = RsVec::from_bit_vec(source.clone());
    ask!(log, "RsVec::from_bit_vec", [], &list);
    ask!(log, "RsVec::from", [], (RsVec::from(source.clone()), BitVec::from(list.clone())));
    ask!(log, "RsVec::into_bit_vec", [], list.clone().into_bit_vec());
    ask!(log, "RsVec::len", [], list.len());
    ask!(log, "RsVec::is_empty", [], list.is_empty());
    ask!(log, "RsVec::heap_size", [], list.heap_size());
    for _ in 0..250 {
        let (position, count) = (random.position(len), random.below(67));
        match random.below(12) {
            0 => ask!(log, "RsVec::rank0", [position], list.rank0(position)),
            1 => ask!(log, "RsVec::rank1", [position], list.rank1(position)),
            2 => ask!(log, "RsVec::select0", [position], list.select0(position)),
            3 => ask!(log, "RsVec::select1", [position], list.select1(position)),
            4 => ask!(log, "RsVec::get", [position], list.get(position)),
            5 => ask!(log, "RsVec::get_unchecked", [position], list.get_unchecked(position)),
            6 => ask!(log, "RsVec::get_bits", [position, count], list.get_bits(position, count)),
            7 => ask!(log, "RsVec::get_bits_unchecked", [position, count], list.get_bits_unchecked(position, count)),
            8 => ask!(log, "RsVec::successor0", [position], list.successor0(position)),
            9 => ask!(log, "RsVec::successor1", [position], list.successor1(position)),
            10 => ask!(log, "RsVec::predecessor0", [position], list.predecessor0(position)),
            _ => ask!(log, "RsVec::predecessor1", [position], list.predecessor1(position)),
        }
    }
    let ones = source.count_ones() as usize;
    for _ in 0..4 {
        walk(log, "RsVec::iter", random, len, || list.iter());
        walk(log, "RsVec::into_iter", random, len, || list.clone().into_iter());
        walk(log, "RsVec::iter0", random, len - ones, || list.iter0());
        walk(log, "RsVec::iter1", random, ones, || list.iter1());
        walk(log, "RsVec::into_iter0", random, len - ones, || list.clone().into_iter0());
        walk(log, "RsVec::into_iter1", random, ones, || list.clone().into_iter1());
        walk(log, "RsVec::select_iter", random, ones, || list.select_iter::<false>());
        walk(log, "RsVec::into_select_iter", random, len - ones, || list.clone().into_select_iter::<true>());
    }
}

/// Numbers that ascend: close together or far apart, some equal.
fn ascending(random: &mut Random, count: usize) -> Vec<u64> {
    let gap = random.of(&[1, 2, 10, 1000, 1 << 30, u64::MAX / (count as u64 + 2)]);
    let start = if random.below(2) == 0 { 0 } else { random.next() % gap.saturating_mul(3).min(1 << 40) };
    let mut numbers = vec![];
    let mut last = start;
    for _ in 0..count {
        numbers.push(last);
        let step = if random.below(40) == 0 { random.below(30) as u64 * gap } else { random.next() % gap };
        last = last.saturating_add(step);
    }
    numbers
}

/// A number near those of a list, or far from them.
fn near(random: &mut Random, numbers: &[u64]) -> u64 {
    match (random.below(8), numbers.is_empty()) {
        (0, _) | (_, true) => random.next(),
        (1, _) => random.of(&[0, 1, u64::MAX, u64::MAX - 1, 1 << 63]),
        (2, _) => numbers[numbers.len() - 1].saturating_add(random.below(3) as u64),
        (3, _) => numbers[0].saturating_sub(random.below(3) as u64),
        _ => random.of(numbers).wrapping_add(random.below(3) as u64).wrapping_sub(1),
    }
}

pub fn elias_fano(log: &mut Log, random: &mut Random) {
    let len = random.length().min(9000);
    let numbers = ascending(random, len);
    log.len = len;
    let list = EliasFanoVec::from_slice(&numbers);
    if random.below(8) == 0 {
        let reversed: Vec<u64> = numbers.iter().rev().copied().take(3).collect();
        ask!(log, "EliasFanoVec::from_slice", [reversed.len()], EliasFanoVec::from_slice(&reversed).len());
    }
    ask!(log, "EliasFanoVec::len", [], list.len());
    ask!(log, "EliasFanoVec::is_empty", [], list.is_empty());
    ask!(log, "EliasFanoVec::heap_size", [], list.heap_size());
    let ends = [numbers.first(), numbers.last()].map(|it| it.copied().unwrap_or(0));
    let [least, most] = ends;
    for _ in 0..200 {
        let (position, number) = (random.position(len), near(random, &numbers));
        match random.below(9) {
            0 => ask!(log, "EliasFanoVec::get", [position], list.get(position)),
            1 => ask!(log, "EliasFanoVec::select", [position], list.select(position)),
            2 => ask!(log, "EliasFanoVec::get_unchecked", [position], list.get_unchecked(position)),
            3 => ask!(log, "EliasFanoVec::predecessor", [number, least], list.predecessor(number)),
            4 => {
                let call = || list.predecessor_unchecked(number);
                ask!(log, "EliasFanoVec::predecessor_unchecked", [number, least, most], call())
            }
            5 => ask!(log, "EliasFanoVec::successor", [number, least], list.successor(number)),
            6 => {
                let call = || list.successor_unchecked(number);
                ask!(log, "EliasFanoVec::successor_unchecked", [number, least, most], call())
            }
            7 => ask!(log, "EliasFanoVec::delta", [position], list.delta(position)),
            _ => ask!(log, "EliasFanoVec::rank", [number, least], list.rank(number)),
        }
    }
    for _ in 0..8 {
        walk(log, "EliasFanoVec::iter", random, len, || list.iter());
        walk(log, "EliasFanoVec::into_iter", random, len, || list.clone().into_iter());
    }
}

pub fn sparse(log: &mut Log, random: &mut Random) {
    let count = random.length().min(9000);
    let mut ones = ascending(random, count);
    ones.dedup();
    let len = ones.last().map_or(0, |last| last.saturating_add(1)).saturating_add(random.below(3) as u64 * 50);
    log.len = len as usize;
    let first = ones.first().copied().unwrap_or(0);
    if ones.last() == Some(&u64::MAX) {
        ones.pop();
    }
    ask_sparse(log, random, "new", &ones, &SparseRSVec::new(&ones, len));
    if count == 2 {
        ask!(log, "SparseRSVec::new", [first, 1], SparseRSVec::new(&ones, first).len());
        ask!(log, "SparseRSVec::new", [first, 2], SparseRSVec::new(&[first + 1, first], first + 2).len());
    }
    let few = random.length().min(3000);
    let list = bits(random, few);
    log.len = few;
    let positions = |wanted: u64| (0..few as u64).filter(|at| list.get(*at as usize) == Some(wanted)).collect::<Vec<_>>();
    ask_sparse(log, random, "from_bitvec", &positions(1), &SparseRSVec::from_bitvec(&list));
    ask_sparse(log, random, "from_bitvec_inverted", &positions(0), &SparseRSVec::from_bitvec_inverted(&list));
    ask_sparse(log, random, "from", &positions(0), &SparseRSVec::from(&list));
    ask_sparse(log, random, "from", &positions(0), &SparseRSVec::from(list.clone()));
}

fn ask_sparse(log: &mut Log, random: &mut Random, maker: &str, ones: &[u64], list: &SparseRSVec) {
    let first = ones.first().copied().unwrap_or(u64::MAX);
    ask!(log, &format!("SparseRSVec::{maker}"), [ones.len()], list.len());
    ask!(log, "SparseRSVec::len", [], list.len());
    ask!(log, "SparseRSVec::is_empty", [], list.is_empty());
    ask!(log, "SparseRSVec::heap_size", [], list.heap_size());
    for _ in 0..40 {
        let (number, position) = (near(random, ones), random.position(ones.len()));
        match random.below(7) {
            0 => ask!(log, "SparseRSVec::is_set", [number, first], list.is_set(number)),
            1 => ask!(log, "SparseRSVec::is_set_unchecked", [number, first], list.is_set_unchecked(number)),
            2 => ask!(log, "SparseRSVec::get", [number, first], list.get(number)),
            3 => ask!(log, "SparseRSVec::get_unchecked", [number, first], list.get_unchecked(number)),
            4 => ask!(log, "SparseRSVec::select1", [position, ones.len()], list.select1(position)),
            5 => ask!(log, "SparseRSVec::rank1", [number, first], list.rank1(number)),
            _ => ask!(log, "SparseRSVec::rank0", [number, first], list.rank0(number)),
        }
    }
    walk_on(log, "SparseRSVec::iter1", random, || list.iter1());
}

/// The position of a least value, and that value.
fn minimum(values: &[u64], position: usize) -> (usize, u64) {
    (position, values[position])
}

macro_rules! minima {
    ($function:ident, $type:ident, $name:literal) => {
        pub fn $function(log: &mut Log, random: &mut Random) {
            let len = random.length().min(3000);
            let most = random.of(&[2, 20, 1 << 20, u64::MAX]);
            let values: Vec<u64> = (0..len).map(|_| random.next() % most).collect();
            log.len = len;
            let list = $type::from_vec(values.clone());
            ask!(log, concat!($name, "::from_vec"), [], list.to_vec());
            ask!(log, concat!($name, "::from"), [], $type::from(values.clone()).to_vec());
            ask!(log, concat!($name, "::from_iter"), [], values.iter().copied().collect::<$type>().to_vec());
            ask!(log, concat!($name, "::len"), [], list.len());
            ask!(log, concat!($name, "::is_empty"), [], list.is_empty());
            ask!(log, concat!($name, "::heap_size"), [], list.heap_size());
            let least = |position| minimum(&values, position);
            let ranged = concat!($name, "::range_min_with_range");
            for _ in 0..150 {
                let (a, b) = (random.position(len), random.position(len));
                let (a, b) = if random.below(8) > 0 { (a.min(b), a.max(b)) } else { (a, b) };
                match random.below(10) {
                    0 => ask!(log, ranged, [0, a, b], least(list.range_min_with_range(a..b))),
                    1 => ask!(log, ranged, [1, a, b], least(list.range_min_with_range(a..=b))),
                    2 => ask!(log, ranged, [2, a], least(list.range_min_with_range(a..))),
                    3 => ask!(log, ranged, [3, b], least(list.range_min_with_range(..b))),
                    4 => ask!(log, ranged, [4, b], least(list.range_min_with_range(..=b))),
                    5 => ask!(log, ranged, [5], least(list.range_min_with_range(..))),
                    6 => {
                        let range = (Bound::Excluded(a), Bound::Included(b));
                        ask!(log, ranged, [6, a, b], least(list.range_min_with_range(range)))
                    }
                    7 => ask!(log, concat!($name, "::deref"), [a], list.get(a).copied()),
                    _ => ask!(log, concat!($name, "::range_min"), [a, b], least(list.range_min(a, b))),
                }
            }
        }
    };
}

minima!(fast_rmq, FastRmq, "FastRmq");
minima!(binary_rmq, BinaryRmq, "BinaryRmq");

/// A symbol of a width, and sometimes of one more or less.
fn symbol(random: &mut Random, width: usize) -> BitVec {
    let width = if random.below(9) == 0 { (width + random.below(3)).saturating_sub(1) } else { width };
    bits(random, width)
}

pub fn wavelet(log: &mut Log, random: &mut Random) {
    let width = random.of(&[1, 1, 2, 3, 5, 8, 8, 13, 32, 63, 64]);
    let len = random.length().min(if width > 8 { 600 } else { 9000 });
    let most = if width < 64 { 1 << width } else { u64::MAX };
    let skew = random.of(&[most, most, 3.min(most), 20.min(most)]);
    let numbers: Vec<u64> = (0..len).map(|_| random.next() % skew).collect();
    log.len = len;
    let list = WaveletMatrix::from_slice(&numbers, width);
    ask!(log, "WaveletMatrix::from_slice", [width], list.iter().collect::<Vec<_>>());
    if width <= 13 {
        let counted = || WaveletMatrix::from_slice_pc(&numbers, width).iter().collect::<Vec<_>>();
        ask!(log, "WaveletMatrix::from_slice_pc", [width], counted());
    }
    ask_wavelet(log, random, &list);
    ask_numbers(log, random, &list, &numbers);
}

pub fn wide_wavelet(log: &mut Log, random: &mut Random) {
    let width = random.of(&[1, 4, 9, 64, 65, 70, 128, 200]);
    let len = random.length().min(700);
    let packed = bits(random, len * width);
    log.len = len;
    let list = WaveletMatrix::from_bit_vec(&packed, width as u16);
    ask!(log, "WaveletMatrix::from_bit_vec", [width], list.iter().collect::<Vec<_>>());
    if width < 10 {
        let counted = || WaveletMatrix::from_bit_vec_pc(&packed, width as u16).iter().collect::<Vec<_>>();
        ask!(log, "WaveletMatrix::from_bit_vec_pc", [width], counted());
    }
    let cut = bits(random, len * width + 1);
    ask!(log, "WaveletMatrix::from_bit_vec", [width, 1], WaveletMatrix::from_bit_vec(&cut, width as u16).len());
    ask_wavelet(log, random, &list);
    ask_numbers(log, random, &list, &[]);
}

#[allow(deprecated)]
fn ask_wavelet(log: &mut Log, random: &mut Random, list: &WaveletMatrix) {
    let (len, width) = (list.len(), list.bits_per_element());
    ask!(log, "WaveletMatrix::len", [], len);
    ask!(log, "WaveletMatrix::is_empty", [], list.is_empty());
    ask!(log, "WaveletMatrix::heap_size", [], list.heap_size());
    ask!(log, "WaveletMatrix::bits_per_element", [], width);
    ask!(log, "WaveletMatrix::bit_len", [], list.bit_len());
    for _ in 0..60 {
        ask_symbol(log, random, list);
        ask_element(log, random, list);
    }
    walk(log, "WaveletMatrix::iter", random, len, || list.iter().map(Symbol));
    walk(log, "WaveletMatrix::into_iter", random, len, || list.clone().into_iter().map(Symbol));
    walk(log, "WaveletMatrix::iter_sorted", random, len, || list.iter_sorted().map(Symbol));
    walk(log, "WaveletMatrix::into_iter_sorted", random, len, || list.clone().into_iter_sorted().map(Symbol));
}

/// A symbol, compared by its text: walks ask for an order.
struct Symbol(BitVec);

impl Shown for Symbol {
    fn shown(&self) -> String {
        self.0.shown()
    }
}

impl PartialEq for Symbol {
    fn eq(&self, other: &Self) -> bool {
        self.shown() == other.shown()
    }
}

impl Eq for Symbol {}

impl PartialOrd for Symbol {
    fn partial_cmp(&self, other: &Self) -> Option<std::cmp::Ordering> {
        Some(self.cmp(other))
    }
}

impl Ord for Symbol {
    fn cmp(&self, other: &Self) -> std::cmp::Ordering {
        self.shown().cmp(&other.shown())
    }
}

fn ask_symbol(log: &mut Log, random: &mut Random, list: &WaveletMatrix) {
    let (len, width) = (list.len(), list.bits_per_element());
    let (position, other, range) = (random.position(len), random.position(len), random.range(len));
    let symbol = match (random.below(2), len) {
        (0, 1..) => list.get_value(random.below(len)).unwrap(),
        _ => symbol(random, width),
    };
    let about = [position as u64, range.start as u64, range.end as u64, symbol.len() as u64, width as u64];
    let [a, s, e, l, w] = about;
    let b = other as u64;
    match random.below(12) {
        0 => ask!(log, "WaveletMatrix::rank_range", [s, e, l, w], list.rank_range(range.clone(), &symbol)),
        1 => {
            let call = || list.rank_range_unchecked(range.clone(), &symbol);
            ask!(log, "WaveletMatrix::rank_range_unchecked", [s, e, l, w], call())
        }
        2 => ask!(log, "WaveletMatrix::rank_offset", [s, e, l, w], list.rank_offset(range.start, range.end, &symbol)),
        3 => {
            let call = || list.rank_offset_unchecked(range.start, range.end, &symbol);
            ask!(log, "WaveletMatrix::rank_offset_unchecked", [s, e, l, w], call())
        }
        4 => ask!(log, "WaveletMatrix::rank", [a, l, w], list.rank(position, &symbol)),
        5 => ask!(log, "WaveletMatrix::rank_unchecked", [a, l, w], list.rank_unchecked(position, &symbol)),
        6 => ask!(log, "WaveletMatrix::select_offset", [a, b, l, w], list.select_offset(position, other, &symbol)),
        7 => {
            let call = || list.select_offset_unchecked(position, other, &symbol);
            ask!(log, "WaveletMatrix::select_offset_unchecked", [a, b, l, w], call())
        }
        8 => ask!(log, "WaveletMatrix::select", [a, l, w], list.select(position, &symbol)),
        9 => ask!(log, "WaveletMatrix::select_unchecked", [a, l, w], list.select_unchecked(position, &symbol)),
        10 => ask!(log, "WaveletMatrix::predecessor", [s, e, l, w], list.predecessor(range.clone(), &symbol)),
        _ => ask!(log, "WaveletMatrix::successor", [s, e, l, w], list.successor(range.clone(), &symbol)),
    }
}

fn ask_element(log: &mut Log, random: &mut Random, list: &WaveletMatrix) {
    let (position, range) = (random.position(list.len()), random.range(list.len()));
    let k = random.position(range.end.saturating_sub(range.start).min(list.len()));
    let (s, e, of) = (range.start, range.end, range.clone());
    match random.below(12) {
        0 => ask!(log, "WaveletMatrix::get_value", [position], list.get_value(position)),
        1 => ask!(log, "WaveletMatrix::get_value_unchecked", [position], list.get_value_unchecked(position)),
        2 => ask!(log, "WaveletMatrix::quantile", [s, e, k], list.quantile(of, k)),
        3 => ask!(log, "WaveletMatrix::quantile_unchecked", [s, e, k], list.quantile_unchecked(of, k)),
        4 => ask!(log, "WaveletMatrix::get_sorted", [position], list.get_sorted(position)),
        5 => ask!(log, "WaveletMatrix::get_sorted_unchecked", [position], list.get_sorted_unchecked(position)),
        6 => ask!(log, "WaveletMatrix::range_min", [s, e], list.range_min(of)),
        7 => ask!(log, "WaveletMatrix::range_min_unchecked", [s, e], list.range_min_unchecked(of)),
        8 => ask!(log, "WaveletMatrix::range_max", [s, e], list.range_max(of)),
        9 => ask!(log, "WaveletMatrix::range_max_unchecked", [s, e], list.range_max_unchecked(of)),
        10 => ask!(log, "WaveletMatrix::range_median", [s, e], list.range_median(of)),
        _ => ask!(log, "WaveletMatrix::range_median_unchecked", [s, e], list.range_median_unchecked(of)),
    }
}

fn ask_numbers(log: &mut Log, random: &mut Random, list: &WaveletMatrix, numbers: &[u64]) {
    for _ in 0..120 {
        let number = near(random, numbers);
        ask_counts(log, random, list, number);
        ask_sizes(log, random, list, number);
    }
    let len = list.len();
    ask!(log, "WaveletMatrix::iter_u64", [], list.iter_u64().map(|it| it.collect::<Vec<_>>()));
    ask!(log, "WaveletMatrix::into_iter_u64", [], list.clone().into_iter_u64().map(|it| it.collect::<Vec<_>>()));
    ask!(log, "WaveletMatrix::iter_sorted_u64", [], list.iter_sorted_u64().map(|it| it.collect::<Vec<_>>()));
    let sorted = || list.clone().into_iter_sorted_u64().map(|it| it.collect::<Vec<_>>());
    ask!(log, "WaveletMatrix::into_iter_sorted_u64", [], sorted());
    if list.bits_per_element() <= 64 {
        walk(log, "WaveletMatrix::iter_u64", random, len, || list.iter_u64().unwrap());
        walk(log, "WaveletMatrix::into_iter_u64", random, len, || list.clone().into_iter_u64().unwrap());
        walk(log, "WaveletMatrix::iter_sorted_u64", random, len, || list.iter_sorted_u64().unwrap());
        let sorted = || list.clone().into_iter_sorted_u64().unwrap();
        walk(log, "WaveletMatrix::into_iter_sorted_u64", random, len, sorted);
    }
}

fn ask_counts(log: &mut Log, random: &mut Random, list: &WaveletMatrix, n: u64) {
    let (len, w) = (list.len(), list.bits_per_element());
    let (a, b, range) = (random.position(len), random.position(len), random.range(len));
    let (s, e, of) = (range.start, range.end, range.clone());
    match random.below(10) {
        0 => ask!(log, "WaveletMatrix::rank_range_u64", [s, e, n, w], list.rank_range_u64(of, n)),
        1 => ask!(log, "WaveletMatrix::rank_range_u64_unchecked", [s, e, n, w], list.rank_range_u64_unchecked(of, n)),
        2 => ask!(log, "WaveletMatrix::rank_offset_u64", [s, e, n, w], list.rank_offset_u64(s, e, n)),
        3 => {
            ask!(log, "WaveletMatrix::rank_offset_u64_unchecked", [s, e, n, w], list.rank_offset_u64_unchecked(s, e, n))
        }
        4 => ask!(log, "WaveletMatrix::rank_u64", [a, n, w], list.rank_u64(a, n)),
        5 => ask!(log, "WaveletMatrix::rank_u64_unchecked", [a, n, w], list.rank_u64_unchecked(a, n)),
        6 => ask!(log, "WaveletMatrix::select_offset_u64", [a, b, n, w], list.select_offset_u64(a, b, n)),
        7 => {
            let call = || list.select_offset_u64_unchecked(a, b, n);
            ask!(log, "WaveletMatrix::select_offset_u64_unchecked", [a, b, n, w], call())
        }
        8 => ask!(log, "WaveletMatrix::select_u64", [a, n, w], list.select_u64(a, n)),
        _ => ask!(log, "WaveletMatrix::select_u64_unchecked", [a, n, w], list.select_u64_unchecked(a, n)),
    }
}

fn ask_sizes(log: &mut Log, random: &mut Random, list: &WaveletMatrix, n: u64) {
    let (position, range, w) = (random.position(list.len()), random.range(list.len()), list.bits_per_element());
    let k = random.position(range.end.saturating_sub(range.start).min(list.len()));
    let (s, e, of) = (range.start, range.end, range.clone());
    match random.below(14) {
        0 => ask!(log, "WaveletMatrix::get_u64", [position, w], list.get_u64(position)),
        1 => ask!(log, "WaveletMatrix::get_u64_unchecked", [position, w], list.get_u64_unchecked(position)),
        2 => ask!(log, "WaveletMatrix::quantile_u64", [s, e, k, w], list.quantile_u64(of, k)),
        3 => ask!(log, "WaveletMatrix::quantile_u64_unchecked", [s, e, k, w], list.quantile_u64_unchecked(of, k)),
        4 => ask!(log, "WaveletMatrix::get_sorted_u64", [position, w], list.get_sorted_u64(position)),
        5 => ask!(log, "WaveletMatrix::get_sorted_u64_unchecked", [position, w], list.get_sorted_u64_unchecked(position)),
        6 => ask!(log, "WaveletMatrix::range_min_u64", [s, e, w], list.range_min_u64(of)),
        7 => ask!(log, "WaveletMatrix::range_min_u64_unchecked", [s, e, w], list.range_min_u64_unchecked(of)),
        8 => ask!(log, "WaveletMatrix::range_max_u64", [s, e, w], list.range_max_u64(of)),
        9 => ask!(log, "WaveletMatrix::range_max_u64_unchecked", [s, e, w], list.range_max_u64_unchecked(of)),
        10 => ask!(log, "WaveletMatrix::range_median_u64", [s, e, w], list.range_median_u64(of)),
        11 => ask!(log, "WaveletMatrix::range_median_u64_unchecked", [s, e, w], list.range_median_u64_unchecked(of)),
        12 => ask!(log, "WaveletMatrix::predecessor_u64", [s, e, n, w], list.predecessor_u64(of, n)),
        _ => ask!(log, "WaveletMatrix::successor_u64", [s, e, n, w], list.successor_u64(of, n)),
    }
}

/// Balanced parentheses: a path, a star, or one that looks random, deep or flat; and sometimes a forest.
fn balanced(random: &mut Random, nodes: usize) -> Vec<bool> {
    let shape = random.below(5);
    let mut list = vec![];
    let (mut open, mut left) = (0, nodes);
    while left > 0 || open > 0 {
        let opens = left > 0
            && match shape {
                0 => true,
                1 => open < 2,
                2 => open == 0 || random.below(2) == 0,
                3 => open < 2 || random.below(20) > 9,
                _ => open < 1 || random.below(8) > 2,
            };
        list.push(opens);
        if opens {
            left -= 1;
            open += 1;
        } else {
            open -= 1;
        }
    }
    list
}

pub fn bp_tree(log: &mut Log, random: &mut Random) {
    let nodes = random.length().min(5000) / 2;
    let list = balanced(random, nodes);
    match random.below(4) {
        0 => ask_tree::<64>(log, random, &list),
        1 => ask_tree::<8>(log, random, &list),
        _ => ask_tree::<512>(log, random, &list),
    }
}

/// Asks a tree of its nodes, and its searches of any position.
fn ask_tree<const BLOCK_SIZE: usize>(log: &mut Log, random: &mut Random, list: &[bool]) {
    let source = BitVec::from_bools(list);
    let tree = BpTree::<BLOCK_SIZE>::from_bit_vector(source.clone());
    log.len = list.len();
    ask!(log, "BpTree::from_bit_vector", [], tree.clone().into_parentheses_vec());
    ask!(log, "BpTree::from", [], BitVec::from(BpTree::<BLOCK_SIZE>::from(source.clone())));
    ask!(log, "BpTree::into_parentheses_vec", [], RsVec::from(tree.clone()));
    ask!(log, "BpTree::heap_size", [BLOCK_SIZE], tree.heap_size());
    ask!(log, "Tree::root", [], tree.root());
    ask!(log, "Tree::size", [], tree.size());
    ask!(log, "Tree::is_empty", [], tree.is_empty());
    let opens: Vec<usize> = (0..list.len()).filter(|at| list[*at]).collect();
    for _ in 0..200 {
        ask_search(log, random, &tree, list.len());
        if !opens.is_empty() {
            let (node, other) = (random.of(&opens), random.of(&opens));
            ask_node(log, random, &tree, node, other);
        }
    }
    ask_builder::<BLOCK_SIZE>(log, random, list);
    walk_tree(log, random, &tree, &opens);
}

fn ask_search<const BLOCK_SIZE: usize>(log: &mut Log, random: &mut Random, tree: &BpTree<BLOCK_SIZE>, len: usize) {
    let position = random.position(len);
    let excess = random.of(&[0, 1, -1, 2, -2, 5, -5, 100, -100, i64::MAX, i64::MIN]);
    let level = random.of(&[0, 1, 2, 3, 10, 1000, u64::MAX, 1 << 63]);
    match random.below(10) {
        0 | 1 => ask!(log, "BpTree::fwd_search", [position, excess], tree.fwd_search(position, excess)),
        2 | 3 => ask!(log, "BpTree::bwd_search", [position, excess], tree.bwd_search(position, excess)),
        4 => ask!(log, "BpTree::close", [position], tree.close(position)),
        5 => ask!(log, "BpTree::open", [position], tree.open(position)),
        6 => ask!(log, "BpTree::enclose", [position], tree.enclose(position)),
        7 => ask!(log, "BpTree::excess", [position], tree.excess(position)),
        8 => ask!(log, "LevelTree::level_leftmost", [level], tree.level_leftmost(level)),
        _ => ask!(log, "LevelTree::level_rightmost", [level], tree.level_rightmost(level)),
    }
}

fn ask_node<const B: usize>(log: &mut Log, random: &mut Random, tree: &BpTree<B>, node: usize, other: usize) {
    let level = random.of(&[0, 1, 2, 3, 10, 1000, u64::MAX, 1 << 63]);
    let index = random.position(tree.size());
    match random.below(15) {
        0 => ask!(log, "Tree::parent", [node], tree.parent(node)),
        1 => ask!(log, "Tree::first_child", [node], tree.first_child(node)),
        2 => ask!(log, "Tree::next_sibling", [node], tree.next_sibling(node)),
        3 => ask!(log, "Tree::previous_sibling", [node], tree.previous_sibling(node)),
        4 => ask!(log, "Tree::last_child", [node], tree.last_child(node)),
        5 => ask!(log, "Tree::node_index", [node], tree.node_index(node)),
        6 => ask!(log, "Tree::node_handle", [index], tree.node_handle(index)),
        7 => ask!(log, "Tree::is_leaf", [node], tree.is_leaf(node)),
        8 => ask!(log, "Tree::depth", [node], tree.depth(node)),
        9 => ask!(log, "SubtreeSize::subtree_size", [node], tree.subtree_size(node)),
        10 => ask!(log, "IsAncestor::is_ancestor", [node, other], tree.is_ancestor(node, other)),
        11 => ask!(log, "LevelTree::level_ancestor", [node, level], tree.level_ancestor(node, level)),
        12 => ask!(log, "LevelTree::level_next", [node], tree.level_next(node)),
        13 => ask!(log, "LevelTree::level_prev", [node], tree.level_prev(node)),
        _ => ask!(log, "BpTree::excess", [node], tree.excess(node)),
    }
}

fn ask_builder<const BLOCK_SIZE: usize>(log: &mut Log, random: &mut Random, list: &[bool]) {
    let mut builders = [
        BpBuilder::<BLOCK_SIZE>::new(),
        BpBuilder::<BLOCK_SIZE>::with_capacity(list.len() as u64),
        BpBuilder::<BLOCK_SIZE>::default(),
    ];
    let cut = random.below(2) * random.below(list.len());
    for builder in &mut builders {
        for &opens in &list[..list.len() - cut] {
            match opens {
                true => builder.enter_node(),
                false => builder.leave_node(),
            }
        }
    }
    let names = ["BpBuilder::new", "BpBuilder::with_capacity", "BpBuilder::default"];
    for (builder, name) in builders.into_iter().zip(names) {
        ask!(log, name, [cut], builder.build().map(|it| it.into_parentheses_vec()));
    }
    for name in ["TreeBuilder::enter_node", "TreeBuilder::leave_node", "TreeBuilder::build"] {
        let mut builder = BpBuilder::<BLOCK_SIZE>::new();
        builder.enter_node();
        builder.leave_node();
        ask!(log, name, [], builder.build().map(|it| it.size()));
    }
}

fn walk_tree<const BLOCK_SIZE: usize>(log: &mut Log, random: &mut Random, tree: &BpTree<BLOCK_SIZE>, opens: &[usize]) {
    ask!(log, "BpTree::iter", [], tree.iter().collect::<Vec<_>>());
    ask!(log, "BpTree::dfs_iter", [], tree.dfs_iter().collect::<Vec<_>>());
    ask!(log, "BpTree::dfs_post_iter", [], tree.dfs_post_iter().collect::<Vec<_>>());
    walk_on(log, "BpTree::dfs_iter", random, || tree.dfs_iter());
    walk_on(log, "BpTree::dfs_post_iter", random, || tree.dfs_post_iter());
    walk(log, "BpTree::into_iter", random, opens.len(), || tree.clone().into_iter());
    for _ in 0..if opens.is_empty() { 0 } else { 8 } {
        let node = random.of(opens);
        ask!(log, "BpTree::subtree_iter", [node], tree.subtree_iter(node).collect::<Vec<_>>());
        ask!(log, "BpTree::subtree_post_iter", [node], tree.subtree_post_iter(node).collect::<Vec<_>>());
        ask!(log, "BpTree::children", [node], tree.children(node).collect::<Vec<_>>());
        ask!(log, "BpTree::rev_children", [node], tree.rev_children(node).collect::<Vec<_>>());
    }
}

/// Searches in parentheses that need not be balanced, and queries of what opens there.
pub fn unbalanced(log: &mut Log, random: &mut Random) {
    let len = random.length().min(2500);
    let list = bits(random, len);
    log.len = len;
    let tree: BpTree = BpTree::from_bit_vector(list.clone());
    let opens: Vec<usize> = (0..len).filter(|at| list.get(*at) == Some(1)).collect();
    for _ in 0..200 {
        ask_search(log, random, &tree, len);
        if !opens.is_empty() {
            let (node, other) = (random.of(&opens), random.of(&opens));
            ask_node(log, random, &tree, node, other);
        }
    }
}
