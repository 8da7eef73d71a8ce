//! The data and the queries, the same as in `crates/vers_bench/src/workload.rt`.

/// The generator splitmix64.
pub struct Random {
    state: u64,
}

impl Random {
    pub fn new(seed: u64) -> Self {
        Random { state: seed }
    }

    pub fn step(&mut self) -> u64 {
        self.state = self.state.wrapping_add(0x9E37_79B9_7F4A_7C15);
        let mixed = (self.state ^ (self.state >> 30)).wrapping_mul(0xBF58_476D_1CE4_E5B9);
        let mixed = (mixed ^ (mixed >> 27)).wrapping_mul(0x94D0_49BB_1331_11EB);
        mixed ^ (mixed >> 31)
    }

    /// The next number below `n`, and 0 where `n` is 0.
    pub fn below(&mut self, n: u64) -> u64 {
        self.step().checked_rem(n).unwrap_or(0)
    }

    pub fn many_below(&mut self, count: usize, n: u64) -> Vec<u64> {
        std::iter::repeat_with(|| self.below(n)).take(count).collect()
    }
}

/// The number that represents no answer in a checksum.
pub const NONE: u64 = u64::MAX;

/// The checksum of a series of answers.
pub fn folded(answers: impl Iterator<Item = u64>) -> u64 {
    answers.fold(0, |sum, answer| sum.wrapping_mul(31).wrapping_add(answer))
}

/// The checksum of a walk.
pub fn summed(items: impl Iterator<Item = u64>) -> u64 {
    items.fold(0, u64::wrapping_add)
}

/// The limbs of a list of bits, of which each is a one with a chance of `percent` in 100.
pub fn limbs(count: usize, percent: u64) -> Vec<u64> {
    let mut random = Random::new(1);
    let mut limb = || (0..64).fold(0, |limb, i| limb | u64::from(random.below(100) < percent) << i);
    (0..count).map(|_| limb()).collect()
}

/// Numbers of 64 bits.
pub fn values(count: usize) -> Vec<u64> {
    let mut random = Random::new(5);
    (0..count).map(|_| random.step()).collect()
}

/// The highest `width` bits of numbers of 64.
pub fn symbols(count: usize, width: u16) -> Vec<u64> {
    let mut random = Random::new(4);
    (0..count).map(|_| random.step() >> (64 - width)).collect()
}

/// Ascending members with gaps below 2^20.
pub fn members_uniform(count: usize) -> Vec<u64> {
    let mut random = Random::new(2);
    let steps = (0..count).map(|_| random.below(1 << 20));
    steps
        .scan(0, |value: &mut u64, step| {
            *value += step;
            Some(*value)
        })
        .collect()
}

/// Members with gaps below 2^40, but for a tenth of them in the middle, which lie close together.
pub struct Clustered {
    pub members: Vec<u64>,
    /// What the close ones begin at.
    pub first: u64,
}

/// The members of a list, each given by how far it lies above the one before.
struct Ascending {
    members: Vec<u64>,
    value: u64,
}

impl Ascending {
    fn skip(&mut self, gap: u64) {
        self.value = self.value.wrapping_add(gap);
    }

    fn push(&mut self, gap: u64) {
        self.skip(gap);
        self.members.push(self.value);
    }

    fn push_eight(&mut self) {
        (0..8).for_each(|_| self.push(100));
    }
}

/// `count` members: in their middle eight, then a tenth of all that are equal or 1 to 3 apart, then eight more.
pub fn members_clustered(count: usize, are_equal: bool) -> Clustered {
    let mut random = Random::new(3);
    let close = count / 10;
    let far = count.saturating_sub(close).saturating_sub(16);
    let mut list = Ascending { members: Vec::with_capacity(count + 1), value: 0 };
    let mut first = 0;
    for i in 0..far {
        let gap = random.below(1 << 40);
        if i != far / 2 {
            list.push(gap);
            continue;
        }
        list.skip(gap);
        list.push_eight();
        list.skip(1000);
        first = list.value;
        (0..close).for_each(|_| list.push(if are_equal { 0 } else { 1 + random.below(3) }));
        list.push_eight();
    }
    list.push(random.below(1 << 40));
    list.members.truncate(count);
    Clustered { members: list.members, first }
}

/// The limbs of the parentheses of a random tree, each tree of as many bits as likely as any other: one root, whose
/// nodes are half as many as the bits.
pub fn parentheses(bit_count: usize) -> Vec<u64> {
    let mut random = Random::new(6);
    let mut limbs = vec![0; (bit_count + 63) / 64];
    let mut height = 0;
    limbs[0] = 1;
    for i in 1..bit_count - 1 {
        let left = (bit_count - 1 - i) as u64;
        if random.below(2 * left * (height + 1)) >= height * (left + height + 2) {
            height += 1;
            limbs[i / 64] |= 1 << (i % 64);
        } else {
            height -= 1;
        }
    }
    limbs
}
