//! A set of IPv4 ranges as two sorted sequences: which range contains an address, and how many addresses there are.

use std::net::{AddrParseError, Ipv4Addr};
use vers_vecs::EliasFanoVec;

const PRIVATE: [(&str, u32); 3] = [("10.0.0.0", 8), ("172.16.0.0", 12), ("192.168.0.0", 16)];

/// Disjoint ranges in ascending order, each from its first address to its last.
struct Ranges {
    firsts: EliasFanoVec,
    lasts: EliasFanoVec,
}

impl Ranges {
    /// Takes ranges as an address and the number of its leading bits that all addresses of the range share.
    fn new(networks: &[(&str, u32)]) -> Result<Self, AddrParseError> {
        let mut ranges = Vec::new();
        for (address, bits) in networks {
            let first = u64::from(u32::from(address.parse::<Ipv4Addr>()?));
            ranges.push((first, first + (1 << (32 - bits)) - 1));
        }
        ranges.sort_unstable();
        let (firsts, lasts): (Vec<u64>, Vec<u64>) = ranges.into_iter().unzip();
        Ok(Ranges { firsts: EliasFanoVec::from_slice(&firsts), lasts: EliasFanoVec::from_slice(&lasts) })
    }

    /// Returns the first and the last address of the range that contains an address.
    fn range_of(&self, address: Ipv4Addr) -> Option<(Ipv4Addr, Ipv4Addr)> {
        let number = u64::from(u32::from(address));
        let first = self.firsts.predecessor(number)?;
        let last = self.lasts.successor(number)?;
        let is_one_range = self.firsts.rank(first) == self.lasts.rank(last);
        is_one_range.then_some((Ipv4Addr::from(first as u32), Ipv4Addr::from(last as u32)))
    }

    fn addresses(&self) -> u64 {
        self.firsts.iter().zip(self.lasts.iter()).map(|(first, last)| last - first + 1).sum()
    }
}

/// Returns the same by a test of each range.
fn plain_range_of(address: Ipv4Addr) -> Option<(Ipv4Addr, Ipv4Addr)> {
    PRIVATE.into_iter().find_map(|(first, bits)| {
        let (first, rest) = (u32::from(first.parse::<Ipv4Addr>().ok()?), u32::MAX >> bits);
        (u32::from(address) & !rest == first).then(|| (Ipv4Addr::from(first), Ipv4Addr::from(first | rest)))
    })
}

fn main() -> Result<(), AddrParseError> {
    let private = Ranges::new(&PRIVATE)?;
    for number in (0..=u32::MAX).step_by(1 << 16).flat_map(|first| [first.wrapping_sub(1), first]) {
        assert_eq!(private.range_of(number.into()), plain_range_of(number.into()));
    }
    println!("172.20.1.1: {:?}", private.range_of("172.20.1.1".parse()?));
    println!("{} addresses in {} bytes", private.addresses(), private.firsts.heap_size() + private.lasts.heap_size());
    Ok(())
}
