//! Request E10, of the Rust's own coalesce_ranges: lists that were merged before, merged again. Thousands of lists, by seed 1.

use crate::AddressRange;
use crate::convert::dwarf::merged;
use crate::random::Random;

const LISTS: u64 = 20_000;

fn range(start: u64, end: u64) -> AddressRange {
    AddressRange::new(start, end)
}

/// A few nonempty ranges among few addresses, so that they overlap, touch and repeat; now and then at the largest address.
fn ranges(random: &mut Random) -> Vec<AddressRange> {
    let base = if random.chance(10) { u64::MAX - 40 } else { 0 };
    let count = random.below(9);
    (0..count)
        .map(|_| {
            let start = random.below(32);
            range(base + start, base + start + 1 + random.below(8))
        })
        .collect()
}

fn shuffled(random: &mut Random, list: &[AddressRange]) -> Vec<AddressRange> {
    let mut list = list.to_vec();
    random.shuffle(&mut list);
    list
}

fn joined(first: &[AddressRange], second: &[AddressRange]) -> Vec<AddressRange> {
    [first, second].concat()
}

/// Merged by hand, address by address: what the law's merged lists have to be.
fn by_addresses(list: &[AddressRange]) -> Vec<AddressRange> {
    let mut addresses: Vec<u64> = list.iter().flat_map(|range| range.start..range.end).collect();
    addresses.sort_unstable();
    addresses.dedup();
    let mut out: Vec<AddressRange> = Vec::new();
    for address in addresses {
        match out.last_mut() {
            Some(last) if last.end == address => last.end += 1,
            _ => out.push(range(address, address + 1)),
        }
    }
    out
}

#[test]
fn merging_lists_that_were_merged_before() {
    let mut changed = 0;
    for list in 0..LISTS {
        let random = &mut Random::new(1, list);
        let (first, second) = (ranges(random), ranges(random));
        let (once, other) = (merged(&first), merged(&second));
        let both = merged(&joined(&first, &second));
        assert_eq!(once, by_addresses(&first), "list {list}");
        assert_eq!(merged(&once), once, "list {list}: merging a merged list changes it");
        assert_eq!(merged(&shuffled(random, &first)), once, "list {list}: the order counts");
        assert_eq!(merged(&joined(&once, &second)), both, "list {list}: a merged list before another");
        assert_eq!(merged(&joined(&first, &other)), both, "list {list}: a merged list behind another");
        assert_eq!(merged(&joined(&once, &other)), both, "list {list}: two merged lists");
        assert_eq!(merged(&joined(&second, &first)), both, "list {list}: joined the other way round");
        changed += u64::from(both.len() < once.len() + other.len());
    }
    // Joining has something to do in most of them.
    assert!(changed > LISTS / 2, "only {changed} of {LISTS} joined lists merge across");
}
