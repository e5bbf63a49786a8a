//! What request E9 leaves alone, and the lengths that no run reaches.

use crate::case::Case;
use crate::random::Random;
use crate::{generate, inputs, judged, list_work, measured, program_cases, whole_cases};

const LIST: u8 = 0x1f;

/// Cases without field 1f are judged by the plain Rust, as before: it answers each of them, no list is read, and what the two slices hold makes no difference.
#[test]
fn without_a_list_nothing_is_read() {
    let mut random = Random::new(9, 0);
    for case in
        (0..400).map(|number| generate::case(3, number)).chain(whole_cases::cases(3).take(200)).chain(program_cases::cases(3).take(200))
    {
        let listed = |input: &[u8]| generate::split(input).iter().any(|field| field.0 == LIST);
        assert!(!listed(&case.main) && !listed(&case.supplementary));
        if let Ok((dwarf, _)) = inputs(&case) {
            assert!(dwarf.units.iter().all(|unit| unit.lists == 0 && unit.entries.iter().all(|entry| entry.list.is_none())));
        }
        let lent = (0..random.below(40)).map(|_| random.next() as u8).collect();
        let other = Case { addresses: vec![random.next() as u8; 16], lists: lent, ..case.clone() };
        assert_eq!(judged(&case).expect("the plain Rust answers alike"), judged(&other).expect("here too"));
    }
}

/// "Either slice above 4,194,304 bytes gives 1": before the fields, which are misshapen here.
#[test]
fn long_slices_are_oversize() {
    for (lists, addresses, refusal) in [(4_194_305, 0, 1), (0, 4_194_305, 1), (4_194_304, 4_194_304, 2)] {
        let case = Case { lists: vec![0; lists], addresses: vec![0; addresses], ..Case::new(vec![0x1f], Vec::new(), Vec::new()) };
        assert_eq!(judged(&case).unwrap().refusal, refusal);
    }
}

#[test]
fn at_most_256_lists_are_counted() {
    assert_eq!([0, 1, 255, 256, 257, 65_536].map(|lists| list_work(10, lists)), [0, 80, 20_400, 20_480, 20_480, 20_480]);
    assert_eq!(list_work(0, 256), 0);
    assert_eq!(list_work(4_194_304, 256), 8_589_934_592);
}

/// "A records length past 2^64 − 1 gives 16, in E1's pass too."
#[test]
fn records_past_64_bits_are_16() {
    let last = u128::from(u64::MAX);
    assert_eq!(measured([last, 0, 0]), Ok([u64::MAX, 0, 0]));
    assert_eq!(measured([last + 1, 0, 0]), Err(16));
    assert_eq!(measured([u128::MAX, 0, 0]), Err(16));
    assert_eq!(measured([7, last + 1, last]), Ok([7, u64::MAX, u64::MAX]));
}
