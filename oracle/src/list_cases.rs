//! Cases of request E9: entries whose ranges come from lists. Those by hand come first, then those by seed: inputs as other generated cases have them, in
//! which ranges of entries are put into lists, of every kind and of both sizes; lists at the edges of the addresses; damaged sections; fields 1f where none
//! may stand.

use crate::case::Case;
use crate::compose::*;
use crate::generate::{self, joined, split};
use crate::list_shown;
use crate::lists::{Builder, edge_entry, largest};
use crate::program_cases::{ask, half};
use crate::random::Random;
use crate::whole_cases::{fit, rich};

const LAST: u64 = u64::MAX;
/// The first of the numbers by which these cases are drawn, so that no other kind of case is drawn by them.
const FIRST: u64 = 1 << 36;
/// Where field 10 has the version, and the fields of an entry.
const VERSION: usize = 16;
const UNIT: u8 = 0x10;
const ENTRY: u8 = 0x17;
const RANGE: u8 = 0x19;
const FAILURE: u8 = 0x1a;
const LIST: u8 = 0x1f;

/// Those of a seed, without end.
pub fn cases(seed: u64) -> impl Iterator<Item = Case> {
    let by_hand = list_shown::cases().into_iter().map(|(_, case, _)| case);
    by_hand.chain((0..).map(move |number| case(seed, number)))
}

fn case(seed: u64, number: u64) -> Case {
    let mut random = Random::new(seed, FIRST + number);
    let random = &mut random;
    let kind = random.below(20);
    let mut case = match kind {
        0..4 => rich(random, generate::lines),
        4..6 => rich(random, half),
        6..12 => generate::sound_with(random, generate::lines),
        _ => edge(random),
    };
    if kind < 12 {
        put_into_lists(random, &mut case);
    }
    match kind {
        5 | 11 => generate::damage(random, &mut case),
        3 | 10 | 19 => misplace(random, &mut case),
        2 | 8 | 9 | 17 | 18 => cut(random, &mut case),
        _ => {}
    }
    ask(random, &mut case, kind < 6);
    fit(random, &mut case);
    case
}

// ---- the ranges of entries put into lists

fn put_into_lists(random: &mut Random, case: &mut Case) {
    let mut builder = Builder::default();
    for input in [&mut case.main, &mut case.supplementary] {
        let mut fields = Vec::new();
        for unit in units(&split(input)) {
            fields.extend(listed(random, unit, &mut builder));
        }
        *input = joined(&fields);
    }
    (case.lists, case.addresses) = (builder.lists, builder.addresses);
}

type Field = (u8, Vec<u8>);

/// The fields of each unit, its 10 first.
fn units(fields: &[Field]) -> Vec<Vec<Field>> {
    let mut units: Vec<Vec<Field>> = Vec::new();
    for field in fields {
        match units.last_mut() {
            Some(unit) if field.0 != UNIT => unit.push(field.clone()),
            _ => units.push(vec![field.clone()]),
        }
    }
    units
}

/// A unit, most often of version 5, most of whose ranges are in lists.
fn listed(random: &mut Random, mut unit: Vec<Field>, builder: &mut Builder) -> Vec<Field> {
    if random.chance(85) && unit[0].1.len() > VERSION {
        unit[0].1[VERSION] = 5;
    }
    let is_new = unit[0].1.get(VERSION) == Some(&5) || random.chance(3);
    let number = |payload: &[u8], at: usize| payload.get(at..at + 8).map_or(0, |bytes| u64::from_le_bytes(bytes.try_into().unwrap()));
    let range = |payload: &[u8]| (number(payload, 0), number(payload, 8), payload.get(16) == Some(&1));
    let is_wide = unit.iter().any(|field| field.0 == RANGE && range(&field.1).0.max(range(&field.1).1) > u64::from(u32::MAX));
    builder.begin(random, is_wide);
    let (mut fields, mut at) = (Vec::new(), 0);
    while at < unit.len() {
        let end = (at + 1..unit.len()).find(|&end| unit[end].0 == ENTRY).unwrap_or(unit.len());
        let entry = &unit[at..end];
        let (own, rest) = entry.split_at(entry.iter().position(|field| matches!(field.0, RANGE | FAILURE)).unwrap_or(entry.len()));
        fields.extend_from_slice(own);
        if own[0].0 == ENTRY && is_new && random.chance(if rest.is_empty() { 12 } else { 75 }) {
            let ranges: Vec<(u64, u64, bool)> = rest.iter().filter(|field| field.0 == RANGE).map(|field| range(&field.1)).collect();
            let faulty = rest.last().is_some_and(|field| field.0 == FAILURE) || random.chance(3);
            let offset = builder.list(random, &ranges, faulty);
            fields.push(builder.field(random, offset));
        } else {
            fields.extend_from_slice(rest);
        }
        at = end;
    }
    fields
}

// ---- lists at the edges of the addresses

/// One unit with text at both ends of the addresses: a subprogram and an inlined entry below it with lists, and another such pair over a range field.
fn edge(random: &mut Random) -> Case {
    let size = random.pick(&[4, 8]);
    let largest = largest(size);
    let base = random.pick(&[0, 0x1000, 0x1000, 0x1000, largest, largest - 1, largest - 8, largest.wrapping_add(1), LAST]);
    let mut builder = Builder::with(random, size, base, &[0x1000, 0x1010, 0x2000, largest, largest - 1, largest - 8, 0]);
    let lists = [(); 4].map(|()| {
        let offset = builder.lists.len() as u64;
        for _ in 0..random.pick(&[1, 1, 2, 3, 5]) {
            let entry = edge_entry(random, size);
            builder.lists.extend(entry);
        }
        if random.chance(90) {
            builder.lists.push(0);
        }
        offset
    });
    let mut main = Fields::default();
    main.unit(0, 100, 5, random.pick(&[4, 8])).text(0x1000, 0x3000).text(largest - 0x1000, largest.saturating_add(random.pick(&[0, 0, 1])));
    main.entry(0, 0, COMPILE_UNIT);
    for (number, offset) in lists.into_iter().enumerate() {
        let (place, depth) = (10 * (number as u64 + 1), 1 + number as u16 % 2);
        main.entry(place, depth, if depth == 1 { SUBPROGRAM } else { random.pick(&[INLINED, INLINED, INLINED, BLOCK]) });
        if random.chance(92) {
            main.string(NAME, random.pick(&[b"dim".as_slice(), b"fade"]));
        }
        if number == 2 {
            main.range(0x1000, 0x2000, 0);
        } else {
            main.0.extend(joined(&[builder.field(random, offset)]));
        }
    }
    let mut case = Case::new(main.take(), Vec::new(), Vec::new());
    (case.lists, case.addresses) = (builder.lists, builder.addresses);
    case.inlines = random.chance(90);
    case
}

// ---- damage

/// Cuts or spoils one of the two slices.
fn cut(random: &mut Random, case: &mut Case) {
    let bytes = if random.chance(70) { &mut case.lists } else { &mut case.addresses };
    if bytes.is_empty() {
        return;
    }
    let near = bytes.len() - 1 - random.below(bytes.len().min(12) as u64) as usize;
    let place = random.place(bytes);
    match random.below(6) {
        0..3 => bytes.truncate(near),
        3 => bytes.clear(),
        4 => bytes[place] = random.pick(&[0, 1, 2, 3, 4, 5, 6, 7, 8, 0x80, 0xff]),
        _ => bytes[near] = random.next() as u8,
    }
}

/// Fields 1f that are out of place or misshapen.
fn misplace(random: &mut Random, case: &mut Case) {
    let there = !case.supplementary.is_empty() && random.chance(40);
    let input = if there { &mut case.supplementary } else { &mut case.main };
    let mut fields = split(input);
    let lists: Vec<usize> = (0..fields.len()).filter(|&place| fields[place].0 == LIST).collect();
    let Some(_) = lists.first() else { return };
    let place = random.pick(&lists);
    let range = (RANGE, [[0; 16].as_slice(), &[0]].concat());
    let failure = (FAILURE, vec![1, b'x']);
    match random.below(14) {
        0 => fields.insert(place, fields[place].clone()),
        1 if place + 1 < fields.len() => fields.swap(place, place + 1),
        2 => fields.insert(random.place(&fields), fields[place].clone()),
        3 => _ = fields[place].1.pop(),
        4 => fields[place].1.push(0),
        5 => fields[place].1[24] = random.pick(&[0, 1, 2, 5, 16]),
        6..9 => {
            let unit = (0..place).rev().find(|&before| fields[before].0 == UNIT).unwrap_or(0);
            if let Some(version) = fields[unit].1.get_mut(VERSION) {
                *version = random.pick(&[2, 3, 4, 4]);
            }
        }
        9 => fields.insert(place, range),
        10 => fields.insert(place + 1, range),
        11 => fields.insert(place, failure),
        12 => fields.insert(place + 1, failure),
        _ => fields[place].1[..8].copy_from_slice(&LAST.to_le_bytes()),
    }
    *input = joined(&fields);
}
