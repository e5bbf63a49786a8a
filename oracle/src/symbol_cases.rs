//! Generated joins of symbols to records trays (document 02, E13).

use crate::random::Random;
use crate::symbols::{FUNCTION, Join, NODE, RANGE, ROW, ROW_SIZE, SITE, SYMBOL, field};

const LAST: u64 = u64::MAX;
/// The first of the numbers by which long joins are drawn.
const LONG: u64 = 1 << 32;

/// Joins of a seed, without end: each with results around the length that it needs.
pub fn joins(seed: u64) -> impl Iterator<Item = Join> {
    (0..).flat_map(move |number| {
        let random = &mut Random::new(seed, number);
        let (records, symbols) = (records(random), list(random));
        let whole = Join { records, symbols, room: usize::MAX };
        let needed = whole.answer().1.len();
        let rooms = [needed, needed.saturating_sub(1), needed + 7, whole.records.len().saturating_sub(1), random.below(60) as usize];
        rooms.map(|room| Join { room, ..whole.clone() })
    })
}

/// A few joins of long lists in no order, so that more symbols wait to be merged than may wait.
pub fn long(seed: u64) -> impl Iterator<Item = Join> {
    (0..3).map(move |number| {
        let random = &mut Random::new(seed, LONG + number);
        let mut field = |tag: u8, sized: bool| {
            let (start, size) = (random.below(1 << 17), random.between(1, 40));
            let second = if sized { size } else { start + size };
            field(tag, &[&start.to_le_bytes(), &second.to_le_bytes(), b"strobe"])
        };
        let records: Vec<u8> = (0..500).flat_map(|_| field(FUNCTION, false)).collect();
        let symbols: Vec<u8> = (0..6_000).flat_map(|_| field(SYMBOL, true)).collect();
        let room = records.len() + symbols.len();
        Join { records, symbols, room }
    })
}

/// Addresses that meet often, and now and then the first and the last ones.
fn address(random: &mut Random) -> u64 {
    if random.chance(6) { random.pick(&[0, 1, LAST - 2, LAST - 1, LAST]) } else { 0x1000 + 2 * random.below(48) }
}

fn name(random: &mut Random) -> &'static [u8] {
    random.pick(&[&b""[..], b"dim", b"fade", b"strobe_on", b"cue", b"\xff\x00"])
}

fn pair(random: &mut Random) -> [u8; 16] {
    let start = address(random);
    let end = start.saturating_add(random.pick(&[1, 1, 2, 4, 8, 16, 40]));
    // Few are in no order, none ends at its start.
    let (start, end) = if start == end { (start - 1, end) } else { (start, end) };
    let (low, high) = if random.below(400) == 0 { (end, start) } else { (start, end) };
    [low.to_le_bytes(), high.to_le_bytes()].as_flattened().try_into().expect("16 bytes")
}

/// A tray, mostly in form: some have a byte changed, a field left out, or their end cut off.
fn records(random: &mut Random) -> Vec<u8> {
    let most = random.pick(&[0, 1, 3, 6, 12]);
    let mut parts: Vec<Vec<u8>> = (0..random.between(most / 2, most)).flat_map(|_| function(random)).collect();
    if random.chance(8) && !parts.is_empty() {
        let place = random.place(&parts);
        if random.chance(50) {
            parts.remove(place);
        } else {
            let moved = parts.remove(place);
            parts.insert(random.below(parts.len() as u64 + 1) as usize, moved);
        }
    }
    let mut bytes = parts.concat();
    if random.chance(6) && !bytes.is_empty() {
        let place = random.place(&bytes);
        bytes[place] = random.pick(&[0, 1, 0x41, 0x43, 0x44, 0xff]);
    }
    if random.chance(4) {
        bytes.truncate(random.below(bytes.len() as u64 + 1) as usize);
    }
    bytes
}

/// A function's fields in their order.
fn function(random: &mut Random) -> Vec<Vec<u8>> {
    let mut parts = vec![field(FUNCTION, &[&pair(random), name(random)])];
    for _ in 0..random.below(3) {
        let row = [address(random), random.next(), random.next()].map(u64::to_le_bytes).concat();
        parts.push(field(ROW, &[&row[..ROW_SIZE]]));
    }
    let mut depth = 0;
    for number in 0..random.pick(&[0, 0, 0, 1, 3]) {
        depth = if number == 0 { 0 } else { random.between(1, depth + 1) };
        parts.push(field(NODE, &[&(depth as u16).to_le_bytes(), &random.next().to_le_bytes(), name(random)]));
        for _ in 0..random.between(1, 2) {
            parts.push(field(RANGE, &[&pair(random)]));
        }
    }
    for _ in 0..random.pick(&[0, 0, 1, 2]) {
        parts.push(field(SITE, &[&random.next().to_le_bytes(), &[random.below(3) as u8], name(random)]));
    }
    parts
}

/// A list, in the order of its addresses or in none; some have a symbol that ends past the last address, another tag, a short payload, a cut end.
fn list(random: &mut Random) -> Vec<u8> {
    let most = random.pick(&[0, 1, 4, 8, 20]);
    let mut found: Vec<(u64, u64, &[u8])> = (0..random.between(most / 2, most)).map(|_| symbol(random)).collect();
    if random.chance(50) {
        found.sort_by_key(|symbol| symbol.0);
    }
    let mut parts: Vec<Vec<u8>> =
        found.iter().map(|(start, size, name)| field(SYMBOL, &[&start.to_le_bytes(), &size.to_le_bytes(), name])).collect();
    if random.chance(12) && !parts.is_empty() {
        let place = random.place(&parts);
        parts[place] = match random.below(4) {
            0 => field(SYMBOL, &[&LAST.to_le_bytes(), &1u64.to_le_bytes(), name(random)]),
            1 => field(FUNCTION, &[&pair(random), name(random)]),
            2 => field(SYMBOL, &[&pair(random)[..15]]),
            _ => parts[place][..random.place(&parts[place])].to_vec(),
        };
    }
    parts.concat()
}

/// One that ends at the last address, but seldom behind it.
fn symbol(random: &mut Random) -> (u64, u64, &'static [u8]) {
    let start = address(random);
    let size = random.pick(&[0, 1, 2, 4, 4, 8, 16, 64]);
    let size = if random.below(300) == 0 { size } else { size.min(LAST - start) };
    (start, size, name(random))
}

#[cfg(test)]
mod tests {
    use super::*;

    /// Each answer, and joins of none, one and several symbols.
    #[test]
    fn every_answer_is_reached() {
        let answers: Vec<(Join, (u8, Vec<u8>))> = joins(1).take(4000).map(|join| (join.clone(), join.answer())).collect();
        for refusal in [0, 19, 26, 27] {
            assert!(answers.iter().filter(|(_, answer)| answer.0 == refusal).count() > 100, "{refusal}");
        }
        let added = |(join, answer): &(Join, (u8, Vec<u8>))| (answer.0 == 0).then(|| answer.1.len() - join.records.len());
        assert!(answers.iter().filter(|each| added(each) == Some(0)).count() > 100);
        assert!(answers.iter().filter(|each| added(each) > Some(100)).count() > 100);
        assert!(answers.iter().any(|(join, _)| join.records.len() > 1000));
    }
}
