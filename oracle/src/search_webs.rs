//! Cases of the searches by seed: references over one or two inputs, with names and declarations here and there.

use crate::calls::searches::{Asked, Call, Query};
use crate::compose::*;
use crate::random::Random;

const LAST: u64 = u64::MAX;

/// How often odd things stand in a case, whether its units are full, and whether it is a web: references everywhere, into the supplementary input,
/// on in it by both kinds that it follows, and next to nothing that ends a search.
struct Style {
    odd: u64,
    dense: bool,
    web: bool,
}

/// Units: offset, length, and the offsets of entries.
type Units = Vec<(u64, u64, Vec<u64>)>;

pub fn call(random: &mut Random) -> Call {
    let style = Style { odd: random.pick(&[0, 0, 2, 12]), dense: random.chance(30), web: random.chance(40) };
    let supplementary = if random.chance(60) { offsets(random, style.dense) } else { Vec::new() };
    let main = offsets(random, style.dense);
    let both = [&main, &supplementary];
    let [main_bytes, supplementary_bytes] = [0, 1].map(|input| written(random, &style, input, both));
    let known: Vec<u64> = main.iter().flat_map(|(base, _, entries)| entries.iter().map(move |entry| base + entry)).collect();
    let queries = (0..random.between(1, 6))
        .map(|_| {
            let other = random.below(60);
            let offset = if known.is_empty() || random.chance(3) { other } else { random.pick(&known) };
            Query { asked: random.pick(&[Asked::Name, Asked::ReferenceName, Asked::Declaration]), offset }
        })
        .collect();
    Call { main: main_bytes, supplementary: supplementary_bytes, queries }
}

/// Small offsets, so that those of the two inputs meet.
fn offsets(random: &mut Random, dense: bool) -> Units {
    let mut base = random.pick(&[0, 0, 0, 3]);
    let mut units = Vec::new();
    for _ in 0..random.pick(&[1, 1, 2, 3]) {
        let mut entries = Vec::new();
        let mut offset = random.pick(&[0, 1, 1]);
        for _ in 0..random.between(1, if dense { 14 } else { 7 }) {
            entries.push(offset);
            offset += random.pick(&[1, 1, 1, 2]);
        }
        let length = offset + random.pick(&[0, 1, 4]);
        units.push((base, length, entries));
        base += length + random.pick(&[0, 0, 3]);
    }
    units
}

fn written(random: &mut Random, style: &Style, input: usize, both: [&Units; 2]) -> Vec<u8> {
    let mut fields = Fields::default();
    for unit in both[input] {
        fields.unit(unit.0, unit.1, 4, 4);
        if random.chance(80) {
            header(random, style, &mut fields);
        }
        for (number, offset) in unit.2.iter().enumerate() {
            fields.entry(*offset, u16::from(number > 0), SUBPROGRAM);
            let mut attributes = references(random, style, unit, input, both);
            if random.chance(rare(style, 15)) {
                attributes.push(name(random, style));
            }
            if random.chance(rare(style, 40)) {
                attributes.push(declaration(random));
            }
            random.shuffle(&mut attributes);
            attributes.iter().for_each(|one| fields.0.extend(&one.0));
        }
    }
    fields.take()
}

/// How often something that ends a search stands at an entry.
fn rare(style: &Style, chance: u64) -> u64 {
    match style {
        Style { web: true, .. } => 3,
        Style { dense: true, .. } => 6,
        _ => chance,
    }
}

/// A line header and its files, one of which may have failed: a declaration search that reaches the unit by a section offset is then refused.
fn header(random: &mut Random, style: &Style, fields: &mut Fields) {
    fields.header(0, 0, random.pick(&[4, 5]), 4, 13, &OPCODE_LENGTHS);
    for _ in 0..random.between(1, 3) {
        fields.file(u8::from(random.chance(style.odd)), 0, random.pick(&[b"".as_slice(), b"a.c", b"/b.c", b"/src/c.c"]));
    }
}

fn name(random: &mut Random, style: &Style) -> Fields {
    let mut one = Fields::default();
    let name = random.pick(&[NAME, NAME, LINKAGE_NAME, MIPS_LINKAGE_NAME]);
    if random.chance(5 + style.odd) {
        one.attribute(name, random.pick(&[UNSIGNED, FAILED, UNIT_REF]), 1);
    } else {
        one.string(name, random.pick(&[b"".as_slice(), b"a", b"b", b"c", b"d", b"\xc3 |"]));
    }
    one
}

/// A file and a line, either of which may be a bad one.
fn declaration(random: &mut Random) -> Fields {
    let mut one = Fields::default();
    one.attribute(DECL_FILE, random.pick(&[UNSIGNED, UNSIGNED, FILE_NUMBER, ADDRESS]), random.below(4));
    one.attribute(DECL_LINE, UNSIGNED, random.pick(&[7, 8, u64::from(u32::MAX), 1 << 32]));
    one
}

fn references(random: &mut Random, style: &Style, unit: &(u64, u64, Vec<u64>), input: usize, both: [&Units; 2]) -> Vec<Fields> {
    let mut attributes = Vec::new();
    for (name, chance) in [(ORIGIN, 75), (SPECIFICATION, 65), (CALL_ORIGIN, 50), (ORIGIN, 5)] {
        if random.chance(if style.web { chance + 20 } else { chance }) {
            let (kind, value) = reference(random, style, unit, input, both);
            let mut one = Fields::default();
            one.attribute(name, kind, value);
            attributes.push(one);
        }
    }
    attributes
}

/// The kind and the value of a reference, most often to an entry.
fn reference(
    random: &mut Random,
    style: &Style,
    (base, length, entries): &(u64, u64, Vec<u64>),
    input: usize,
    both: [&Units; 2],
) -> (u8, u64) {
    let kind = random.pick(&[UNIT_REF, UNIT_REF, SECTION_REF, SECTION_REF, SUPPLEMENTARY_REF]);
    if random.chance(style.odd) {
        let value = random.pick(&[0, *length, length + 1, 25, LAST, LAST, LAST, LAST - base]);
        return (random.pick(&[kind, kind, UNSIGNED, FAILED]), value);
    }
    if kind == UNIT_REF {
        return (kind, random.pick(entries));
    }
    // Of either input: a section reference of the supplementary one may lead nowhere there. In a web both kinds lead to where they look.
    let right = if kind == SUPPLEMENTARY_REF { 1 } else { input };
    let other = usize::from(random.chance(if kind == SUPPLEMENTARY_REF { 90 } else { 30 }));
    let units = both[if style.web { right } else { other }];
    if units.is_empty() {
        return (kind, random.below(30));
    }
    let (base, _, entries) = &units[random.place(units)];
    (kind, base + random.pick(entries))
}
