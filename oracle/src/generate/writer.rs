//! The fields of a unit: its lines, its entries, their attributes and references.

use super::LAST;
use super::lines::{Lines, directory};
use super::units::{Entry, Unit};
use crate::compose::*;
use crate::random::Random;

pub struct Writer<'w> {
    pub random: &'w mut Random,
    pub odd: u64,
    pub own: &'w [Unit],
    pub supplementary: &'w [Unit],
    pub unit: &'w Unit,
}

impl Writer<'_> {
    pub fn write(&mut self, fields: &mut Fields, lines: &Lines) {
        let (random, odd) = (&mut *self.random, self.odd);
        fields.unit(self.unit.offset, self.unit.length, random.between(2, 5) as u8, random.pick(&[4, 8]));
        if random.chance(70) {
            fields.compilation_directory(directory(random));
        }
        for _ in 0..random.pick(&[1, 1, 1, 1, 1, 2, 2, 0]) {
            let end = if random.chance(8) { random.pick(&[0x1018, 0x1000, 1 << 33, 0x3010]) } else { 0x2000 };
            fields.text(random.pick(&[0x1000, 0x1000, 0x1000, 0x1000, 0x1000, 0x1000, 0]), end);
        }
        fields.0.extend(&lines.fields.0);
        for entry in &self.unit.entries {
            fields.entry(entry.offset, entry.depth, entry.tag);
            let mut attributes = self.attributes(entry, lines);
            let random = &mut *self.random;
            random.shuffle(&mut attributes);
            attributes.iter().for_each(|attribute| fields.0.extend(&attribute.0));
            entry.ranges.iter().for_each(|&(start, end)| _ = fields.range(start, end, u8::from(random.chance(6 + odd))));
            if random.chance(1 + odd) {
                let stage = if entry.ranges.is_empty() { random.below(2) as u8 } else { 1 };
                fields.failure(stage, random.pick(&[b"bad list".as_slice(), b"", b"\xff\x00\x80 off the end", b"no address"]));
            }
        }
    }

    fn attributes(&mut self, entry: &Entry, lines: &Lines) -> Vec<Fields> {
        let mut attributes: Vec<Fields> = Vec::new();
        let mut number = |name: u16, (kind, value): (u8, u64)| {
            let mut fields = Fields::default();
            fields.attribute(name, kind, value);
            attributes.push(fields);
        };
        for (name, chance) in [(ORIGIN, 40), (SPECIFICATION, 25), (CALL_ORIGIN, if entry.tag == CALL_SITE { 75 } else { 0 })] {
            if self.random.chance(chance) {
                number(name, self.reference());
            }
        }
        let (random, odd) = (&mut *self.random, self.odd);
        let (file, line) = if entry.tag == INLINED { (CALL_FILE, CALL_LINE) } else { (DECL_FILE, DECL_LINE) };
        if random.chance(60) {
            let known = lines.first_file + random.below(lines.files.max(1));
            number(file, (random.pick(&[1, 2, 2]), if random.chance(5 + odd) { random.pick(&[0, 5, 9, LAST]) } else { known }));
            let past = random.pick(&[1 << 32, LAST, u64::from(u32::MAX)]);
            number(line, (UNSIGNED, if random.chance(5 + odd) { past } else { random.below(30) }));
            // A declaration's column, which nothing reads.
            if line == DECL_LINE && random.chance(30) {
                number(DECL_COLUMN, (UNSIGNED, random.between(1, 99)));
            }
        }
        if random.chance(odd) {
            let name = random.pick(&[file, line, ORIGIN, STATEMENT_SEQUENCE]);
            number(name, (random.pick(&[FAILED, ADDRESS, SECTION_OFFSET]), random.below(60)));
        }
        if entry.tag == SUBPROGRAM && random.chance(35) {
            let known = !lines.sequences.is_empty() && random.chance(80);
            let value = if known { random.pick(&lines.sequences) } else { random.pick(&[45, 50, u64::from(u32::MAX), LAST]) };
            number(STATEMENT_SEQUENCE, (random.pick(&[1, 7, 8]), value));
        }
        if entry.tag == CALL_SITE {
            let kind = if random.chance(odd) { random.pick(&[UNSIGNED, FAILED]) } else { ADDRESS };
            number(RETURN_PC, (kind, random.pick(&[0x1000, 0x1004, 0x1010, 0x101c, 0x1020, 0x1028, 0x2000])));
        }
        if random.chance(odd / 2) {
            number(random.pick(&[NAME, LINKAGE_NAME]), (random.pick(&[FAILED, UNSIGNED, ADDRESS]), 3));
        }
        for _ in 0..random.pick(&[0, 1, 1, 1, 1, 2]) {
            let mut name = Fields::default();
            let text = random.pick(&[b"".as_slice(), b"dim", b"fade", b"zoom", b"x::y", b"_Z3dimv", b"\xc3\x28", b"a b"]);
            name.string(random.pick(&[NAME, NAME, NAME, LINKAGE_NAME, MIPS_LINKAGE_NAME]), text);
            attributes.push(name);
        }
        attributes
    }

    /// The kind and the value of a reference, most often to an entry.
    fn reference(&mut self) -> (u8, u64) {
        let random = &mut *self.random;
        let kind = random.pick(&[UNIT_REF, UNIT_REF, UNIT_REF, SECTION_REF, SECTION_REF, SUPPLEMENTARY_REF, SUPPLEMENTARY_REF]);
        let units = if kind == SUPPLEMENTARY_REF && !self.supplementary.is_empty() { self.supplementary } else { self.own };
        let unit = if kind == UNIT_REF { self.unit } else { &units[random.place(units)] };
        let base = if kind == UNIT_REF { 0 } else { unit.offset };
        let value = base + if unit.entries.is_empty() { 0 } else { unit.entries[random.place(&unit.entries)].offset };
        if random.chance(self.odd) {
            let value = random.pick(&[value, value.wrapping_add(1), 1_000_000, LAST, self.unit.length, self.unit.offset]);
            return (random.pick(&[kind, kind, UNSIGNED, FAILED]), value);
        }
        (kind, value)
    }
}
