//! Writes range lists and their addresses: the Standard's 2.17.3, entries chosen by seed.

use crate::programs::unsigned;
use crate::random::Random;
use crate::rnglists::{BASE_ADDRESS, BASE_ADDRESSX, END_OF_LIST, OFFSET_PAIR, START_END, START_LENGTH, STARTX_ENDX, STARTX_LENGTH};

const LAST: u64 = u64::MAX;
const LIST: u8 = 0x1f;

/// The largest address of so many bytes.
pub fn largest(size: u8) -> u64 {
    LAST >> (64 - 8 * u32::from(size))
}

/// The two slices as they grow, and what field 1f says of the unit under way.
#[derive(Default)]
pub struct Builder {
    pub lists: Vec<u8>,
    pub addresses: Vec<u8>,
    size: u8,
    base: u64,
    place: u64,
    /// Where entries of lists begin.
    entries: Vec<u64>,
}

impl Builder {
    /// A table of these addresses, at times at an odd place or past it.
    pub fn with(random: &mut Random, size: u8, base: u64, addresses: &[u64]) -> Self {
        let before = random.pick(&[0, 0, 0, 1, 5]);
        let mut builder = Self { addresses: vec![0xa5; before], size, base, place: before as u64, ..Self::default() };
        addresses.iter().for_each(|&value| builder.put_address(value));
        if random.chance(5) {
            builder.place = random.pick(&[1, builder.addresses.len() as u64, LAST]);
        }
        builder
    }

    /// A next unit, whose addresses stand behind those of the last.
    pub fn begin(&mut self, random: &mut Random, is_wide: bool) {
        self.size = if is_wide { 8 } else { random.pick(&[4, 8]) };
        self.base = random.pick(&[0, 0x1000, 0x1000, 0x1004, 0x1010, largest(self.size)]);
        self.addresses.extend([0x5a, 0, 0xa5, 1, 2].iter().take(random.pick(&[0, 0, 0, 1, 5])));
        self.place = self.addresses.len() as u64;
    }

    /// Field 1f of an entry whose list begins there.
    pub fn field(&self, random: &mut Random, offset: u64) -> (u8, Vec<u8>) {
        let end = self.lists.len() as u64;
        let offset = if random.chance(2) { random.pick(&[end, end + 1, LAST, 0]) } else { offset };
        (LIST, [offset.to_le_bytes().as_slice(), &self.base.to_le_bytes(), &self.place.to_le_bytes(), &[self.size]].concat())
    }

    fn put_address(&mut self, value: u64) {
        self.addresses.extend(&value.to_le_bytes()[..usize::from(self.size)]);
    }

    fn count(&self) -> u64 {
        (self.addresses.len() as u64).saturating_sub(self.place) / u64::from(self.size)
    }

    /// The index of an address of the unit, of one that is there or of a new one.
    fn index(&mut self, random: &mut Random, value: u64) -> u64 {
        let size = usize::from(self.size);
        let own = &self.addresses[self.place as usize..];
        let there = own.chunks_exact(size).position(|bytes| bytes == &value.to_le_bytes()[..size]);
        if let Some(place) = there.filter(|_| random.chance(70)) {
            return place as u64;
        }
        self.put_address(value);
        self.count() - 1
    }

    fn operand(&mut self, random: &mut Random, value: u64) {
        let bytes = unsigned(value, random.pick(&[1, 1, 1, 1, 2, 10]));
        self.lists.extend(bytes);
    }

    fn address(&mut self, value: u64) {
        self.lists.extend(&value.to_le_bytes()[..usize::from(self.size)]);
    }

    /// Writes a list of these ranges and gives its offset; at times one that runs into the next, or the rest of one that is there.
    pub fn list(&mut self, random: &mut Random, ranges: &[(u64, u64, bool)], faulty: bool) -> u64 {
        if random.chance(6) && !self.entries.is_empty() {
            return random.pick(&self.entries);
        }
        let (offset, mut base) = (self.lists.len() as u64, self.base);
        for &(start, end, dead) in ranges {
            self.entries.push(self.lists.len() as u64);
            if random.chance(6) {
                self.base_entry(random, start);
                base = start;
            }
            // At times a range that was marked by its flag is dead.
            let start = if dead && random.chance(60) { largest(self.size) } else { start };
            self.range(random, &mut base, start, end);
        }
        if faulty {
            self.entries.push(self.lists.len() as u64);
            self.fault(random);
        }
        if random.chance(97) {
            self.lists.push(END_OF_LIST);
        }
        offset
    }

    fn base_entry(&mut self, random: &mut Random, base: u64) {
        if random.chance(50) {
            self.lists.push(BASE_ADDRESS);
            self.address(base);
        } else {
            let index = self.index(random, base);
            self.lists.push(BASE_ADDRESSX);
            self.operand(random, index);
        }
    }

    fn range(&mut self, random: &mut Random, base: &mut u64, start: u64, end: u64) {
        match random.below(7) {
            0..3 => {
                let least = start.min(end);
                if *base > least || *base == largest(self.size) {
                    *base = random.pick(&[least, least, least - least % 0x10, 0]);
                    self.base_entry(random, *base);
                }
                self.lists.push(OFFSET_PAIR);
                self.operand(random, start - *base);
                self.operand(random, end - *base);
            }
            3 => {
                let [first, second] = [start, end].map(|value| self.index(random, value));
                self.lists.push(STARTX_ENDX);
                self.operand(random, first);
                self.operand(random, second);
            }
            4 if start <= end => {
                let index = self.index(random, start);
                self.lists.push(STARTX_LENGTH);
                self.operand(random, index);
                self.operand(random, end - start);
            }
            5 if start <= end => {
                self.lists.push(START_LENGTH);
                self.address(start);
                self.operand(random, end - start);
            }
            _ => {
                self.lists.push(START_END);
                self.address(start);
                self.address(end);
            }
        }
    }

    /// An entry that the list is refused for, if it is met where it is.
    fn fault(&mut self, random: &mut Random) {
        let count = self.count();
        match random.below(8) {
            0 => self.lists.push(random.pick(&[8, 9, 0x7f, 0xff])),
            1..3 => {
                let kind = random.between(1, 4) as u8;
                self.lists.push(kind);
                if kind != BASE_ADDRESSX && random.chance(40) {
                    self.operand(random, count);
                }
                self.lists.extend([[0x80; 9].as_slice(), &[random.pick(&[2, 0x7f, 0x80, 0x81, 0x82, 0xff])]].concat());
            }
            3..5 => {
                let index = random.pick(&[count, count, count + 1, 1 << 62, LAST]);
                let kind = random.between(1, 3) as u8;
                self.lists.push(kind);
                let [first, second] = if kind == STARTX_ENDX && random.chance(50) { [0, index] } else { [index, 0] };
                self.operand(random, first);
                if kind != BASE_ADDRESSX {
                    self.operand(random, second);
                }
            }
            5 => {
                self.lists.push(START_LENGTH);
                self.address(largest(self.size) - random.pick(&[1, 8]));
                self.operand(random, largest(self.size));
            }
            6 => {
                let near = largest(self.size) - 8;
                self.base_entry(random, near);
                self.lists.push(OFFSET_PAIR);
                let [first, second] = random.pick(&[[9, 9], [0, 9], [7, 9], [8, 10]]);
                self.operand(random, first);
                self.operand(random, second);
            }
            _ => self.lists.push(random.pick(&[BASE_ADDRESS, START_END, START_LENGTH, OFFSET_PAIR])),
        }
    }
}

/// An entry of any kind whose operands are at edges.
pub fn edge_entry(random: &mut Random, size: u8) -> Vec<u8> {
    let largest = largest(size);
    let offset = |random: &mut Random| {
        let value = random.pick(&[0, 0, 1, 7, 8, 9, 0x10, 0x20, largest - 0x1000, largest, LAST]);
        unsigned(value, random.pick(&[1, 1, 1, 10]))
    };
    let index = |random: &mut Random| unsigned(random.pick(&[0, 0, 1, 1, 2, 3, 4, 5, 6, 7, 8, LAST]), random.pick(&[1, 1, 10]));
    let address = |random: &mut Random| {
        let value = random.pick(&[0x1000, 0x1000, 0x1008, 0x1010, 0x2000, largest - 8, largest - 1, largest, 0]);
        value.to_le_bytes()[..usize::from(size)].to_vec()
    };
    let kind = random.pick(&[1, 2, 3, 4, 4, 5, 6, 7, 2, 3, 6, 7, 8]);
    let operands = match kind {
        BASE_ADDRESSX => index(random),
        STARTX_ENDX => [index(random), index(random)].concat(),
        STARTX_LENGTH => [index(random), offset(random)].concat(),
        OFFSET_PAIR => [offset(random), offset(random)].concat(),
        BASE_ADDRESS => address(random),
        START_END => [address(random), address(random)].concat(),
        START_LENGTH => [address(random), offset(random)].concat(),
        // Now and then an unknown kind, else an end.
        _ => return vec![if random.chance(30) { kind } else { END_OF_LIST }],
    };
    [vec![kind], operands].concat()
}
