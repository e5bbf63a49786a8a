//! Line programs by seed for request E8, with what their headers say: sound instructions of every opcode under several bases, operands of ten bytes, set
//! address of 0 to 12 bytes, several sequences, odd operand counts; and instructions that refuse them.

use crate::compose::OPCODE_LENGTHS;
use crate::generate::{self, Lines, before_header_end};
use crate::random::Random;

const LAST: u64 = u64::MAX;

/// gcc's encoding, clang's, and others; the fields of 1d in their order.
const ENCODINGS: [[u8; 5]; 12] = [
    [1, 1, 1, 0xf6, 242],
    [1, 1, 1, 0xf6, 242],
    [1, 1, 1, 0xfb, 14],
    [1, 1, 0, 0xfb, 14],
    [4, 1, 1, 0xfb, 14],
    [2, 1, 0, 0xff, 4],
    [1, 1, 1, 0, 1],
    [0, 1, 1, 0xfd, 10],
    [1, 1, 0, 0x80, 255],
    [1, 1, 1, 0x7f, 1],
    [255, 1, 1, 0xfd, 12],
    [1, 1, 1, 1, 3],
];

/// A program with its header's words on it.
pub struct Drawn {
    pub encoding: [u8; 5],
    pub base: u8,
    pub lengths: Vec<u8>,
    pub bytes: Vec<u8>,
    /// Where its sequences begin.
    starts: Vec<u64>,
    /// Where the address register stands, as far as the instructions are sound.
    address: u64,
}

/// The program of a header whose rows name these files.
pub fn drawn(random: &mut Random, odd: u64, files: &[u64]) -> Drawn {
    let base = random.pick(&[13, 13, 13, 13, 10, 9, 0, 1, 15, 15, 255]);
    let mut lengths = OPCODE_LENGTHS.to_vec();
    lengths.extend((13..base).map(|_| random.pick(&[0, 0, 1, 1, 2, 3])));
    if random.chance(20) {
        lengths[..12].iter_mut().for_each(|length| *length = random.pick(&[0, 1, 1, 2]));
    } else if random.chance(20) {
        lengths[random.pick(&[1, 2, 3, 4, 8, 11])] = random.pick(&[0, 2]);
    }
    let all = lengths.len();
    lengths.truncate(random.pick(&[all, all, all, all, all, 12, 9, 3, 0]));
    let mut encoding = random.pick(&ENCODINGS);
    if random.chance(odd / 2) {
        let place = random.pick(&[1, 4]);
        encoding[place] = if place == 4 { 0 } else { random.pick(&[0, 2, 4, 255]) };
    }
    let mut drawn = Drawn { encoding, base, lengths, bytes: Vec::new(), starts: Vec::new(), address: 0 };
    for _ in 0..random.pick(&[0, 1, 1, 1, 2, 2, 3]) {
        drawn.sequence(random, odd, files);
    }
    if random.chance(15) {
        (0..random.between(1, 3)).for_each(|_| drawn.instruction(random, odd, files));
    }
    if random.chance(odd) {
        drawn.fault(random);
        (0..random.below(3)).for_each(|_| drawn.instruction(random, odd, files));
    }
    if random.chance(odd / 3) {
        drawn.damage(random);
    }
    drawn
}

impl Drawn {
    fn sequence(&mut self, random: &mut Random, odd: u64, files: &[u64]) {
        self.starts.push(self.bytes.len() as u64);
        if random.chance(85) {
            let address = random.pick(&[0x1000, 0x1000, 0x1004, 0x1018, 0x1030, 0]);
            self.set_address(random, address);
        }
        if self.base > 4 {
            self.bytes.extend([3, random.pick(&[9, 9, 10, 0x4f])]);
            if let (true, Some(file)) = (random.chance(70), files.first()) {
                self.bytes.push(4);
                self.bytes.extend(unsigned(*file, 1));
            }
        }
        (0..random.below(9)).for_each(|_| self.instruction(random, odd, files));
        if random.chance(70) {
            let address = self.address.saturating_add(random.pick(&[0, 4, 0x10, 0x40]));
            self.set_address(random, address);
        }
        self.bytes.extend(random.pick(&[[0, 1, 1].as_slice(), &[0, 1, 1], &[0, 3, 1, 0, 0], &[0, 0x81, 0, 1]]));
        self.address = 0;
    }

    /// A sound instruction.
    fn instruction(&mut self, random: &mut Random, odd: u64, files: &[u64]) {
        let opcode = match random.below(40) {
            0..13 => return self.special(random),
            13..17 => 1,
            17..20 => 2,
            20..23 => 3,
            23..25 => 4,
            25..28 => 5,
            28 => 6,
            29 => 7,
            30 => 8,
            31 => 9,
            32 => 10,
            33 => 11,
            34 => 12,
            35..37 => random.between(13, 254).min(u64::from(self.base.max(14) - 1)) as u8,
            37 => {
                let address = self.address.saturating_add(random.pick(&[0, 1, 8]));
                return self.set_address(random, address);
            }
            _ => return self.extended(random),
        };
        // From the base on it is special, and its advance is small or none.
        if opcode >= self.base {
            self.bytes.push(opcode);
            return self.advance(u64::from((opcode - self.base) / self.encoding[4].max(1)));
        }
        self.bytes.push(opcode);
        let size = random.pick(&[1, 1, 1, 2, 5, 10]);
        match opcode {
            2 => {
                let operand = random.pick(&[0, 1, 2, 4, 8, 0x10]);
                self.bytes.extend(unsigned(operand, size));
                self.advance(operand);
            }
            3 => {
                let lines = if random.chance(2 + odd) {
                    random.pick(&[i64::MIN, i64::MAX, -100, 1 << 32])
                } else {
                    random.pick(&[1, -1, 2, -2, 0])
                };
                self.bytes.extend(signed(lines, size));
            }
            4 => {
                let known = if files.is_empty() { 1 } else { random.pick(files) };
                let file = if random.chance(4 + odd) { random.pick(&[0, 9, LAST]) } else { known };
                self.bytes.extend(unsigned(file, size));
            }
            5 => self.bytes.extend(unsigned(random.pick(&[0, 1, 9, 40, 65_534, 65_535, 65_536, 1 << 32, LAST]), size)),
            8 => self.advance(u64::from((255 - self.base) / self.encoding[4].max(1))),
            9 => {
                let [low, high] = [random.pick(&[0, 1, 4, 9, 0x20]), random.pick(&[0, 0, 0, 1])];
                self.bytes.extend([low, high]);
                self.address = self.address.saturating_add(u64::from(low) | u64::from(high) << 8);
            }
            12 => self.bytes.extend(unsigned(random.below(300), size)),
            13.. => {
                let declared = self.lengths.get(usize::from(opcode) - 1).copied().unwrap_or(0);
                (0..declared).for_each(|_| self.bytes.extend(unsigned(random.pick(&[0, 1, 5, 200]), size)));
            }
            _ => {}
        }
    }

    fn advance(&mut self, operations: u64) {
        self.address = self.address.saturating_add(u64::from(self.encoding[0]) * operations);
    }

    /// A special opcode, most often with a small advance.
    fn special(&mut self, random: &mut Random) {
        let (base, range) = (u64::from(self.base), u64::from(self.encoding[4].max(1)));
        let adjusted = random.below(5) * range + random.below(range);
        let any = random.between(base.max(1), 255);
        let opcode = if (1..=255).contains(&(base + adjusted)) && random.chance(85) { base + adjusted } else { any };
        self.bytes.push(opcode as u8);
        self.advance((opcode - base) / range);
    }

    /// As many bytes as the address needs, or more, at most twelve.
    fn set_address(&mut self, random: &mut Random, address: u64) {
        let needed = 8 - u64::from(address.leading_zeros() / 8);
        let size = if random.chance(60) { 8 } else { random.between(needed, 12) } as usize;
        let bytes = [address.to_le_bytes().as_slice(), &[0; 4]].concat();
        self.bytes.extend([0, 1 + size as u8, 2]);
        self.bytes.extend(&bytes[..size]);
        self.address = address;
    }

    /// One that does nothing: a defined file, a discriminator, unknown ones, whatever their bytes.
    fn extended(&mut self, random: &mut Random) {
        let body = random.pick(&[
            b"\x03new.c\0\0\0\0".as_slice(),
            b"\x03\x41",
            b"\x04\x05",
            b"\x04\x80",
            b"\x80",
            b"\0\x01\x01",
            b"\xff\x00\x01\x02",
        ]);
        self.bytes.push(0);
        self.bytes.extend(unsigned(body.len() as u64, random.pick(&[1, 1, 2, 10])));
        self.bytes.extend(body);
    }

    /// An instruction, or some, that refuse the program with 7 to 12 or 22.
    fn fault(&mut self, random: &mut Random) {
        let past = self.address.saturating_add(random.pick(&[1, 8]));
        match random.below(18) {
            0..6 => self.bytes.extend(generate::bad_instruction(random)),
            // An end around 2^64: behind the zero, ten bytes and the opcode.
            16.. => {
                let length = LAST - (self.bytes.len() as u64 + 12) + random.below(3);
                self.bytes.push(0);
                self.bytes.extend(unsigned(length, 1));
                self.bytes.push(random.pick(&[1, 2, 4]));
            }
            6 => self.bytes.truncate(self.bytes.len().saturating_sub(random.between(1, 3) as usize)),
            // A fall, of the register alone or behind a row.
            7..10 => {
                self.set_address(random, past);
                if random.chance(50) {
                    self.special(random);
                }
                let below = past - 1;
                self.set_address(random, below);
            }
            10 => self.bytes.extend([[0, random.pick(&[10, 13]), 2].as_slice(), &[0; 8], &[1, 0, 0, 0][..random.pick(&[1, 4])]].concat()),
            _ => {
                self.set_address(random, LAST);
                let advances = [[2, 1].as_slice(), &[8], &[9, 1, 0], &[255], &[2, 0xff, 0x7f], &[0, 1, 1]];
                self.bytes.extend(random.pick(&advances));
            }
        }
    }

    fn damage(&mut self, random: &mut Random) {
        if self.bytes.is_empty() {
            return;
        }
        let place = random.place(&self.bytes);
        match random.below(4) {
            0 => self.bytes.truncate(place),
            1 => self.bytes[place] = random.next() as u8,
            2 => self.bytes.insert(place, random.pick(&[0, 1, 2, 0x80, 0xff])),
            _ => _ = self.bytes.remove(place),
        }
    }
}

/// A number as an operand of at least so many bytes.
pub fn unsigned(mut value: u64, size: usize) -> Vec<u8> {
    let mut bytes = vec![value as u8 & 0x7f];
    while value > 0x7f || bytes.len() < size {
        value >>= 7;
        *bytes.last_mut().unwrap() |= 0x80;
        bytes.push(value as u8 & 0x7f);
    }
    bytes
}

/// The same of a signed number: what goes on is its sign.
pub fn signed(mut value: i64, size: usize) -> Vec<u8> {
    let mut bytes = vec![value as u8 & 0x7f];
    while !(-0x40..0x40).contains(&value) || bytes.len() < size {
        value >>= 7;
        *bytes.last_mut().unwrap() |= 0x80;
        bytes.push(value as u8 & 0x7f);
    }
    bytes
}

/// A line header with field 1d, its files and its program.
pub fn lines(random: &mut Random, odd: u64, windows: bool) -> Lines {
    let mut lines = Lines::default();
    let (version, word) = (random.between(2, 5) as u8, random.pick(&[4, 8]));
    let (mut offset, length) = (random.pick(&[0, 0, 0, 100]), random.pick(&[32, 32, 60]));
    if random.chance(odd) {
        offset = LAST - random.pick(&[20, 60, 80, 90]);
    }
    let mut tables = Lines::default();
    generate::tables(random, odd, windows, version, &mut tables);
    let files: Vec<u64> = (0..tables.files).map(|file| tables.first_file + file).collect();
    let drawn = drawn(random, odd, &files);
    lines.fields.header(offset, length, version, word, drawn.base, &drawn.lengths).encoding(drawn.encoding);
    lines.fields.0.extend(&tables.fields.0);
    (lines.first_file, lines.files) = (tables.first_file, tables.files);
    let start = offset.wrapping_add(length).wrapping_add(before_header_end(version, word));
    lines.sequences = drawn.starts.iter().map(|place| start.wrapping_add(*place)).collect();
    lines.program = drawn.bytes;
    lines
}
