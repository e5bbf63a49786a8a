//! Cases of the layer of line programs and paths, each a call of one of the Rust's own functions. crates/line_answers answers the
//! same cases.

use crate::calls::lines::{Call, Query};
use crate::compose::OPCODE_LENGTHS;
use crate::generate::{padded_advance, rows_case};
use crate::random::Random;

mod paths;
#[cfg(test)]
mod tests;

pub use paths::DRIVES;
use paths::path;

const LAST: u64 = u64::MAX;

/// Document 01's own cases and then those of a seed, without end.
pub fn calls(seed: u64) -> impl Iterator<Item = Call> {
    document().into_iter().map(|(call, _)| call).chain((0..).map(move |number| call(seed, number)))
}

/// Calls for the rows of a unit, without end.
pub fn rows_calls(seed: u64) -> impl Iterator<Item = Call> {
    (0..).map(move |number| rows_call(&mut Random::new(seed, number)))
}

/// The cases of document 01's "Operands, paths and a printed import" that are of this layer, with its answers; for C:\b.c request E3's.
fn document() -> Vec<(Call, &'static str)> {
    let operand = |bytes: &[&[u8]]| Call::Operand { place: 0, program: bytes.concat() };
    let program = |bytes: &[&[u8]]| Call::Program { base: 13, lengths: OPCODE_LENGTHS.to_vec(), offset: 44, program: bytes.concat() };
    let (nine, full) = ([0x80; 9].as_slice(), [0xff; 9].as_slice());
    vec![
        (operand(&[&[0xe5, 0x8e, 0x26]]), "operand 624485 3"),
        (operand(&[nine, &[1]]), "operand 9223372036854775808 10"),
        (operand(&[nine, &[2]]), "refused 10"),
        (operand(&[nine, &[0x80]]), "refused 11"),
        (operand(&[nine]), "refused 7"),
        (program(&[&[0]]), "refused 7"),
        (program(&[&[0, 0]]), "refused 9"),
        (program(&[&[0, 1]]), "refused 8"),
        (program(&[&[0, 2, 0x80]]), "refused 7"),
        (program(&[&[0], full, &[1, 1]]), "refused 12"),
        (program(&[&[0, 1, 1, 1, 0, 1, 1]]), "sequences 2c 2f"),
        (Call::Path(b"/a.c".to_vec()), "path /|a.c|1"),
        (Call::Path(b"a/".to_vec()), "path a||0"),
        (Call::Path(b"C:\\b.c".to_vec()), "path C:\\5c|b.c|1"),
        (Call::Path(b"s/b.c".to_vec()), "path s|b.c|0"),
        (Call::Join(b"/w".to_vec(), b"s".to_vec()), "joined /w/s"),
    ]
}

/// The call of a number for a seed; no other call has a part in it.
fn call(seed: u64, number: u64) -> Call {
    let mut random = Random::new(seed, number);
    let random = &mut random;
    match random.below(10) {
        0..2 => operand_call(random),
        2..6 => program_call(random),
        6..8 => Call::Path(path(random)),
        _ => Call::Join(path(random), path(random)),
    }
}

fn operand_call(random: &mut Random) -> Call {
    let mut program = bytes(random, 3);
    let mut place = program.len() as u64;
    program.extend(operand(random));
    match random.below(10) {
        // Cut off within the operand, or just behind it.
        0..3 => program.truncate(random.between(place, program.len() as u64) as usize),
        _ => program.extend(bytes(random, 3)),
    }
    let length = program.len() as u64;
    if random.chance(15) {
        place = random.pick(&[length, length + 1, LAST, LAST - 1, length / 2]);
    }
    Call::Operand { place, program }
}

fn program_call(random: &mut Random) -> Call {
    let mut lengths = OPCODE_LENGTHS.to_vec();
    lengths.extend(bytes(random, 2).iter().map(|byte| byte % 4));
    if random.chance(35) {
        lengths.iter_mut().for_each(|length| *length = random.pick(&[0, 1, 1, 2, 3]));
    }
    if random.chance(3) {
        let place = random.place(&lengths);
        lengths[place] = 255;
    }
    lengths.truncate(random.pick(&[14, 14, 14, 12, 12, 12, 9, 3, 0]));
    let base = if random.chance(50) { 13 } else { random.pick(&[0, 1, 2, 3, 4, 5, 6, 7, 8, 9, 10, 11, 12, 13, 14, 14, 255]) };
    let mut program = Vec::new();
    for _ in 0..random.below(11) {
        let next = instruction(random, &lengths);
        program.extend(next);
    }
    if random.chance(30) {
        let last = bad_instruction(random, program.len() as u64);
        program.extend(last);
    }
    if random.chance(15) {
        program.truncate(random.between(0, program.len() as u64) as usize);
    }
    if random.chance(8) && !program.is_empty() {
        let place = random.place(&program);
        program[place] = random.next() as u8;
    }
    // So near the last number that the place after a sequence may be past it.
    let near = LAST - random.below(program.len() as u64 + 3);
    let any = random.next();
    let offset = random.pick(&[44, 44, 0, any, near, LAST - program.len() as u64]);
    Call::Program { base, lengths, offset, program }
}

fn rows_call(random: &mut Random) -> Call {
    let (mut case, sequences) = rows_case(random);
    case.work = LAST;
    let queries = (0..random.between(1, 4)).map(|_| query(random, &sequences)).collect();
    Call::Rows { case, queries }
}

fn query(random: &mut Random, sequences: &[u64]) -> Query {
    let start = random.pick(&[0, 0xfff, 0x1000, 0x1000, 0x1001, 0x1004, 0x1008, 0x1010, 0x1018, 0x1030, LAST]);
    let size = random.pick(&[0, 1, 4, 8, 0x10, 0x10, 0x40, 0x100, LAST]);
    let mut end = start.saturating_add(size);
    if random.chance(4) {
        end = random.pick(&[0, 0x1000]);
    }
    let unknown = random.pick(&[0, 45, LAST]);
    let sequence = match random.below(10) {
        0..5 => None,
        5..9 if !sequences.is_empty() => Some(random.pick(sequences)),
        _ => Some(unknown),
    };
    Query { start, end, sequence }
}

/// Bytes of any value, at most so many.
fn bytes(random: &mut Random, most: u64) -> Vec<u8> {
    (0..random.between(0, most)).map(|_| random.next() as u8).collect()
}

/// An operand of up to twelve bytes, refused or not. The tenth byte is often the last, and often a small one.
fn operand(random: &mut Random) -> Vec<u8> {
    let length = random.pick(&[1, 1, 2, 3, 5, 8, 9, 9, 10, 10, 10, 10, 10, 10, 11, 12]);
    let mut bytes: Vec<u8> = (0..length)
        .map(|_| {
            let any = random.next() as u8;
            random.pick(&[0x80, 0xff, any | 0x80])
        })
        .collect();
    if length >= 10 {
        bytes[9] = random.pick(&[0x80, 0x81, 0x81, 0x82, 0xff]);
    }
    if random.chance(85) {
        bytes[length - 1] &= 0x7f;
    }
    bytes
}

/// A number as an operand, at times with a byte more than it needs.
fn number(random: &mut Random, mut value: u64) -> Vec<u8> {
    let mut bytes = Vec::new();
    while value > 0x7f {
        bytes.push(value as u8 | 0x80);
        value >>= 7;
    }
    bytes.push(value as u8);
    if bytes.len() < 10 && random.chance(10) {
        *bytes.last_mut().unwrap() |= 0x80;
        bytes.push(0);
    }
    bytes
}

/// An instruction with as many operands as the header declares, or, at times, as the Standard does.
fn instruction(random: &mut Random, lengths: &[u8]) -> Vec<u8> {
    let kind = random.below(100);
    if kind < 45 {
        let payload = [&[random.pick(&[1, 1, 1, 1, 1, 2, 3, 4, 0x80, 0])], bytes(random, 4).as_slice()].concat();
        return [&[0], number(random, payload.len() as u64).as_slice(), &payload].concat();
    }
    if kind < 58 {
        return vec![random.pick(&[10, 11, 12, 13, 14, 15, 0x80, 0xff])];
    }
    let opcode = random.between(1, 14) as u8;
    let declared = if random.chance(80) { lengths } else { &OPCODE_LENGTHS };
    let count = declared.get(usize::from(opcode) - 1).map_or(0, |&count| count.min(5));
    if opcode == 3 && count > 0 && random.chance(40) {
        return [padded_advance(random, &[0, 0, 0x7f, 0x7f, 1]), vec![5; usize::from(count) - 1]].concat();
    }
    let mut bytes = vec![opcode];
    for _ in 0..count {
        let bits = random.pick(&[3, 7, 8, 20, 64]);
        let value = random.next() >> (64 - bits);
        bytes.extend(number(random, value));
    }
    if opcode == 9 {
        // Bytes that are something else if they are taken for opcodes.
        bytes = vec![9, random.pick(&[0, 0, 1, 2, 9, 0xff]), random.pick(&[0, 0, 1, 2, 9, 0xff])];
    }
    bytes
}

/// An instruction that refuses the program, if it is met where it is, behind so many bytes.
fn bad_instruction(random: &mut Random, before: u64) -> Vec<u8> {
    let huge = LAST - random.below(24);
    // Behind the zero, ten bytes and the opcode: the last length whose end is still a number, and those beside it.
    let edge = LAST - (before + 12) + random.below(3);
    let length = random.pick(&[2, 3, 100, 1 << 32, 1 << 63, huge, edge, edge]);
    match random.below(11) {
        0 => vec![0, 0],
        1 => vec![0],
        2 => [&[0], number(random, length).as_slice()].concat(),
        3 => [&[0], number(random, length).as_slice(), &[random.pick(&[1, 2])]].concat(),
        4..8 => [&[random.pick(&[0, 0, 2, 3, 5])], operand(random).as_slice()].concat(),
        8..10 => padded_advance(random, &[1, 2, 0x40, 0x7e, 0x80, 0x81, 0xff]),
        _ => vec![9, 1],
    }
}
