//! Line programs: sound instructions, and those that refuse a program.

use super::lines::Lines;
use crate::random::Random;

/// A program that ends so many sequences, and where they begin if the header declares the Standard's counts.
pub(super) fn program(random: &mut Random, odd: u64, ends: u64, start: u64, lines: &mut Lines) {
    let (program, mut begin) = (&mut lines.program, start);
    for _ in 0..ends {
        (0..random.below(4)).for_each(|_| program.extend(instruction(random)));
        program.extend(random.pick(&[[0, 1, 1].as_slice(), &[0, 1, 1], &[0, 3, 1, 0, 0]]));
        lines.sequences.push(begin);
        begin = start.wrapping_add(program.len() as u64);
    }
    if random.chance(10) {
        program.extend(instruction(random));
    }
    if random.chance(odd) {
        program.extend(bad_instruction(random));
    }
}

fn instruction(random: &mut Random) -> Vec<u8> {
    match random.below(10) {
        0 => vec![random.pick(&[1, 6, 7, 8, 10, 11])],
        1 => vec![2, random.below(128) as u8],
        2 => vec![3, random.pick(&[1, 0x7f, 0x40])],
        3 => vec![random.pick(&[4, 5]), 0x80 | random.below(128) as u8, 1],
        4 => vec![9, random.pick(&[0, 1]), random.pick(&[0, 9])],
        5 => vec![12, 3],
        6 => [[0, 9, 2].as_slice(), &random.next().to_le_bytes()].concat(),
        7 => vec![random.between(13, 255) as u8],
        8 if random.chance(50) => padded_advance(random, &[0, 0x7f]),
        8 => [&[2], [0x80; 9].as_slice(), &[1]].concat(),
        _ => vec![0, 2, 4, random.below(256) as u8],
    }
}

/// Opcode 3 with an operand of nine bytes that go on and a tenth.
pub fn padded_advance(random: &mut Random, tenth: &[u8]) -> Vec<u8> {
    [&[3], [random.pick(&[0x80, 0xff]); 9].as_slice(), &[random.pick(tenth)]].concat()
}

/// An instruction that refuses the program, if it is met where it is.
pub fn bad_instruction(random: &mut Random) -> Vec<u8> {
    let nine = [0x80; 9].as_slice();
    match random.below(18) {
        0 => vec![0],
        1 => vec![0, 0],
        2..5 => vec![0, 1],
        5 => vec![0, 2, 0x80],
        6..8 => [&[random.pick(&[0, 2])], nine, &[2, 1]].concat(),
        8..11 => [&[random.pick(&[0, 2])], nine, &[random.pick(&[0x80, 0x81]), 1]].concat(),
        11 => [&[2], nine].concat(),
        12 => [&[0], [0xff; 9].as_slice(), &[1, 1]].concat(),
        13 => vec![9, 1],
        14..17 => [padded_advance(random, &[0x01, 0x02, 0x40, 0x7e, 0x80, 0x81, 0xff]), vec![1, 1]].concat(),
        _ => vec![2],
    }
}
