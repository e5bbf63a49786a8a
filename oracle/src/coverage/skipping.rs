//! What the instructions of a line program take, as the Rust's scan skips them.

use super::{Reached, Rule};
use crate::stand_in::gimli::{LineProgramHeader, Slice};

/// A program that the Rust accepted, instruction by instruction.
pub fn skipping(header: &LineProgramHeader<Slice<'_>>, reached: &mut Reached) {
    let (mut rest, lengths) = (header.program.0, header.opcode_lengths.0);
    // An operand's value and last byte.
    let operand = |rest: &mut &[u8]| {
        let (bytes, after) = rest.split_at(1 + rest.iter().take_while(|byte| **byte & 0x80 != 0).count());
        *rest = after;
        (bytes.iter().rev().fold(0, |value, byte| value << 7 | usize::from(byte & 0x7f)), bytes[bytes.len() - 1])
    };
    while let [opcode, after @ ..] = rest {
        rest = after;
        let declared = lengths.get(usize::from(*opcode).wrapping_sub(1)).copied().unwrap_or(0);
        match *opcode {
            0 => {
                let length = operand(&mut rest).0;
                rest = &rest[length..];
            }
            opcode if opcode >= header.opcode_base => {}
            9 => {
                reached.hit(Rule::FixedAdvance, declared != 1);
                rest = &rest[2..];
            }
            1 | 6 | 7 | 8 | 10 | 11 => reached.hit(Rule::FixedOpcode, declared != 0),
            opcode => {
                for _ in 0..declared {
                    let last = operand(&mut rest).1;
                    reached.hit(Rule::Declared, true);
                    reached.hit(Rule::Negative, opcode == 3 && last & 0x40 != 0);
                }
            }
        }
    }
}
