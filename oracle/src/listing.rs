//! The listing program of document 01: a finished import as lines of text.

use std::io::Write;

use crate::case::Answer;
use crate::grammar::field;

/// What the listing program reads at most.
pub const INPUT_LIMIT: usize = 16_384;
pub const PROGRAM_LIMIT: usize = 2_048;

/// Each case by hand prints the listing that it must.
#[cfg(test)]
pub fn assert_printed(shown: Vec<crate::case::Shown>) {
    for (number, (name, case, expected)) in shown.into_iter().enumerate() {
        let printed = String::from_utf8(listing(&crate::judged(&case).unwrap(), case.first_file)).unwrap();
        assert_eq!(printed, expected, "{number}: {name}");
    }
}

/// The lines for an answer whose files number from `first_file`.
pub fn listing(answer: &Answer, first_file: u32) -> Vec<u8> {
    let mut output = Vec::new();
    if answer.refusal != 0 {
        line(&mut output, "refused", &[Part::Decimal(u64::from(answer.refusal))]);
        return output;
    }
    let mut number = u64::from(first_file);
    for mut rest in [&answer.records[..], &answer.files, &answer.warnings] {
        while let Some((tag, payload, after)) = field(rest) {
            write_field(&mut output, tag, payload, &mut number);
            rest = after;
        }
    }
    line(&mut output, "stats", &answer.statistics.map(Part::Decimal));
    output
}

enum Part<'a> {
    Hex(u64),
    Decimal(u64),
    Text(&'a [u8]),
}

use Part::{Decimal, Hex, Text};

/// One field of a buffer as one line.
fn write_field(output: &mut Vec<u8>, tag: u8, payload: &[u8], file: &mut u64) {
    let number = |at: usize, size: usize| payload[at..at + size].iter().rev().fold(0, |value, &byte| value << 8 | u64::from(byte));
    match tag {
        0x41 => line(output, "function", &[Hex(number(0, 8)), Hex(number(8, 8)), Text(&payload[16..])]),
        0x42 => line(output, "row", &[Hex(number(0, 8)), Decimal(number(8, 4)), Decimal(number(12, 4)), Decimal(number(16, 2))]),
        0x43 => line(output, "inline", &[Decimal(number(0, 2)), Decimal(number(2, 4)), Decimal(number(6, 4)), Text(&payload[10..])]),
        0x44 => line(output, "range", &[Hex(number(0, 8)), Hex(number(8, 8))]),
        0x45 if payload[8] == 0 => line(output, "site", &[Hex(number(0, 8))]),
        0x45 => line(output, "site", &[Hex(number(0, 8)), Text(&payload[9..])]),
        0x40 => {
            let (directory, basename) = payload[2..].split_at(number(0, 2) as usize);
            line(output, "file", &[Decimal(*file), Text(directory), Text(basename)]);
            *file += 1;
        }
        _ if payload[0] <= 2 => line(output, "warning", &[Decimal(number(0, 1)), Text(&payload[1..])]),
        _ => line(output, "warning", &[Decimal(number(0, 1)), Hex(number(1, 8)), Hex(number(9, 8))]),
    }
}

fn line(output: &mut Vec<u8>, word: &str, parts: &[Part<'_>]) {
    output.extend_from_slice(word.as_bytes());
    for part in parts {
        output.push(b' ');
        match part {
            Hex(value) => write!(output, "{value:x}").unwrap(),
            Decimal(value) => write!(output, "{value}").unwrap(),
            Text(bytes) => output.extend_from_slice(bytes),
        }
    }
    output.push(b'\n');
}
