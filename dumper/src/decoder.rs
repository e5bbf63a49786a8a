//! How long the decoder itself takes to run a line program, for the benchmark to hold imports to.

use std::hint::black_box;
use std::time::Instant;

use crate::dump::Input;

const TURNS: usize = 9;

/// The least time of some turns over the line program of a unit, in nanoseconds; 0 where it has
/// none. The rows are looked at and dropped.
pub fn nanoseconds(input: &Input, number: usize) -> u64 {
    let decoded = input.main.unit(number).ok();
    let Some(program) = decoded.and_then(|decoded| decoded.unit.line_program.as_ref()) else {
        return 0;
    };
    let turn = || {
        let mut decoder = program.clone().rows();
        let start = Instant::now();
        while let Ok(Some((_, row))) = decoder.next_row() {
            black_box(row);
        }
        start.elapsed().as_nanos() as u64
    };
    (0..TURNS).map(|_| turn()).min().unwrap_or(0)
}
