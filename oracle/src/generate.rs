//! Cases by seed: rich sound inputs, damaged ones, and cases at the limits.

use crate::answer::{answer, work_needed, work_of};
use crate::case::Case;
use crate::compose::Fields;
use crate::grammar::parse;
use crate::limits;
use crate::random::Random;

mod damage;
mod lines;
mod program;
mod units;
mod writer;

pub use damage::{damage, joined, split};
pub use lines::{Lines, before_header_end, column, lines, rows_case, tables, windows};
pub use program::{bad_instruction, padded_advance};
pub use units::{Unit, units_of};
pub use writer::Writer;

const LAST: u64 = u64::MAX;

/// The case of a number for a seed; no other case has a part in it.
pub fn case(seed: u64, number: u64) -> Case {
    let mut random = Random::new(seed, number);
    let kind = random.below(100);
    if kind == 99 {
        return bare(&mut random);
    }
    let mut case = if kind < 25 { limits::case(&mut random) } else { sound(&mut random) };
    if (25..40).contains(&kind) {
        damage(&mut random, &mut case);
    }
    fit(&mut random, &mut case);
    case
}

/// Gives a case its buffers: as long as needed or a little longer, at times one byte short.
fn fit(random: &mut Random, case: &mut Case) {
    let work = work_of(case);
    (case.work, case.records, case.files, case.warnings) = (work, u32::MAX, u32::MAX, u32::MAX);
    let full = answer(case);
    case.work = work + random.pick(&[0, 0, 1, 4096]);
    let short = random.below(40);
    if short == 4 {
        case.work = work - 1;
    }
    let mut place = 0;
    [case.records, case.files, case.warnings] = [&full.records, &full.files, &full.warnings].map(|bytes| {
        place += 1;
        let length = bytes.len() as u32;
        if short == 5 || short == place { length.saturating_sub(1) } else { length + random.pick(&[0, 0, 1, 40]) }
    });
}

/// E4's packages without debug data, with what is still tested of them: sound and damaged supplementary inputs, programs of any bytes,
/// work around its length, at times another ordinal or a main input that is not empty.
fn bare(random: &mut Random) -> Case {
    let mut other = sound(random);
    match random.below(8) {
        0..2 => other.main.clear(),
        2..5 => damage(random, &mut other),
        5 => other.main = vec![0x10],
        6 => other.main = Fields::default().unit(0, 100, 5, 4).compilation_directory(&[b'a'; 6114]).take(),
        _ => {}
    }
    let program = (0..random.pick(&[0, 0, 1, 3, 20])).map(|_| random.pick(&[0, 0, 1, 2, 0x80, 0xff])).collect();
    let main = if random.chance(5) { vec![0x10] } else { Vec::new() };
    let mut case = Case { main, supplementary: other.main, program, ..other };
    case.ordinal = random.pick(&[0, 0, 0, 0, 1, LAST]);
    let needed = work_needed(parse(&case.supplementary, &case.program, true).map_or(0, |input| input.fields), case.program.len(), false);
    case.work = random.pick(&[needed, needed, needed, needed + 4096, needed - 1, 0]);
    [case.records, case.files, case.warnings] = [(); 3].map(|()| random.pick(&[0, 0, 1, 40]));
    case
}

// ---- sound inputs

fn sound(random: &mut Random) -> Case {
    sound_with(random, lines)
}

/// What draws the lines of a unit, by how often odd things stand in them and whether files have Windows paths.
pub type DrawLines = fn(&mut Random, u64, bool) -> Lines;

pub fn sound_with(random: &mut Random, lines: DrawLines) -> Case {
    // How often odd things stand in it: tidy inputs reach deep, odd ones wide.
    let odd = random.pick(&[0, 1, 1, 4, 10]);
    let windows = windows(random);
    let supplementary = if random.chance(45) { units(random, odd) } else { Vec::new() };
    let main = units(random, odd);
    let ordinal = if random.chance(odd) { random.below(4) } else { random.below(main.len() as u64) };
    let (mut inputs, mut program) = ([Fields::default(), Fields::default()], Vec::new());
    for (number, own) in [&main, &supplementary].into_iter().enumerate() {
        for (place, unit) in own.iter().enumerate() {
            let lines = if random.chance(85) { lines(random, odd, windows) } else { Lines::default() };
            Writer { random, odd, own, supplementary: &supplementary, unit }.write(&mut inputs[number], &lines);
            if number == 0 && place as u64 == ordinal {
                program = lines.program;
            }
        }
    }
    let [main, supplementary] = inputs;
    let mut case = Case::new(main.0, supplementary.0, program);
    case.ordinal = ordinal;
    case.inlines = random.chance(88);
    case.call_sites = random.chance(75);
    case.first_file =
        if random.chance(6) { random.pick(&[0, 0, u32::MAX, u32::MAX - 1, u32::MAX - 3]) } else { random.pick(&[1, 1, 1, 7]) };
    case
}

fn units(random: &mut Random, odd: u64) -> Vec<Unit> {
    units_of(random, odd, |random| random.pick(&[1, 1, 2, 2, 3]))
}
