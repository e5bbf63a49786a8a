//! Cases of request E11: all units of an input in one import, and units with a part of the program. Those by hand come first, then those by
//! seed: rich units and simple ones, parts that tile the program and others, units that are refused at every place, files up to the last
//! number, fields 1e where none may stand.

use crate::answer::{answer, finished, inputs, work_needed, work_of};
use crate::case::{Case, then_drawn};
use crate::compose::*;
use crate::generate::{self, DrawLines, Lines, Unit, Writer};
use crate::grammar::parse;
use crate::output::written;
use crate::random::Random;
use crate::whole_shown;

const LAST: u64 = u64::MAX;
/// The first of the numbers by which these cases are drawn, so that no other kind of case is drawn by them.
const FIRST: u64 = 1 << 34;

/// Those of a seed, without end.
pub fn cases(seed: u64) -> impl Iterator<Item = Case> {
    then_drawn(whole_shown::cases(), move |number| case(seed, number))
}

fn case(seed: u64, number: u64) -> Case {
    let mut random = Random::new(seed, FIRST + number);
    let random = &mut random;
    let kind = random.below(20);
    let mut case = match kind {
        0..10 => rich(random, generate::lines),
        10..18 => simple(random),
        _ => bare(random),
    };
    match kind {
        8 => generate::damage(random, &mut case),
        9 | 13..16 | 18 => misplace(random, &mut case),
        _ => {}
    }
    case.all |= random.chance(80);
    let units = generate::split(&case.main).iter().filter(|field| field.0 == 0x10).count() as u64;
    case.ordinal = if case.all { random.pick(&[0, 0, 1, units, LAST]) } else { random.below(units.max(1)) };
    fit(random, &mut case);
    case
}

/// Gives a case its buffers: most often as long as needed or a little longer. At times one holds all units but the last, or is a byte short, or all
/// are empty; at times work is a byte short, or as long as would do for the longest part, or without a field 1d.
pub fn fit(random: &mut Random, case: &mut Case) {
    let fields = |bytes: &[u8]| parse(bytes, &case.program, false).map_or(0, |input| input.fields);
    let (fields, program) = (fields(&case.main) + fields(&case.supplementary), case.program.len());
    let rows = work_needed(fields, program, false);
    case.work = work_of(case);
    [case.records, case.files, case.warnings] = [u32::MAX; 3];
    let full = answer(case);
    let lengths = |answer: &crate::Answer| [&answer.records, &answer.files, &answer.warnings].map(|bytes| bytes.len() as u32);
    let mut fitted = lengths(&full).map(|length| length + random.pick(&[0, 0, 1, 40]));
    let place = random.below(3) as usize;
    match random.below(30) {
        0..6 => {
            if let Ok((dwarf, units)) = inputs(case) {
                let before = finished(case, &dwarf, 0..units.end.saturating_sub(1)).map(|imported| written(&imported, case.first_file));
                fitted[place] = before.map_or(0, |before| lengths(&before)[place]);
            }
        }
        6 => fitted[place] = lengths(&full)[place].saturating_sub(1),
        7..9 => fitted = [0; 3],
        9 => case.work -= 1,
        10 => {
            let longest = parts(&case.main).map(|part| part.1 as usize).max().unwrap_or(0).min(program);
            case.work = work_needed(fields, longest, case.work > rows);
        }
        11 => case.work += 4096,
        12 => case.work = rows,
        _ => {}
    }
    [case.records, case.files, case.warnings] = fitted;
}

/// Start and length of each field 1e of 16 bytes.
fn parts(input: &[u8]) -> impl Iterator<Item = (u64, u64)> {
    let sized = |field: (u8, Vec<u8>)| <[u8; 16]>::try_from(field.1).ok().filter(|_| field.0 == 0x1e);
    let values = |bytes: [u8; 16]| (u128::from_le_bytes(bytes) as u64, (u128::from_le_bytes(bytes) >> 64) as u64);
    generate::split(input).into_iter().filter_map(sized).map(values)
}

// ---- rich units

/// Two to six units as other generated cases have them, with references into each other.
pub fn rich(random: &mut Random, draw: DrawLines) -> Case {
    let odd = random.pick(&[0, 0, 0, 1, 1, 4]);
    let windows = random.below(16) == 0;
    let supplementary = if random.chance(40) { generate::units_of(random, odd, |random| random.between(1, 2)) } else { Vec::new() };
    let main = generate::units_of(random, odd, |random| random.pick(&[2, 2, 2, 3, 3, 4, 5, 6]));
    let lines = |random: &mut Random, units: &[Unit]| -> Vec<Lines> {
        let one = |random: &mut Random| if random.chance(85) { draw(random, odd, windows) } else { Lines::default() };
        units.iter().map(|_| one(random)).collect()
    };
    let mut all = [lines(random, &main), lines(random, &supplementary)];
    let programs: Vec<&[u8]> = all[0].iter().map(|lines| &lines.program[..]).collect();
    let (program, mut places) = laid_out(random, &programs);
    let own = places.clone();
    // Those of the supplementary input are never read.
    places.extend((0..all[1].len()).map(|_| if random.chance(60) { random.pick(&own) } else { None }));
    for (lines, part) in all.iter_mut().flatten().zip(places) {
        put(lines, part);
    }
    let mut inputs = [Fields::default(), Fields::default()];
    for (number, own) in [&main, &supplementary].into_iter().enumerate() {
        for (unit, lines) in own.iter().zip(&all[number]) {
            Writer { random, odd, own, supplementary: &supplementary, unit }.write(&mut inputs[number], lines);
        }
    }
    let [main, supplementary] = inputs;
    let mut case = Case::new(main.0, supplementary.0, program);
    case.inlines = random.chance(88);
    case.call_sites = random.chance(75);
    case.first_file = random.pick(&[1, 1, 1, 7, 0, u32::MAX, u32::MAX - 4]);
    case
}

/// A part behind the header, if there is one, and its 1d.
fn put(lines: &mut Lines, part: Option<(u64, u64)>) {
    let mut fields = generate::split(&lines.fields.0);
    if let (Some((start, length)), false) = (part, fields.is_empty()) {
        let encoded = fields.get(1).is_some_and(|field| field.0 == 0x1d);
        fields.insert(1 + usize::from(encoded), field_1e(start, length));
        lines.fields.0 = generate::joined(&fields);
    }
}

fn field_1e(start: u64, length: u64) -> (u8, Vec<u8>) {
    (0x1e, [start.to_le_bytes(), length.to_le_bytes()].concat())
}

/// The programs one after another, in any order, and each one's part; most often they tile the whole, else some are shared, overlap, are empty, are
/// none, and bytes stand between them.
fn laid_out(random: &mut Random, programs: &[&[u8]]) -> (Vec<u8>, Vec<Option<(u64, u64)>>) {
    let (mut program, mut places) = (Vec::new(), vec![(0, 0); programs.len()]);
    let mut order: Vec<usize> = (0..programs.len()).collect();
    random.shuffle(&mut order);
    let tidy = random.chance(50);
    for place in order {
        places[place] = (program.len() as u64, programs[place].len() as u64);
        program.extend(programs[place]);
        if !tidy && random.chance(25) {
            program.extend(random.pick(&[[0].as_slice(), &[0, 1, 1], &[1, 1, 1, 1]]));
        }
    }
    let all = program.len() as u64;
    let mut part = |(start, length): (u64, u64)| match random.below(30) {
        _ if tidy => Some((start, length)),
        0..3 => None,
        3..5 => Some(random.pick(&places)),
        5 => Some((start, all - start)),
        6 => Some((0, start + length)),
        7 => Some((start, random.below(all - start + 1))),
        8 => Some((random.below(all + 1), 0)),
        9..11 => Some((all, 0)),
        11 => Some((0, all)),
        12 if random.chance(30) => Some(past(random, all)),
        _ => Some((start, length)),
    };
    let parts = places.clone().into_iter().map(&mut part).collect();
    (program, parts)
}

/// A part at the edges of a program of so many bytes, most often past it.
fn past(random: &mut Random, all: u64) -> (u64, u64) {
    let within = random.below(all + 1);
    let start = random.pick(&[0, 1, within, within, all, all + 1, 1 << 32, 1 << 63, LAST]);
    let rest = all.saturating_sub(start);
    // The fifth makes an end of 2^64.
    (start, random.pick(&[0, 1, rest, rest + 1, start.wrapping_neg(), 1 << 63, LAST]))
}

// ---- simple units

/// Two to six units of one shape, over a few files; one or two of them may be refused. A unit's names and lines may be in another unit.
fn simple(random: &mut Random) -> Case {
    let (mut main, mut supplementary, mut program) = (Fields::default(), Fields::default(), Vec::new());
    let units = random.between(2, 6);
    let faulty = if random.chance(50) { [random.below(units), random.below(2 * units)] } else { [LAST; 2] };
    for unit in 0..units {
        let fault = if faulty.contains(&unit) { if random.chance(5) { TOO_DEEP } else { random.between(1, 10) } } else { 0 };
        let own = program_of(random, fault);
        let part = (program.len() as u64, own.len() as u64);
        program.extend(own);
        let others = (0..units).filter(|&other| other != unit).collect::<Vec<u64>>();
        let other = random.pick(&others);
        shaped(random, &mut main, unit, other, fault, part);
    }
    if random.chance(40) {
        let part = (0, random.below(program.len() as u64 + 1));
        shaped(random, &mut supplementary, 0, 0, 0, part);
    }
    let mut case = Case::new(main.0, supplementary.0, program);
    case.first_file = if random.chance(40) { u32::MAX - random.below(6) as u32 } else { 1 };
    case
}

/// What refuses a simple unit: 1 to 6 are faults of its program.
const FAILED_LINE: u64 = 7;
const FAILED_NAME: u64 = 8;
const NO_ENTRY: u64 = 9;
const FAILED_RANGES: u64 = 10;
const TOO_DEEP: u64 = 11;
/// How far apart the simple units are in the section, and in the addresses.
const SECTION: u64 = 1000;
const TEXT: u64 = 0x1000;

/// A program of one sequence, or one that is refused with 7 to 12.
fn program_of(random: &mut Random, fault: u64) -> Vec<u8> {
    let nine = [0x80; 9].as_slice();
    match fault {
        1 => vec![0],
        2 => vec![0, 1],
        3 => vec![0, 0],
        4 => [&[2], nine, &[2, 1]].concat(),
        5 => [&[2], nine, &[0x80]].concat(),
        6 => [&[0], [0xff; 9].as_slice(), &[1, 1]].concat(),
        _ => random.pick(&[[0, 1, 1].as_slice(), &[1, 0, 1, 1], &[0, 1, 1, 1]]).to_vec(),
    }
}

fn shaped(random: &mut Random, fields: &mut Fields, unit: u64, other: u64, fault: u64, part: (u64, u64)) {
    let (start, declaration) = (TEXT * (1 + unit), SECTION * other + 40);
    fields.unit(SECTION * unit, SECTION, 5, 4).text(TEXT, 8 * TEXT).header(0, 32, 5, 4, 13, &OPCODE_LENGTHS).part(part.0, part.1);
    fields.directory(0, random.pick(&[b"/src".as_slice(), b"/src", b"/lib"]));
    for _ in 0..random.between(1, 3) {
        fields.file(0, 0, random.pick(&[b"a.c".as_slice(), b"b.c", b"cue.c", b"dim.c"]));
    }
    let second = if fault == FAILED_LINE { FAILED_ROW } else { PLAIN };
    // At times a file that is not there, which warns.
    fields.row(start, random.pick(&[0, 0, 0, 7]), 10 + unit, 0, PLAIN).row(start + 8, 0, 3, 0, second);
    fields.row(start + 0x10, 0, 0, 0, END).entry(11, 0, COMPILE_UNIT).entry(20, 1, SUBPROGRAM);
    if fault == FAILED_NAME {
        fields.attribute(NAME, FAILED, 0);
    } else if random.chance(70) {
        fields.string(NAME, random.pick(&[b"dim".as_slice(), b"fade", b"zoom"]));
    } else {
        fields.attribute(ORIGIN, SECTION_REF, declaration);
    }
    fields.range(start, start + 0x10, 0);
    if random.chance(20) {
        fields.range(9 * TEXT, 9 * TEXT + 8, 0);
    }
    let (kind, target) = if fault == NO_ENTRY { (UNIT_REF, 21) } else { (SECTION_REF, declaration) };
    fields.entry(30, 2, INLINED).attribute(ORIGIN, kind, target);
    fields.attribute(CALL_FILE, UNSIGNED, random.pick(&[0, 0, 7])).attribute(CALL_LINE, UNSIGNED, 12).range(start + 4, start + 8, 0);
    if fault == FAILED_RANGES {
        fields.failure(1, b"off the end");
    }
    // A declaration, whose file is its own unit's.
    fields.entry(40, 1, SUBPROGRAM).string(NAME, b"seen").attribute(DECL_FILE, UNSIGNED, random.below(3)).attribute(DECL_LINE, UNSIGNED, 4);
    if random.chance(30) {
        fields.entry(50, 1, SUBPROGRAM).attribute(SPECIFICATION, SECTION_REF, declaration).range(start + 0x20, start + 0x28, 0);
    }
    if fault == TOO_DEEP {
        fields.entry(60, 1, SUBPROGRAM).string(NAME, b"deep").range(start + 0x30, start + 0x40, 0);
        for depth in 0..257 {
            fields.entry(100 + depth, 2 + depth as u16, INLINED).string(NAME, b"f").range(start + 0x30, start + 0x40, 0);
        }
    }
}

/// No unit at all, with what is still tested.
fn bare(random: &mut Random) -> Case {
    let mut case = simple(random);
    case.supplementary = match random.below(5) {
        0..2 => std::mem::take(&mut case.main),
        2 => Fields::default().unit(0, 100, 5, 4).compilation_directory(&[b'a'; 6114]).take(),
        _ => Vec::new(),
    };
    case.main.clear();
    case.all = true;
    case
}

// ---- fields 1e that are out of place, or past the program

fn misplace(random: &mut Random, case: &mut Case) {
    let all = case.program.len() as u64;
    let there = case.main.is_empty() || !case.supplementary.is_empty() && random.chance(40);
    let input = if there { &mut case.supplementary } else { &mut case.main };
    let mut fields = generate::split(input);
    let places: Vec<usize> = (0..fields.len()).filter(|&place| fields[place].0 == 0x1e).collect();
    let (start, length) = past(random, all);
    let Some(_) = places.first() else { return };
    let place = random.pick(&places);
    match random.below(12) {
        0..6 => fields[place] = field_1e(start, length),
        6 => fields.insert(place, fields[place].clone()),
        7 if place + 1 < fields.len() => fields.swap(place, place + 1),
        8 => fields.insert(random.place(&fields), field_1e(0, all)),
        9 => _ = fields[place].1.pop(),
        10 => fields[place].1.push(0),
        _ => _ = fields.remove(place - 1),
    }
    *input = generate::joined(&fields);
}
