//! Cases of request E8: units whose rows come from their programs. Those by hand come first, then those by seed: rich inputs in which half of the line
//! headers have field 1d, of one unit and of all, with parts; programs at the edges of the addresses; fields 1d where none may stand.

use crate::case::{Case, then_drawn};
use crate::compose::*;
use crate::generate::{self, Lines};
use crate::program_shown;
use crate::programs::{self, signed, unsigned};
use crate::random::Random;
use crate::whole_cases::{fit, rich};

const LAST: u64 = u64::MAX;
/// The first of the numbers by which these cases are drawn, so that no other kind of case is drawn by them.
const FIRST: u64 = 1 << 35;

/// Those of a seed, without end.
pub fn cases(seed: u64) -> impl Iterator<Item = Case> {
    then_drawn(program_shown::cases(), move |number| case(seed, number))
}

fn case(seed: u64, number: u64) -> Case {
    let mut random = Random::new(seed, FIRST + number);
    let random = &mut random;
    let kind = random.below(20);
    let mut case = match kind {
        0..6 => rich(random, half),
        6..13 => generate::sound_with(random, half),
        _ => edge(random),
    };
    match kind {
        5 | 12 => generate::damage(random, &mut case),
        4 | 11 | 19 => misplace(random, &mut case),
        _ => {}
    }
    ask(random, &mut case, kind < 6);
    fit(random, &mut case);
    case
}

/// Asks for all units of a rich input, whose units have parts, or for one of them. Another's program is that of the unit that it asks for already.
pub fn ask(random: &mut Random, case: &mut Case, is_rich: bool) {
    case.all = is_rich && random.chance(60);
    if is_rich {
        let units = generate::split(&case.main).iter().filter(|field| field.0 == 0x10).count() as u64;
        case.ordinal = if case.all { random.pick(&[0, 1, LAST]) } else { random.below(units.max(1)) };
    }
}

/// Half of the headers have field 1d.
pub fn half(random: &mut Random, odd: u64, windows: bool) -> Lines {
    if random.chance(50) { programs::lines(random, odd, windows) } else { generate::lines(random, odd, windows) }
}

/// One unit with functions at both ends of the addresses, and a program whose registers go to their ends, or one past them.
fn edge(random: &mut Random) -> Case {
    let mut encoding =
        random.pick(&[[1, 1, 1, 0xf6, 242], [1, 1, 0, 0xfb, 14], [4, 1, 1, 0xfb, 14], [0, 1, 1, 0x80, 1], [255, 1, 1, 0x7f, 255]]);
    if random.chance(6) {
        encoding[random.pick(&[1, 4])] = random.pick(&[0, 0, 2]);
    }
    let base = random.pick(&[13, 13, 13, 10, 15, 255, 1]);
    let version = random.between(2, 5) as u8;
    let mut program = Vec::new();
    for _ in 0..random.between(1, 4) {
        program.extend(steps(random, encoding, base));
        if random.chance(60) {
            program.extend([0, 1, 1]);
        }
    }
    let offset = if random.chance(12) { LAST - random.pick(&[4, 40, 60]) } else { 0 };
    let mut lengths = OPCODE_LENGTHS;
    if random.chance(15) {
        lengths[random.pick(&[1, 2, 3, 4])] = random.pick(&[0, 2]);
    }
    let mut main = Fields::default();
    main.unit(0, 100, 5, 4).text(0, 0x2000).text(LAST - 0x2000, LAST);
    main.header(offset, 32, version, 4, base, &lengths).encoding(encoding).file(0, 0, b"a.c").file(0, 0, b"b.c");
    main.entry(0, 0, COMPILE_UNIT).entry(1, 1, SUBPROGRAM).string(NAME, b"dim").range(0, 0x1000, 0);
    main.entry(2, 1, SUBPROGRAM).string(NAME, b"fade").range(LAST - 0x1000, LAST, 0);
    let program = if random.chance(5) { program[..random.place(&program)].to_vec() } else { program };
    Case::new(main.take(), Vec::new(), program)
}

/// A row, and around it what brings a register to an end of its numbers.
fn steps(random: &mut Random, encoding: [u8; 5], base: u8) -> Vec<u8> {
    let set_address = |address: u64, size: usize| {
        let bytes = [address.to_le_bytes().as_slice(), &[0; 12]].concat();
        [&[0, 1 + size as u8, 2], &bytes[..size]].concat()
    };
    let near = random.pick(&[0, 0, 1, 8]);
    let far = LAST - near * u64::from(encoding[0]);
    let size = random.pick(&[8, 8, 9, 12, 20]);
    let copy = if base > 1 { 1 } else { 200 };
    match random.below(12) {
        // To the last address or past it, by each instruction that moves it.
        0 => [set_address(far, size), vec![copy, 2], unsigned(near + random.below(2), 1), vec![copy]].concat(),
        1 => [set_address(LAST - near, size), vec![copy, 9, near as u8 + random.pick(&[0, 1]), 0, copy]].concat(),
        2 => [set_address(random.pick(&[far, LAST - 0x1000]), size), vec![8, copy]].concat(),
        3 => [set_address(random.pick(&[far, LAST - 0x1000]), size), vec![random.pick(&[255, 255, 200, base])]].concat(),
        4 => [
            set_address(random.pick(&[0, 5]), 8),
            vec![0, random.pick(&[10, 13, 18]), 2],
            vec![0; 8],
            vec![random.pick(&[0, 1]); 1],
            vec![0; 8],
        ]
        .concat(),
        // Up, then to the same address, one more, or one less.
        5..7 => {
            let address = random.between(1, 0x1000);
            let next = address + random.pick(&[0, 1]) - random.pick(&[0, 0, 1]);
            [set_address(address, 8), vec![copy; random.below(2) as usize], set_address(next, random.pick(&[2, 3, 8])), vec![copy]].concat()
        }
        7 => [vec![3], signed(random.pick(&[-1, -2, i64::MIN, i64::MAX, 1 << 32, 0]), random.pick(&[1, 10])), vec![copy]].concat(),
        8 => [vec![5], unsigned(random.pick(&[65_534, 65_535, 65_536, LAST]), random.pick(&[1, 10])), vec![copy]].concat(),
        9 => [vec![4], unsigned(random.pick(&[0, 1, 2, 3, LAST]), random.pick(&[1, 10])), vec![copy]].concat(),
        // Multiplied as whole numbers.
        10 => [vec![2], unsigned(random.pick(&[LAST, LAST / u64::from(encoding[0].max(1)), 1 << 62]), 1), vec![copy]].concat(),
        _ => [generate::bad_instruction(random), vec![copy]].concat(),
    }
}

// ---- fields 1d that are out of place or misshapen, rows beside one

fn misplace(random: &mut Random, case: &mut Case) {
    let there = !case.supplementary.is_empty() && random.chance(40);
    let input = if there { &mut case.supplementary } else { &mut case.main };
    let mut fields = generate::split(input);
    let places = |fields: &[(u8, Vec<u8>)], tag: u8| (0..fields.len()).filter(|&place| fields[place].0 == tag).collect::<Vec<_>>();
    let encoded = places(&fields, 0x1d);
    let Some(_) = encoded.first() else { return };
    let place = random.pick(&encoded);
    let row = || (0x16, [vec![0; 26], vec![0]].concat());
    match random.below(12) {
        0 => fields.insert(place, fields[place].clone()),
        1 if place + 1 < fields.len() => fields.swap(place, place + 1),
        2 => fields.insert(random.place(&fields), fields[place].clone()),
        3 => _ = fields[place].1.pop(),
        4 => fields[place].1.push(0),
        5 => fields[place].1[2] = random.pick(&[2, 0x80, 255]),
        6 => _ = fields.remove(place - 1),
        // Rows beside it, directly behind it or behind its files.
        7..10 => {
            let files = fields[place + 1..].iter().take_while(|field| matches!(field.0, 0x1e | 0x14 | 0x15 | 0x1c)).count();
            fields.insert(place + 1 + random.pick(&[0, files, files]), row());
        }
        // A unit that has rows.
        10 => {
            let rows = places(&fields, 0x13);
            let header = random.pick(&rows);
            fields.insert(header + 1, fields[place].clone());
        }
        _ => fields[place].1[random.pick(&[0, 3])] = random.next() as u8,
    }
    *input = generate::joined(&fields);
}
