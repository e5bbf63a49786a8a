//! Tables of times: the corpus, the scaled families, units, the worst, the pass.

use std::hint::black_box;
use std::time::Duration;

use oracle::Case;
use oracle::compose::field_count;

use crate::sheets;
use crate::sides::{Times, buffers, clear, measured, ours, said, timed};

pub fn micros(time: Duration) -> String {
    format!("{:.1}", time.as_secs_f64() * 1e6)
}

pub fn ratio(one: Duration, other: Duration) -> String {
    format!("{:.2}", one.as_secs_f64() / other.as_secs_f64())
}

const COLUMNS: &str = "ours | import_unit | parsing | both | writing | ours to import_unit | ours to both | ours to all | copy";

fn columns(times: Times) -> String {
    let Times { ours, parse, import, write, copy } = times;
    let both = times.together();
    let figures = [ours, import, parse, both, write].map(micros).join(" | ");
    let ratios = [import, both, both + write].map(|other| ratio(ours, other)).join(" | ");
    format!("{figures} | {ratios} | {}", micros(copy))
}

fn head(first: &str, last: &str) {
    println!("| {first} | {COLUMNS}{last} |");
    println!("|{}", "---|".repeat(first.split('|').count() + COLUMNS.split('|').count() + last.split('|').count() - 1));
}

/// Finished cases only: a refused one ends early on both sides.
pub fn corpus(cases: &[Case], turns: u32) -> Result<(), String> {
    let (mut sum, mut count, mut slower, mut slower_than_both) = (Times::NONE, 0, 0, 0);
    let mut worst = (0.0, 0);
    for (place, case) in cases.iter().enumerate() {
        let mut buffers = buffers(case)?;
        if buffers.refused {
            continue;
        }
        let times = measured(case, &mut buffers, turns);
        sum = sum.plus(times);
        count += 1;
        slower += u32::from(times.ours > times.import);
        slower_than_both += u32::from(times.ours > times.together());
        let quotient = times.ours.as_secs_f64() / times.together().as_secs_f64();
        if quotient > worst.0 {
            worst = (quotient, place);
        }
    }
    head("units", "");
    println!("| {count} | {} |", columns(sum));
    println!();
    println!(
        "{slower} units take longer than the Rust's import_unit, {slower_than_both} longer than both; the most is {:.2} times both (unit {})",
        worst.0, worst.1
    );
    Ok(())
}

pub fn scaled(turns: u32) -> Result<(), String> {
    for (name, family) in sheets::FAMILIES {
        println!("\n{name}\n");
        head("fields", " | growth, ours | growth, the Rust's");
        let (mut before, mut sum): (Option<Times>, _) = (None, Times::NONE);
        for doubling in 0..7 {
            let fields = 1024 << doubling;
            let case = family(fields);
            let times = measured(&case, &mut buffers(&case)?, turns);
            let growth = |of: fn(Times) -> Duration| before.map_or_else(|| "-".to_owned(), |before| ratio(of(times), of(before)));
            let number = field_count(&case.main) + field_count(&case.supplementary);
            println!("| {number} | {} | {} | {} |", columns(times), growth(|times| times.ours), growth(Times::together));
            (before, sum) = (Some(times), sum.plus(times));
        }
        println!("| all | {} | - | - |", columns(sum));
    }
    Ok(())
}

/// The same number of fields, in more and more units. The last column is how long one unit of that size takes by itself, the other units being there.
pub fn wholes(turns: u32) -> Result<(), String> {
    head("units", " | growth, ours | growth, the Rust's | the first unit alone");
    let mut before: Option<Times> = None;
    for doubling in 0..9 {
        let case = sheets::units(1 << doubling, sheets::LIMIT >> doubling);
        let times = measured(&case, &mut buffers(&case)?, turns);
        let alone = Case { all: false, ..case.clone() };
        let alone = measured(&alone, &mut buffers(&alone)?, turns);
        let growth = |of: fn(Times) -> Duration| before.map_or_else(|| "-".to_owned(), |before| ratio(of(times), of(before)));
        let grown = [growth(|times| times.ours), growth(Times::together)].join(" | ");
        println!("| {} | {} | {grown} | {} |", 1 << doubling, columns(times), micros(alone.ours));
        before = Some(times);
    }
    Ok(())
}

pub fn worst(turns: u32, part: &str) -> Result<(), String> {
    head("input | fields", "");
    for (name, input) in sheets::WORST.into_iter().filter(|(name, _)| name.contains(part)) {
        let case = input();
        let times = measured(&case, &mut buffers(&case)?, turns);
        println!("| {name} | {} | {} |", field_count(&case.main) + field_count(&case.supplementary), columns(times));
    }
    Ok(())
}

/// The pass beside the import, turn by turn. Refused cases are passed over.
pub fn pass(cases: &[Case], turns: u32) -> Result<(), String> {
    println!("| input | import | pass | pass to import |\n|---|---|---|---|");
    let line = |name: &str, cases: &[Case]| -> Result<(), String> {
        let mut sum = [Duration::ZERO; 2];
        for case in cases {
            let mut buffers = buffers(case)?;
            if buffers.refused {
                continue;
            }
            let mut least = [Duration::MAX; 2];
            for _ in 0..turns {
                clear(&mut buffers);
                least[0] = least[0].min(timed(|| ours(black_box(case), &mut buffers)).0);
                clear(&mut buffers);
                least[1] = least[1].min(timed(|| said(black_box(case), &mut buffers)).0);
            }
            sum = [sum[0] + least[0], sum[1] + least[1]];
        }
        println!("| {name} | {} | {} | {} |", micros(sum[0]), micros(sum[1]), ratio(sum[1], sum[0]));
        Ok(())
    };
    line("the units", cases)?;
    for (name, family) in sheets::FAMILIES {
        line(name, &[family(65_536)])?;
    }
    for (name, input) in sheets::WORST {
        line(name, &[input()])?;
    }
    Ok(())
}
