//! Cases of the searches, each a pair of inputs and the entries whose names and declarations are searched. crates/search_answers
//! answers the same cases.

use crate::calls::searches::{Asked, Call, Query};
use crate::compose::*;
use crate::random::Random;
use crate::search_webs;

mod declared;
mod long;
mod short;

use Value::{Number, Text};
use declared::declared;
use long::{long_searches, rings, two_inputs};
use short::{own_names, single_references};

const LAST: u64 = u64::MAX;

/// Those by hand and then those of a seed, without end.
pub fn calls(seed: u64) -> impl Iterator<Item = Call> {
    by_hand().into_iter().map(|(call, _)| call).chain((0..).map(move |number| search_webs::call(&mut Random::new(seed, number))))
}

// ---- by hand

/// An attribute: a string, or a number of a kind.
enum Value {
    Text(u16, &'static [u8]),
    Number(u16, u8, u64),
}

/// Offset, length, and entries by their offsets in the unit.
struct Unit(u64, u64, Vec<(u64, Vec<Value>)>);

/// The units, each with the same files, 1 for one that failed, behind a header of version 4; no header without files.
fn input(units: &[Unit], files: &[(u8, &[u8])]) -> Vec<u8> {
    let mut fields = Fields::default();
    for Unit(offset, length, entries) in units {
        fields.unit(*offset, *length, 4, 4);
        if !files.is_empty() {
            fields.header(0, 0, 4, 4, 13, &OPCODE_LENGTHS);
        }
        files.iter().for_each(|(failed, path)| _ = fields.file(*failed, 0, path));
        for (number, (offset, values)) in entries.iter().enumerate() {
            fields.entry(*offset, u16::from(number > 0), SUBPROGRAM);
            for value in values {
                match value {
                    Text(name, text) => fields.string(*name, text),
                    Number(name, kind, value) => fields.attribute(*name, *kind, *value),
                };
            }
        }
    }
    fields.take()
}

/// One unit with the offset 0.
fn unit(entries: Vec<(u64, Vec<Value>)>) -> Vec<Unit> {
    vec![Unit(0, 2000, entries)]
}

/// The same search from entries at some offsets.
fn asked(asked: Asked, offsets: &[u64]) -> Vec<Query> {
    offsets.iter().map(|&offset| Query { asked, offset }).collect()
}

fn names(offsets: &[u64]) -> Vec<Query> {
    asked(Asked::Name, offsets)
}

/// The names that their call origins refer to.
fn references(offsets: &[u64]) -> Vec<Query> {
    asked(Asked::ReferenceName, offsets)
}

fn declarations(offsets: &[u64]) -> Vec<Query> {
    asked(Asked::Declaration, offsets)
}

fn named(text: &'static [u8]) -> Vec<Value> {
    vec![Text(NAME, text)]
}

/// An origin of a kind, and a specification of a kind.
fn both(origin: (u8, u64), specification: (u8, u64)) -> Vec<Value> {
    vec![Number(SPECIFICATION, specification.0, specification.1), Number(ORIGIN, origin.0, origin.1)]
}

fn origin(kind: u8, value: u64) -> Vec<Value> {
    vec![Number(ORIGIN, kind, value)]
}

/// So many entries, at 1, 2, .., each with an origin of a kind to the next; the last has a name. The offset of the unit is `base`.
fn chain(count: u64, kind: impl Fn(u64) -> u8, base: u64) -> Vec<Unit> {
    let target = |place: u64| if kind(place) == UNIT_REF { place + 1 } else { base + place + 1 };
    let mut entries: Vec<(u64, Vec<Value>)> = (1..count)
        .map(|place| {
            let (kind, target) = (kind(place), target(place));
            (place, vec![Number(ORIGIN, kind, target), Number(CALL_ORIGIN, kind, target)])
        })
        .collect();
    entries.push((count, named(b"end")));
    vec![Unit(base, 2000, entries)]
}

/// The calls by hand, each with the lines that it answers.
fn by_hand() -> Vec<(Call, &'static [&'static str])> {
    let mut calls = Vec::new();
    let mut add = |main: &[Unit], supplementary: &[Unit], queries: Vec<Query>, lines: &'static [&'static str]| {
        calls.push((Call { main: input(main, &[]), supplementary: input(supplementary, &[]), queries }, lines));
    };
    own_names(&mut add);
    single_references(&mut add);
    long_searches(&mut add);
    two_inputs(&mut add);
    rings(&mut add);
    declared(&mut calls);
    calls
}

type Add<'a> = dyn FnMut(&[Unit], &[Unit], Vec<Query>, &'static [&'static str]) + 'a;

#[cfg(test)]
mod tests {
    use super::*;
    use crate::judge::judged_searches;

    #[test]
    fn those_by_hand() {
        for (number, (call, lines)) in by_hand().into_iter().enumerate() {
            assert_eq!(judged_searches(&call), Ok(lines.join("\n")), "call {number}");
        }
    }

    #[test]
    fn every_answer_by_seed_is_reached() {
        let hand = by_hand().len();
        let answers: Vec<String> = calls(1).skip(hand).take(300).map(|call| judged_searches(&call).unwrap()).collect();
        let lines: Vec<&str> = answers.iter().flat_map(|answer| answer.split('\n')).collect();
        for line in ["refused 6 ", "refused 12 ", "refused 13 ", "no entry", "name  ", "name a ", "line 1 7 ", "no line "] {
            assert!(lines.iter().any(|one| one.starts_with(line)), "no query is answered {line:?}");
        }
    }
}
