//! A second model of request E11's import of all units: each unit is imported alone, with files numbered from 1, and what these imports give is
//! joined here. It knows nothing of one builder that goes through all units.

use crate::case::{Answer, Case};
use crate::grammar::field;
use crate::output;

const FUNCTION_ROW: u8 = 0x42;
const NODE: u8 = 0x43;
const UNIT: u8 = 0x10;

/// What differs in the answer to a call of all units from its units' own imports; `import` answers a call of one unit.
pub fn difference(case: &Case, whole: &Answer, mut import: impl FnMut(&Case) -> Answer) -> Option<String> {
    let mut alone = |unit: usize| {
        let long = u32::MAX;
        import(&Case { all: false, ordinal: unit as u64, first_file: 1, records: long, files: long, warnings: long, ..case.clone() })
    };
    let mut joined = Joined { room: (1 << 32) - u64::from(case.first_file), first_file: case.first_file, ..Joined::default() };
    let first = alone(0);
    let refused = match first.refusal {
        // What is tested before any unit, and a main input without units, which is the same of both.
        refusal @ (1..=3 | 5) => Some(refusal),
        _ if case.main.is_empty() => None,
        _ => {
            let units = fields(&case.main).filter(|field| field.0 == UNIT).count();
            let answers: Vec<Answer> = std::iter::once(first).chain((1..units).map(&mut alone)).collect();
            // Work is tested before all units, for the one that needs most (E8).
            match answers.iter().find(|answer| answer.refusal == 5) {
                Some(_) => Some(5),
                None => answers.iter().find_map(|answer| joined.add(answer).err()),
            }
        }
    };
    let expected = match refused {
        // A file without a number comes first in the unit, or what refuses it alone: files of a refused unit are not known.
        Some(refusal) if refusal == whole.refusal || whole.refusal == 15 && joined.is_nearly_full(case) => return None,
        Some(refusal) => Answer { refusal, ..Answer::default() },
        None => joined.answer(case),
    };
    if expected.refusal != whole.refusal {
        return Some(format!("refusal {} of all units, {} by each alone", whole.refusal, expected.refusal));
    }
    if expected.statistics != whole.statistics {
        return Some(format!("statistics {:?} of all units, {:?} by each alone", whole.statistics, expected.statistics));
    }
    let parts = [(&expected.records, &whole.records), (&expected.files, &whole.files), (&expected.warnings, &whole.warnings)];
    let names = ["records", "files", "warnings"];
    names.into_iter().zip(parts).find(|(_, (alone, all))| alone != all).map(|(name, _)| format!("bytes of {name} by each unit alone"))
}

/// The tag and the payload of each field.
fn fields(bytes: &[u8]) -> impl Iterator<Item = (u8, &[u8])> {
    let mut rest = bytes;
    std::iter::from_fn(move || {
        let (tag, payload, after) = field(rest)?;
        rest = after;
        Some((tag, payload))
    })
}

/// What the units so far give together.
#[derive(Default)]
struct Joined {
    /// How many numbers there are, and the first.
    room: u64,
    first_file: u32,
    records: Vec<u8>,
    files: Vec<Vec<u8>>,
    warnings: Vec<u8>,
    statistics: [u64; 4],
}

impl Joined {
    /// Puts a unit's own answer behind the others', or says what refuses all.
    fn add(&mut self, answer: &Answer) -> Result<(), u8> {
        if answer.refusal != 0 {
            return Err(answer.refusal);
        }
        // Where each of the unit's files stands among all.
        let mut places = Vec::new();
        for (_, file) in fields(&answer.files) {
            let place = self.files.iter().position(|known| known == file).unwrap_or(self.files.len());
            if place == self.files.len() {
                self.files.push(file.to_vec());
            }
            places.push(place);
        }
        if self.files.len() as u64 > self.room {
            return Err(15);
        }
        for (tag, payload) in fields(&answer.records) {
            let at = match tag {
                FUNCTION_ROW => Some(8),
                NODE => Some(2),
                _ => None,
            };
            let mut payload = payload.to_vec();
            if let Some(number) = at.map(|at| &mut payload[at..at + 4]) {
                let own = u32::from_le_bytes(number.try_into().unwrap());
                // 0 is no file.
                if let Some(place) = own.checked_sub(1) {
                    number.copy_from_slice(&(self.first_file + places[place as usize] as u32).to_le_bytes());
                }
            }
            output::field(&mut self.records, tag, &[&payload]);
        }
        self.warnings.extend(&answer.warnings);
        for (sum, count) in self.statistics.iter_mut().zip(answer.statistics) {
            *sum = sum.saturating_add(count);
        }
        Ok(())
    }

    /// Whether one more unit of these inputs could bring a file that has no number.
    fn is_nearly_full(&self, case: &Case) -> bool {
        let files =
            [&case.main, &case.supplementary].map(|input| fields(input).filter(|field| matches!(field.0, 0x15 | 0x1c)).count() as u64);
        self.room - self.files.len() as u64 <= files.iter().sum()
    }

    fn answer(self, case: &Case) -> Answer {
        let mut files = Vec::new();
        self.files.iter().for_each(|file| output::field(&mut files, 0x40, &[file]));
        let over = |bytes: &[u8], length: u32| bytes.len() > length as usize;
        let short = [over(&self.records, case.records), over(&files, case.files), over(&self.warnings, case.warnings)];
        match short.iter().position(|short| *short) {
            Some(place) => Answer { refusal: 16 + place as u8, ..Answer::default() },
            None => Answer { refusal: 0, records: self.records, files, warnings: self.warnings, statistics: self.statistics },
        }
    }
}

#[cfg(test)]
mod tests {
    use super::difference;
    use crate::{answer, whole_cases};

    #[test]
    fn all_units_are_the_units_one_by_one() {
        let mut finished = 0;
        for (number, case) in whole_cases::cases(1).take(4000).enumerate().filter(|(_, case)| case.all) {
            let whole = answer(&case);
            assert_eq!(difference(&case, &whole, answer), None, "case {number}");
            finished += u64::from(whole.refusal == 0 && whole.statistics[0] > 1);
        }
        assert!(finished > 400, "{finished} imports of two functions or more");
    }
}
