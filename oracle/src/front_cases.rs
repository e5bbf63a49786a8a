//! Calls for a function's own rows, sought by a loop from the front of a table (document 02, E5), and the lines of
//! text that they answer. The Rust has no such function: a loop over the call's own rows answers here, written from
//! the request. crates/line_answers answers the same calls.

use crate::generate::column;
use crate::random::Random;

const LAST: u64 = u64::MAX;
/// The first of the numbers by which these calls are drawn, so that no other kind of call is drawn by them.
const FIRST: u64 = 1 << 32;

/// A table, in order or not, and queries. Its number in a file is 6.
#[derive(Clone)]
pub struct Call {
    rows: Vec<Row>,
    queries: Vec<Query>,
}

#[derive(Clone)]
struct Row {
    address: u64,
    file: u32,
    line: u32,
    column: u16,
    sequence: Option<u64>,
}

/// A function's range, the sequence that it asks for, and how many rows at the front, all below the range, the loop
/// may pass over at once. That number has no part in the answer.
#[derive(Clone)]
struct Query {
    start: u64,
    end: u64,
    sequence: Option<u64>,
    below: usize,
}

/// Calls of a seed, without end. A call with a whole table is followed by one for each of its queries whose loop ends
/// at a row: the table is alike through that row, what stands behind it is not.
pub fn calls(seed: u64) -> impl Iterator<Item = Call> {
    (FIRST..).flat_map(move |number| {
        let random = &mut Random::new(seed, number);
        let whole = whole(random);
        let others: Vec<Call> = whole.queries.iter().filter_map(|query| whole.alike(query, random)).collect();
        [vec![whole], others].concat()
    })
}

impl Call {
    /// The kind, the length of what follows, and the call's values.
    pub fn bytes(&self) -> Vec<u8> {
        let count = (self.rows.len() as u32).to_le_bytes();
        let rows: Vec<u8> = self.rows.iter().flat_map(Row::bytes).collect();
        let queries: Vec<u8> = self.queries.iter().flat_map(Query::bytes).collect();
        let body = [count.as_slice(), &rows, &queries].concat();
        [&[6], (body.len() as u32).to_le_bytes().as_slice(), &body].concat()
    }

    pub fn answer(&self) -> String {
        self.queries.iter().fold(format!("front {}", self.rows.len()), |text, query| format!("{text}\n{}", query.answer(&self.rows)))
    }

    /// The table through the row at which a query's loop ends, where there is one, with other rows behind it.
    fn alike(&self, query: &Query, random: &mut Random) -> Option<Self> {
        let (place, _) = query.own(&self.rows);
        let mut rows = self.rows.get(..=place)?.to_vec();
        rows.extend((0..random.below(7)).map(|_| row(random)));
        Some(Self { rows, queries: vec![query.clone()] })
    }
}

impl Row {
    fn bytes(&self) -> Vec<u8> {
        let numbers = [self.file, self.line].map(u32::to_le_bytes);
        [&self.address.to_le_bytes(), numbers.as_flattened(), &self.column.to_le_bytes(), &sequence_bytes(self.sequence)].concat()
    }
}

impl Query {
    fn bytes(&self) -> Vec<u8> {
        let below = (self.below as u32).to_le_bytes();
        [&self.start.to_le_bytes(), &self.end.to_le_bytes(), sequence_bytes(self.sequence).as_slice(), &below].concat()
    }

    /// "a loop from the front of the unit's table that ends at the first row at or past the function's end. It also
    /// hands back that row's place, or the table's length if there is none."
    fn own<'a>(&self, rows: &'a [Row]) -> (usize, Vec<&'a Row>) {
        let mut own = Vec::new();
        for (place, row) in rows.iter().enumerate() {
            if row.address >= self.end {
                return (place, own);
            }
            if row.address >= self.start && (self.sequence.is_none() || self.sequence == row.sequence) {
                own.push(row);
            }
        }
        (rows.len(), own)
    }

    fn answer(&self, rows: &[Row]) -> String {
        let (place, own) = self.own(rows);
        own.iter().fold(format!("place {place}"), |text, row| format!("{text} {:x}:{}:{}:{}", row.address, row.file, row.line, row.column))
    }
}

/// 1 if there is a sequence, and its offset.
fn sequence_bytes(sequence: Option<u64>) -> Vec<u8> {
    [&[u8::from(sequence.is_some())], sequence.unwrap_or(0).to_le_bytes().as_slice()].concat()
}

fn whole(random: &mut Random) -> Call {
    let most = random.pick(&[0, 1, 3, 6, 6, 12, 12, 24, 60]);
    let mut rows: Vec<Row> = (0..random.between(most / 2, most)).map(|_| row(random)).collect();
    let sorted = random.chance(60);
    if sorted {
        rows.sort_by_key(|row| row.address);
    }
    let queries = (0..random.between(1, 3)).map(|_| query(random, &rows, sorted)).collect();
    Call { rows, queries }
}

fn row(random: &mut Random) -> Row {
    let near = 0x1000 + 4 * random.below(24);
    let address = if random.chance(4) { random.pick(&[0, 1, LAST - 1, LAST]) } else { near };
    let (file, line) = (random.between(1, 3) as u32, random.between(0, 40) as u32);
    Row { address, file, line, column: column(random), sequence: sequence(random) }
}

fn sequence(random: &mut Random) -> Option<u64> {
    random.pick(&[None, Some(0), Some(44), Some(44), Some(45), Some(LAST)])
}

/// Any number of rows that are all below the range may be passed over; of a table that is not in order, none is.
fn query(random: &mut Random, rows: &[Row], sorted: bool) -> Query {
    let start = if random.chance(5) { random.pick(&[0, LAST]) } else { 0x0ff8 + 4 * random.below(28) };
    let size = random.pick(&[0, 1, 4, 0x10, 0x20, 0x20, 0x40, 0x40, 0x100, LAST]);
    let end = if random.chance(4) { start.saturating_sub(random.below(0x20)) } else { start.saturating_add(size) };
    let sequence = if random.chance(60) { None } else { sequence(random) };
    let low = rows.iter().take_while(|row| row.address < start.min(end)).count() as u64;
    let any = random.between(0, low);
    let below = if sorted { random.pick(&[0, any, low]) as usize } else { 0 };
    Query { start, end, sequence, below }
}

#[cfg(test)]
mod tests {
    use super::*;

    fn table(rows: &[(u64, Option<u64>)]) -> Vec<Row> {
        rows.iter().map(|&(address, sequence)| Row { address, file: 1, line: 2, column: 3, sequence }).collect()
    }

    fn asked(start: u64, end: u64, sequence: Option<u64>) -> Query {
        Query { start, end, sequence, below: 0 }
    }

    /// Tables in order and not, small enough to be answered by hand.
    #[test]
    fn answers_by_hand() {
        let known = Some(44);
        let mixed = table(&[(4, known), (0x10, known), (0x20, known), (0x12, known)]);
        assert_eq!(asked(8, 0x20, None).answer(&mixed), "place 2 10:1:2:3");
        assert_eq!(asked(8, 0x21, None).answer(&mixed), "place 4 10:1:2:3 20:1:2:3 12:1:2:3");
        assert_eq!(asked(8, 0x20, Some(45)).answer(&mixed), "place 2");
        assert_eq!(asked(8, 0x20, None).answer(&[]), "place 0");
        assert_eq!(asked(0x10, 0x10, None).answer(&mixed), "place 1");
        assert_eq!(asked(0x20, 8, None).answer(&mixed), "place 1");
    }

    /// Places at the first row, within, and past the last; tables in no order; rows passed over; other rows behind.
    #[test]
    fn every_answer_is_reached() {
        let calls: Vec<Call> = calls(1).take(300).collect();
        let queries = || calls.iter().flat_map(|call| call.queries.iter().map(|query| (&call.rows, query, query.own(&call.rows))));
        assert!(queries().any(|(rows, _, (place, _))| place == 0 && !rows.is_empty()));
        assert!(queries().any(|(rows, _, (place, own))| place > 0 && place < rows.len() && own.len() > 1));
        assert!(queries().any(|(rows, _, (place, own))| place == rows.len() && !own.is_empty()));
        assert!(queries().any(|(rows, _, _)| rows.is_empty()));
        assert!(queries().any(|(_, query, _)| query.end < query.start));
        assert!(queries().any(|(_, query, (place, own))| query.below > 1 && query.below < place && !own.is_empty()));
        // A row of the range behind the one that ends the loop.
        let behind = |rows: &[Row], query: &Query, place: usize| {
            rows.iter().skip(place).any(|row| row.address >= query.start && row.address < query.end)
        };
        assert!(queries().any(|(rows, query, (place, own))| !own.is_empty() && behind(rows, query, place)));
    }

    /// "tables alike through it give the same answer, whatever stands behind it"
    #[test]
    fn alike_tables_answer_alike() {
        let (mut random, mut alike) = (Random::new(1, 0), 0);
        for call in calls(1).take(300) {
            for query in &call.queries {
                if let Some(other) = call.alike(query, &mut random) {
                    assert_eq!(other.answer(), format!("front {}\n{}", other.rows.len(), query.answer(&call.rows)));
                    alike += 1;
                }
            }
        }
        assert!(alike > 100, "{alike}");
    }
}
