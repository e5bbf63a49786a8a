//! Joins of symbols to records trays (document 02, E13), and what they answer. The Rust has no such join: it puts symbols beside DWARF's functions and
//! settles overlaps when it writes its table. What answers here is written from the requests, over a tray that is read function by function.

pub const FUNCTION: u8 = 0x41;
pub const ROW: u8 = 0x42;
pub const NODE: u8 = 0x43;
pub const RANGE: u8 = 0x44;
pub const SITE: u8 = 0x45;
pub const SYMBOL: u8 = 0x50;
/// The length of a row's payload.
pub const ROW_SIZE: usize = 18;
const DEEPEST: u16 = 256;

/// A records tray, a list of symbols, and how long the result may be.
#[derive(Clone)]
pub struct Join {
    pub records: Vec<u8>,
    pub symbols: Vec<u8>,
    pub room: usize,
}

impl Join {
    /// The refusal, 0 for none, and the bytes of the result, none after a refusal.
    pub fn answer(&self) -> (u8, Vec<u8>) {
        let Some(functions) = functions(&self.records) else {
            return (19, Vec::new());
        };
        let Some(symbols) = symbols(&self.symbols) else {
            return (26, Vec::new());
        };
        let (mut held, mut result) = (functions, self.records.clone());
        for (start, end, name) in symbols {
            // "A symbol of size 0 or empty name is passed over. Otherwise .. if no record already in the result holds its start."
            if start == end || name.is_empty() || held.iter().any(|&(low, high)| low <= start && start < high) {
                continue;
            }
            held.push((start, end));
            result.extend(field(FUNCTION, &[&start.to_le_bytes(), &end.to_le_bytes(), name]));
        }
        if result.len() > self.room { (27, Vec::new()) } else { (0, result) }
    }
}

// ---- what is read

type Fields<'a> = Vec<(u8, &'a [u8])>;

/// None where a field is cut off.
fn fields(mut bytes: &[u8]) -> Option<Fields<'_>> {
    let mut fields = Vec::new();
    while !bytes.is_empty() {
        let (&[tag, low, high], rest) = bytes.split_first_chunk()?;
        let (payload, next) = rest.split_at_checked(usize::from(u16::from_le_bytes([low, high])))?;
        fields.push((tag, payload));
        bytes = next;
    }
    Some(fields)
}

fn number(payload: &[u8], at: usize) -> u64 {
    u64::from_le_bytes(payload[at..at + 8].try_into().expect("8 bytes"))
}

/// A payload's two addresses, which stand in order.
fn range(payload: &[u8]) -> Option<(u64, u64)> {
    let range = (payload.len() >= 16).then(|| (number(payload, 0), number(payload, 8)))?;
    (range.0 < range.1).then_some(range)
}

/// The ranges of a tray's functions; None where it is "not in the form of document 01": each function with its rows, its nodes, its call sites.
fn functions(bytes: &[u8]) -> Option<Vec<(u64, u64)>> {
    let fields = fields(bytes)?;
    let mut left = &fields[..];
    let mut ranges = Vec::new();
    while let Some(((FUNCTION, payload), rest)) = left.split_first().map(|(field, rest)| (*field, rest)) {
        ranges.push(range(payload)?);
        left = nodes(many(rest, ROW, |row| row.len() == ROW_SIZE)?)?;
        left = many(left, SITE, |site| site.len() >= 9)?;
    }
    left.is_empty().then_some(ranges)
}

/// What stands behind fields of one tag, each of which must pass a test.
fn many<'a, 'b>(mut left: &'b [(u8, &'a [u8])], tag: u8, test: impl Fn(&[u8]) -> bool) -> Option<&'b [(u8, &'a [u8])]> {
    while let [(next, payload), rest @ ..] = left
        && *next == tag
    {
        left = test(payload).then_some(rest)?;
    }
    Some(left)
}

/// What stands behind a function's nodes: "a 44 or more after each 43", "node depths 0, then 1 to the previous plus 1, at most 256".
fn nodes<'a, 'b>(mut left: &'b [(u8, &'a [u8])]) -> Option<&'b [(u8, &'a [u8])]> {
    let mut previous = None;
    while let [(NODE, payload), rest @ ..] = left {
        let depth = (payload.len() >= 10).then(|| u16::from_le_bytes([payload[0], payload[1]]))?;
        let sound = match previous {
            None => depth == 0,
            Some(previous) => depth >= 1 && depth <= previous + 1 && depth <= DEEPEST,
        };
        let behind = many(rest, RANGE, |payload| payload.len() == 16 && range(payload).is_some())?;
        left = (sound && behind.len() < rest.len()).then_some(behind)?;
        previous = Some(depth);
    }
    Some(left)
}

/// Start, end and name of each symbol; None where one is misshapen or ends past the last address.
fn symbols(bytes: &[u8]) -> Option<Vec<(u64, u64, &[u8])>> {
    fields(bytes)?.into_iter().map(read_symbol).collect()
}

fn read_symbol((tag, payload): (u8, &[u8])) -> Option<(u64, u64, &[u8])> {
    let start = (tag == SYMBOL && payload.len() >= 16).then(|| number(payload, 0))?;
    Some((start, start.checked_add(number(payload, 8))?, &payload[16..]))
}

pub fn field(tag: u8, parts: &[&[u8]]) -> Vec<u8> {
    let payload = parts.concat();
    [&[tag][..], &(payload.len() as u16).to_le_bytes(), &payload].concat()
}

#[cfg(test)]
mod tests {
    use super::*;

    const LAST: u64 = u64::MAX;

    fn function(start: u64, end: u64, name: &[u8]) -> Vec<u8> {
        field(FUNCTION, &[&start.to_le_bytes(), &end.to_le_bytes(), name])
    }

    fn symbol(start: u64, size: u64, name: &[u8]) -> Vec<u8> {
        field(SYMBOL, &[&start.to_le_bytes(), &size.to_le_bytes(), name])
    }

    fn answer(records: &[Vec<u8>], symbols: &[Vec<u8>]) -> (u8, Vec<u8>) {
        Join { records: records.concat(), symbols: symbols.concat(), room: 999 }.answer()
    }

    /// The request's clauses, one by one.
    #[test]
    fn answers_by_hand() {
        let dim = function(0x1000, 0x1010, b"dim");
        let with = |added: &[Vec<u8>]| (0, [vec![dim.clone()], added.to_vec()].concat().concat());
        let joined = |symbols: &[Vec<u8>]| answer(&[dim.clone()], symbols);
        assert_eq!(joined(&[symbol(0x1000, 4, b"a"), symbol(0x100f, 4, b"b")]), with(&[]));
        assert_eq!(
            joined(&[symbol(0x1010, 0, b"a"), symbol(0x1010, 4, b""), symbol(0x1010, 2, b"c")]),
            with(&[function(0x1010, 0x1012, b"c")])
        );
        // A start that a symbol joined before holds; one that begins before a record and runs into it.
        assert_eq!(joined(&[symbol(0x1010, 4, b"a"), symbol(0x1012, 4, b"b")]), with(&[function(0x1010, 0x1014, b"a")]));
        assert_eq!(
            joined(&[symbol(0xfff, 4, b"a"), symbol(0x1014, 1, b"b")]),
            with(&[function(0xfff, 0x1003, b"a"), function(0x1014, 0x1015, b"b")])
        );
        assert_eq!(joined(&[symbol(LAST, 0, b"a"), symbol(LAST - 1, 1, b"b")]), with(&[function(LAST - 1, LAST, b"b")]));
        for bad in [symbol(LAST, 1, b""), function(1, 2, b"a"), field(SYMBOL, &[&[0; 15]]), vec![SYMBOL, 0]] {
            assert_eq!(joined(&[symbol(0x1010, 4, b"a"), bad.clone()]).0, 26);
            assert_eq!(answer(&[function(5, 5, b"")], &[bad]).0, 19);
        }
        assert_eq!(answer(&[], &[]), (0, Vec::new()));
        let short = |room| Join { records: dim.clone(), symbols: symbol(1, 1, b"a"), room }.answer().0;
        assert_eq!([short(dim.len() - 1), short(dim.len() + 19), short(dim.len() + 20)], [27, 27, 0]);
    }

    /// The form of a tray: each field where it may stand, and where it may not.
    #[test]
    fn forms_by_hand() {
        let (function, row) = (function(1, 2, b""), field(ROW, &[&[0; ROW_SIZE]]));
        let node = |depth: u16| field(NODE, &[&depth.to_le_bytes(), &[0; 8]]);
        let (range, site) = (field(RANGE, &[&1u64.to_le_bytes(), &2u64.to_le_bytes()]), field(SITE, &[&[0; 9]]));
        let formed = |parts: &[&Vec<u8>]| functions(&parts.iter().flat_map(|part| part.iter().copied()).collect::<Vec<u8>>()).is_some();
        let (root, child, deep) = (node(0), node(1), node(2));
        assert!(formed(&[&function, &row, &row, &root, &range, &range, &child, &range, &site, &site, &function, &function, &site]));
        assert!(formed(&[&function, &root, &range, &child, &range, &deep, &range, &child, &range]));
        assert!(!formed(&[&row]) && !formed(&[&function, &range]) && !formed(&[&function, &root]) && !formed(&[&function, &root, &site]));
        assert!(!formed(&[&function, &site, &row]) && !formed(&[&function, &root, &range, &row]));
        assert!(!formed(&[&function, &child, &range]) && !formed(&[&function, &root, &range, &root, &range]));
        assert!(!formed(&[&function, &root, &range, &deep, &range]));
        let chain = |last: u16| (0..=last).flat_map(|depth| [node(depth), range.clone()].concat());
        assert!(functions(&function.iter().copied().chain(chain(DEEPEST)).collect::<Vec<u8>>()).is_some());
        assert!(functions(&function.iter().copied().chain(chain(DEEPEST + 1)).collect::<Vec<u8>>()).is_none());
    }
}
