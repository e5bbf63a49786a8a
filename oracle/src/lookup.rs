//! What is running at an address (document 02, E6): a model written from the request. A records buffer is parsed into functions with trees of
//! inlined calls, and the trees are asked. The Rust has no such function.

/// How long a row's payload is: address, file, line and column (E7).
pub const ROW_SIZE: usize = 18;
const DEEPEST: usize = 256;

pub const SHORT: u8 = 16;
pub const MISSHAPEN: u8 = 19;
pub const NO_FUNCTION: u8 = 20;

/// From its start to below its end.
#[derive(Clone, Copy)]
struct Range {
    start: u64,
    end: u64,
}

impl Range {
    fn holds(self, address: u64) -> bool {
        self.start <= address && address < self.end
    }
}

struct Node {
    place: usize,
    ranges: Vec<Range>,
    children: Vec<Node>,
}

struct Function<'a> {
    place: usize,
    field: &'a [u8],
    range: Range,
    rows: Vec<(usize, u64)>,
    root: Option<Node>,
}

/// Byte places of fields.
#[derive(Clone, Debug, Eq, PartialEq)]
pub struct Frames {
    pub function: usize,
    pub row: Option<usize>,
    pub chain: Vec<usize>,
}

// ---- document 01's form

struct Field<'a> {
    place: usize,
    tag: u8,
    payload: &'a [u8],
    whole: &'a [u8],
}

struct Cursor<'a> {
    fields: Vec<Field<'a>>,
    at: usize,
}

fn number(bytes: &[u8]) -> u64 {
    bytes.iter().rev().fold(0, |value, &byte| value << 8 | u64::from(byte))
}

fn fields(records: &[u8]) -> Option<Vec<Field<'_>>> {
    let (mut found, mut place) = (Vec::new(), 0);
    while place < records.len() {
        let head = records.get(place..place + 3)?;
        let next = place + 3 + number(&head[1..]) as usize;
        let whole = records.get(place..next)?;
        found.push(Field { place, tag: head[0], payload: &whole[3..], whole });
        place = next;
    }
    Some(found)
}

/// Of a payload that begins with a range.
fn range(payload: &[u8]) -> Option<Range> {
    let range = Range { start: number(payload.get(..8)?), end: number(payload.get(8..16)?) };
    (range.start < range.end).then_some(range)
}

impl<'a> Cursor<'a> {
    fn next(&self, tag: u8) -> Option<&Field<'a>> {
        self.fields.get(self.at).filter(|field| field.tag == tag)
    }

    /// The depth that the next field, a node, says it has; none where it is no node, or too short.
    fn next_depth(&self) -> Option<usize> {
        let payload = self.next(0x43)?.payload;
        (payload.len() >= 10).then(|| number(&payload[..2]) as usize)
    }

    fn function(&mut self) -> Option<Function<'a>> {
        let head = self.next(0x41)?;
        let mut function = Function { place: head.place, field: head.whole, range: range(head.payload)?, rows: Vec::new(), root: None };
        self.at += 1;
        while let Some(row) = self.next(0x42) {
            if row.payload.len() != ROW_SIZE {
                return None;
            }
            function.rows.push((row.place, number(&row.payload[..8])));
            self.at += 1;
        }
        if self.next(0x43).is_some() {
            function.root = Some(self.node(0)?);
        }
        while let Some(site) = self.next(0x45) {
            if site.payload.len() < 9 {
                return None;
            }
            self.at += 1;
        }
        Some(function)
    }

    /// The node of a depth that comes next, and those below it.
    fn node(&mut self, depth: usize) -> Option<Node> {
        if self.next_depth()? != depth || depth > DEEPEST {
            return None;
        }
        let mut node = Node { place: self.fields[self.at].place, ranges: Vec::new(), children: Vec::new() };
        self.at += 1;
        while let Some(field) = self.next(0x44) {
            if field.payload.len() != 16 {
                return None;
            }
            node.ranges.push(range(field.payload)?);
            self.at += 1;
        }
        if node.ranges.is_empty() {
            return None;
        }
        while self.next_depth() == Some(depth + 1) {
            node.children.push(self.node(depth + 1)?);
        }
        Some(node)
    }
}

fn parsed(records: &[u8]) -> Result<Vec<Function<'_>>, u8> {
    let mut cursor = Cursor { fields: fields(records).ok_or(MISSHAPEN)?, at: 0 };
    let mut functions = Vec::new();
    while cursor.at < cursor.fields.len() {
        functions.push(cursor.function().ok_or(MISSHAPEN)?);
    }
    Ok(functions)
}

// ---- the queries

impl Node {
    fn holds(&self, address: u64) -> bool {
        self.ranges.iter().any(|range| range.holds(address))
    }

    fn chain(&self, address: u64, places: &mut Vec<usize>) {
        if self.holds(address) {
            places.push(self.place);
            if let Some(child) = self.children.iter().find(|child| child.holds(address)) {
                child.chain(address, places);
            }
        }
    }
}

pub fn look_up(records: &[u8], address: u64) -> Result<Frames, u8> {
    let functions = parsed(records)?;
    let function = functions.iter().find(|function| function.range.holds(address)).ok_or(NO_FUNCTION)?;
    let row = function.rows.iter().rev().find(|(_, row)| *row <= address).map(|(place, _)| *place);
    let mut chain = Vec::new();
    if let Some(root) = &function.root {
        root.chain(address, &mut chain);
    }
    Ok(Frames { function: function.place, row, chain })
}

pub fn nearest_below(records: &[u8], address: u64) -> Result<usize, u8> {
    let functions = parsed(records)?;
    let below: Vec<_> = functions.iter().filter(|function| function.range.end <= address).collect();
    let latest = below.iter().map(|function| function.range.end).max().ok_or(NO_FUNCTION)?;
    below.iter().find(|function| function.range.end == latest).map(|function| function.place).ok_or(NO_FUNCTION)
}

#[derive(Clone, Copy, Eq, PartialEq)]
pub enum Wanted {
    Inside,
    Crossing,
}

/// The fields of the functions that are wanted, for a list of so many bytes.
pub fn listed(records: &[u8], wanted: Wanted, (start, end): (u64, u64), room: usize) -> Result<Vec<u8>, u8> {
    let window = Range { start, end };
    let mut list = Vec::new();
    for function in parsed(records)? {
        let (first, last) = (function.range.start, function.range.end - 1);
        let inside = window.holds(first) && window.holds(last);
        // Two stretches that share an address hold the start of one of the two.
        let shared = start < end && (window.holds(first) || function.range.holds(start));
        if match wanted {
            Wanted::Inside => inside,
            Wanted::Crossing => shared && !inside,
        } {
            list.extend_from_slice(function.field);
        }
    }
    match list.len() {
        length if length > room => Err(SHORT),
        0 => Err(NO_FUNCTION),
        _ => Ok(list),
    }
}

/// Addresses at which something begins or ends, of a buffer of any content: of functions, rows and ranges.
pub fn edges(records: &[u8]) -> Vec<u64> {
    let mut edges = vec![0, 1, u64::MAX];
    let mut place = 0;
    while let Some(head) = records.get(place..place + 3) {
        let next = place + 3 + number(&head[1..]) as usize;
        let Some(payload) = records.get(place + 3..next) else { break };
        let numbers = match head[0] {
            0x41 | 0x44 => 2,
            0x42 => 1,
            _ => 0,
        };
        for value in payload.chunks_exact(8).take(numbers).map(number) {
            edges.extend([value.wrapping_sub(1), value, value.wrapping_add(1)]);
        }
        place = next;
    }
    edges.sort_unstable();
    edges.dedup();
    edges
}
