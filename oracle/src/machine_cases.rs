//! Calls for the rows of a line program (document 02, E8), and the lines of text that they answer. The Rust leaves rows to its decoder: the row machine of
//! `machine.rs` answers here, written from the request. crates/line_answers answers the same calls.

use crate::answer::inputs;
use crate::case::Case;
use crate::compose::OPCODE_LENGTHS;
use crate::machine::{LineEncoding, Program};
use crate::programs::drawn;
use crate::random::Random;
use crate::stand_in::gimli::{LineRow, RowKind};

/// The first of the numbers by which these calls are drawn, so that no other kind of call is drawn by them.
const FIRST: u64 = 1 << 36;

/// What field 1d says, what the header says of opcodes, and the program. Its number in a file is 7.
pub struct Call {
    pub encoding: [u8; 5],
    pub base: u8,
    pub lengths: Vec<u8>,
    pub program: Vec<u8>,
}

/// Those by hand and then those of a seed, without end.
pub fn calls(seed: u64) -> impl Iterator<Item = Call> {
    by_hand().into_iter().map(|(call, _)| call).chain((FIRST..).map(move |number| {
        let random = &mut Random::new(seed, number);
        let odd = random.pick(&[0, 4, 10, 30, 60]);
        let drawn = drawn(random, odd, &[1, 2, 3]);
        Call { encoding: drawn.encoding, base: drawn.base, lengths: drawn.lengths, program: drawn.bytes }
    }))
}

impl Call {
    /// The kind, the length of what follows, and the call's values.
    pub fn bytes(&self) -> Vec<u8> {
        let body = [&self.encoding, [self.base, self.lengths.len() as u8].as_slice(), &self.lengths, &self.program].concat();
        [&[7], (body.len() as u32).to_le_bytes().as_slice(), &body].concat()
    }

    pub fn run(&self) -> (Vec<LineRow>, Option<u8>) {
        self.program().run(|_| ())
    }

    pub fn program(&self) -> Program<'_> {
        let [minimum_length, operations, flag, line_base, line_range] = self.encoding;
        let encoding = LineEncoding { minimum_length, operations, default_is_stmt: flag == 1, line_base: line_base as i8, line_range };
        Program { encoding, base: self.base, lengths: &self.lengths, bytes: &self.program }
    }

    pub fn answer(&self) -> String {
        match self.run() {
            (_, Some(fault)) => format!("refused {fault}"),
            (rows, None) => rows.iter().fold("program".to_owned(), |text, row| text + " " + &told(row)),
        }
    }
}

fn told(row: &LineRow) -> String {
    match row.kind {
        RowKind::Plain | RowKind::End => {
            let kind = u8::from(row.kind == RowKind::End);
            format!("{:x}:{}:{}:{}:{kind}", row.address, row.file, row.line, row.column)
        }
        RowKind::Failed => "failed".to_owned(),
        RowKind::Fault(number) => format!("refused {number}"),
    }
}

/// The rows of the imported units of a case, those of fields or of programs.
pub fn rows(case: &Case) -> String {
    match inputs(case) {
        Ok((dwarf, units)) => dwarf.units[units].iter().flat_map(|unit| unit.rows()).map(told).collect::<Vec<_>>().join(" "),
        Err(refusal) => format!("refused {refusal}"),
    }
}

/// Programs whose rows were told by hand, or their refusal.
pub fn by_hand() -> Vec<(Call, &'static str)> {
    const GCC: [u8; 5] = [1, 1, 1, 0xf6, 242];
    const CLANG: [u8; 5] = [1, 1, 1, 0xfb, 14];
    let call = |encoding: [u8; 5], base: u8, lengths: &[u8], parts: &[&[u8]]| Call {
        encoding,
        base,
        lengths: lengths.to_vec(),
        program: parts.concat(),
    };
    let with = |encoding: [u8; 5], base: u8, parts: &[&[u8]]| call(encoding, base, &OPCODE_LENGTHS, parts);
    let gcc = |parts: &[&[u8]]| with(GCC, 13, parts);
    let (nine, full) = ([0x80; 9].as_slice(), [0xff; 9].as_slice());
    let (end, to_1000) = ([0, 1, 1].as_slice(), [0, 9, 2, 0, 0x10, 0, 0, 0, 0, 0, 0].as_slice());
    let to_last = [0, 9, 2, 255, 255, 255, 255, 255, 255, 255, 255].as_slice();
    let nines = [vec![9; 12], vec![2]].concat();
    vec![
        (with([1, 1, 1, 0xf6, 0], 13, &[]), "refused 21"),
        (with([1, 4, 1, 0xf6, 242], 13, &[&[0]]), "refused 21"),
        (with([1, 0, 1, 0xf6, 242], 13, &[]), "refused 21"),
        (gcc(&[]), "program"),
        (gcc(&[end]), "program 0:1:1:0:1"),
        (gcc(&[&[1]]), "program 0:1:1:0:0"),
        (gcc(&[to_1000, &[5, 7, 4, 2, 3, 9, 1], end, &[1]]), "program 1000:2:10:7:0 1000:2:10:7:1 0:1:1:0:0"),
        (gcc(&[&[0x75]]), "program 0:1:95:0:0"),
        (with(CLANG, 13, &[&[0x75]]), "program 7:1:2:0:0"),
        (with([4, 1, 1, 0xfb, 14], 13, &[&[2, 3, 8, 9, 1, 1, 1]]), "program 151:1:1:0:0"),
        (gcc(&[&[13]]), "program 0:1:18446744073709551607:0:0"),
        (gcc(&[&[3, 0x7e, 1]]), "program 0:1:18446744073709551615:0:0"),
        (gcc(&[&[3], full, &[0x7f, 1]]), "program 0:1:0:0:0"),
        (gcc(&[&[3], nine, &[0x7f, 1]]), "program 0:1:9223372036854775809:0:0"),
        (gcc(&[&[3], full, &[1]]), "refused 10"),
        (gcc(&[&[3], full, &[0xff]]), "refused 11"),
        (gcc(&[&[3], full]), "refused 7"),
        (gcc(&[&[5, 0x80, 0x80, 4, 1]]), "program 0:1:1:65535:0"),
        (gcc(&[&[0, 3, 2, 0x34, 0x12, 1]]), "program 1234:1:1:0:0"),
        (gcc(&[&[0, 1, 2, 1]]), "program 0:1:1:0:0"),
        (gcc(&[&[0, 10, 2], &[0xff; 8], &[0, 1]]), "program ffffffffffffffff:1:1:0:0"),
        (gcc(&[&[0, 10, 2], &[0; 8], &[1]]), "refused 22"),
        (gcc(&[to_last, &[2, 1]]), "refused 22"),
        (with([2, 1, 1, 0xf6, 242], 13, &[&[2], nine, &[1]]), "refused 22"),
        (gcc(&[to_last, &[9, 1, 0]]), "refused 22"),
        (gcc(&[to_last, &[8]]), "refused 22"),
        (gcc(&[to_last, &[255]]), "refused 22"),
        (gcc(&[&[2, 5, 0, 2, 2, 4]]), "refused 22"),
        (gcc(&[&[2, 5, 0, 2, 2, 5]]), "program"),
        (gcc(&[to_1000, end, &[0, 2, 2, 4, 1]]), "program 1000:1:1:0:1 4:1:1:0:0"),
        (gcc(&[&[2, 5, 0, 2, 2, 4, 0]]), "refused 22"),
        (gcc(&[&[2, 5, 0, 3, 2, 4]]), "refused 7"),
        (gcc(&[&[0]]), "refused 7"),
        (gcc(&[&[0, 1]]), "refused 8"),
        (gcc(&[&[0, 0]]), "refused 9"),
        (gcc(&[&[0], full, &[1, 1]]), "refused 12"),
        (gcc(&[&[0, 3, 1, 0x55, 0x66, 1]]), "program 0:1:1:0:1 0:1:1:0:0"),
        (gcc(&[&[0, 2, 3, 0x41, 0, 2, 4, 0x80, 0, 1, 0x80, 1]]), "program 0:1:1:0:0"),
        (with(CLANG, 0, &[&[2], end]), "program 0:1:18446744073709551614:0:0 0:1:18446744073709551614:0:1"),
        (with(CLANG, 1, &[&[2]]), "program 0:1:18446744073709551613:0:0"),
        (with(CLANG, 10, &[&[10]]), "program 0:1:18446744073709551612:0:0"),
        (call(GCC, 13, &[], &[&[2, 5, 12, 1, 1]]), "program 5:1:1:0:0"),
        (call(GCC, 15, &nines, &[&[13, 0x81, 1, 1, 14, 6, 7, 10, 11, 1]]), "program 0:1:1:0:0"),
    ]
}
