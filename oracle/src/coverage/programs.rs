//! What of request E8's row machine the cases reach. It is run again here, instruction by instruction; what an instruction is, is read from its bytes.

use super::{Data, RULES, Reached, Rule};
use crate::convert::dwarf::lines::sequences;
use crate::error::refusal as number_of;
use crate::generate::before_header_end;
use crate::machine::{Met, Program};
use crate::stand_in::gimli::{Dwarf, LineProgramHeader, LineRow, RowKind, Slice};

/// One more than the last address.
const TOP: u128 = 1 << 64;
/// What a line is at least that fell below 0.
const WRAPPED: u128 = 1 << 63;
/// Operand counts of opcodes 1 to 12 (6.2.5.2).
const COUNTS: [u8; 12] = [0, 1, 1, 1, 1, 0, 0, 0, 1, 0, 0, 1];
const MISMATCH: usize = 5;
const LARGE_LINE: usize = 7;

/// What the Rust's scan makes of a program, wherever it begins; none where it begins past 2^64 − 1.
fn scan(header: &LineProgramHeader<Slice<'_>>) -> Option<Result<usize, u8>> {
    let before = before_header_end(header.version() as u8, header.encoding.format.word_size());
    let begin = u128::from(before) + header.offset as u128 + header.length as u128;
    let begin = u64::try_from(begin).ok()?;
    let scanned = sequences(header.program.0, header.opcode_lengths.0, header.opcode_base, begin);
    Some(scanned.map(|starts| starts.len()).map_err(|error| number_of(&error)))
}

/// An imported unit with field 1d: its refusal, 0 if it has none, and how many warnings of each kind it has.
pub fn unit(unit: &Data<'_>, refusal: u8, warnings: &[usize; 12], reached: &mut Reached) {
    let Some((header, encoding)) = unit.encoded() else { return };
    let program = Program { encoding, base: header.opcode_base, lengths: header.opcode_lengths.0, bytes: header.program.0 };
    let mut seen = Seen::default();
    let (rows, fault) = program.run(|met| seen.met(&program, header.version(), met, refusal == 0, reached));
    match fault {
        Some(21) => encoding_refused(&program, scan(header).is_none(), reached),
        Some(22) => reached.hit(seen.way, true),
        Some(number) => operand_refused(number, scan(header), reached),
        None if refusal == 0 => sound(&rows, warnings, scan(header), reached),
        None => reached.hit(Rule::ScanAlone, scan(header) == Some(Err(refusal))),
    }
    reached.hit(Rule::FallWithoutRow, fault == Some(22) && seen.without_row);
    reached.hit(Rule::PastByProduct, fault == Some(22) && seen.product);
}

/// A finished unit whose program is a part, where all of the lent program would be refused.
pub fn part(unit: &Data<'_>, lent: &[u8], reached: &mut Reached) {
    if let Some((header, encoding)) = unit.encoded() {
        let program = Program { encoding, base: header.opcode_base, lengths: header.opcode_lengths.0, bytes: lent };
        reached
            .hit(Rule::PartAlone, header.program.0.len() < lent.len() && !header.program.0.is_empty() && program.run(|_| ()).1.is_some());
    }
}

/// The units of a finished import of all.
pub fn all(dwarf: &Dwarf<Slice<'_>>, reached: &mut Reached) {
    let with_rows = |encoded: bool| dwarf.units.iter().any(|unit| unit.encoding.is_some() == encoded && unit.rows().len() > 1);
    reached.hit(Rule::Mixed, with_rows(true) && with_rows(false));
}

/// What is remembered of the instructions so far.
struct Seen {
    /// How the last instruction moves the address.
    way: Rule,
    without_row: bool,
    product: bool,
    /// The address at the end of the last sequence, and at the last row of this one.
    ended_at: Option<u128>,
    row_at: Option<u128>,
    /// Whether the line fell below 0 in this sequence.
    wrapped: bool,
}

impl Default for Seen {
    fn default() -> Self {
        Self { way: Rule::PastBySpecial, without_row: false, product: false, ended_at: None, row_at: None, wrapped: false }
    }
}

/// An instruction, as its bytes tell it.
struct Instruction<'p> {
    opcode: u8,
    /// Of an extended one.
    sub: Option<u8>,
    operand: &'p [u8],
}

fn instruction<'p>(bytes: &'p [u8], met: &Met) -> Instruction<'p> {
    let [opcode, rest @ ..] = &bytes[met.at..met.end] else { return Instruction { opcode: 0, sub: None, operand: &[] } };
    if *opcode > 0 {
        return Instruction { opcode: *opcode, sub: None, operand: rest };
    }
    let length = rest.iter().take_while(|byte| **byte & 0x80 != 0).count() + 1;
    match rest.get(length..) {
        Some([sub, operand @ ..]) => Instruction { opcode: 0, sub: Some(*sub), operand },
        _ => Instruction { opcode: 0, sub: None, operand: &[] },
    }
}

impl Seen {
    fn met(&mut self, program: &Program<'_>, version: u16, met: &Met, finished: bool, reached: &mut Reached) {
        let now = instruction(program.bytes, met);
        let is_special = now.opcode > 0 && now.opcode >= program.base;
        if let Some(to) = met.to {
            let falls = to < met.before.address;
            self.way = match (now.opcode, now.sub) {
                _ if is_special => Rule::PastBySpecial,
                (0, _) if falls => Rule::FallBySet,
                (0, _) => Rule::PastBySet,
                (2, _) => Rule::PastByAdvance,
                (8, _) => Rule::PastByConstant,
                _ => Rule::PastByFixed,
            };
            self.without_row = falls && self.row_at.is_none_or(|row| row <= to);
            let length = u128::from(program.encoding.minimum_length).max(1);
            self.product = now.opcode == 2 && !is_special && length > 1 && met.before.address + (to - met.before.address) / length < TOP;
        }
        if met.fault != 0 {
            return;
        }
        // Of a program that is refused later, what it did counts for nothing.
        let mut unused = Reached([false; RULES.len()]);
        let reached = if finished { reached } else { &mut unused };
        self.wrapped |= met.before.line >= WRAPPED;
        reached.hit(Rule::LastAddress, met.before.address == TOP - 1);
        match now.opcode {
            0 => self.extended(program, met, &now, reached),
            opcode if is_special => {
                reached.hit(Rule::Special, true);
                reached.hit(Rule::SpecialKnown, opcode < 13);
                self.row(met, reached);
            }
            opcode @ 1..=12 => self.known(program, version, opcode, now.operand, met, reached),
            opcode => {
                let declared = program.lengths.get(usize::from(opcode) - 1);
                reached.hit(Rule::Unknown, declared.is_some_and(|count| *count > 0));
                reached.hit(Rule::UnknownPast, declared.is_none());
            }
        }
    }

    fn row(&mut self, met: &Met, reached: &mut Reached) {
        reached.hit(Rule::LineBack, self.wrapped && met.before.line < 1 << 32);
        reached.hit(Rule::ColumnLarge, met.before.column > u128::from(u16::MAX));
        self.row_at = Some(met.to.unwrap_or(met.before.address));
    }

    fn known(&mut self, program: &Program<'_>, version: u16, opcode: u8, operand: &[u8], met: &Met, reached: &mut Reached) {
        use Rule::*;
        const RULES: [Rule; 12] = [
            Copied,
            AdvancePc,
            AdvanceLine,
            SetFile,
            SetColumn,
            NegateStatement,
            BasicBlock,
            ConstantAdd,
            FixedAdd,
            PrologueEnd,
            EpilogueBegin,
            SetIsa,
        ];
        let place = usize::from(opcode) - 1;
        reached.hit(RULES[place], true);
        reached.hit(OldOpcode, version == 2 && opcode > 9);
        let other = program.lengths.get(place).copied().unwrap_or(0) != COUNTS[place];
        let unsigned = matches!(opcode, 2 | 4 | 5 | 12);
        reached.hit(OtherCount, unsigned && other);
        reached.hit(OtherCountSigned, opcode == 3 && other);
        reached.hit(PaddedUnsigned, unsigned && operand.len() == 10);
        reached.hit(PaddedSigned, opcode == 3 && operand.len() == 10);
        let (length, moves) = (program.encoding.minimum_length, opcode == 2 && operand.iter().any(|byte| byte & 0x7f != 0));
        reached.hit(LengthZero, length == 0 && moves);
        reached.hit(LengthMore, length > 1 && moves);
        if opcode == 1 {
            self.row(met, reached);
        }
    }

    fn extended(&mut self, program: &Program<'_>, met: &Met, now: &Instruction<'_>, reached: &mut Reached) {
        use Rule::*;
        reached.hit(ByteZero, program.base < 2);
        match now.sub {
            Some(1) => {
                reached.hit(EndSequence, true);
                reached.hit(LongerEnd, !now.operand.is_empty());
                *self = Self { ended_at: Some(met.before.address), ..Self::default() };
            }
            Some(2) => {
                let rule = match now.operand.len() {
                    0 => SetAddressNone,
                    1..8 => SetAddressShort,
                    8 => SetAddressEight,
                    _ => SetAddressLong,
                };
                reached.hit(rule, true);
                reached.hit(SameAddress, met.before.address > 0 && met.to == Some(met.before.address));
                reached.hit(Anew, self.ended_at.is_some_and(|end| met.to.is_some_and(|to| to < end)));
            }
            Some(3) => reached.hit(DefineFile, true),
            Some(4) => reached.hit(Discriminator, true),
            _ => reached.hit(OtherExtended, true),
        }
    }
}

fn encoding_refused(program: &Program<'_>, late: bool, reached: &mut Reached) {
    let encoding = program.encoding;
    reached.hit(Rule::RangeZero, encoding.line_range == 0 && encoding.operations == 1);
    reached.hit(Rule::OperationsZero, encoding.operations == 0 && encoding.line_range > 0);
    reached.hit(Rule::OperationsMore, encoding.operations > 1 && encoding.line_range > 0);
    reached.hit(Rule::EncodingOfNothing, program.bytes.is_empty());
    reached.hit(Rule::EncodingFirst, late);
}

/// 7 to 12 by an instruction; the scan would give 12 where the program begins past 2^64 − 1.
fn operand_refused(number: u8, scan: Option<Result<usize, u8>>, reached: &mut Reached) {
    use Rule::*;
    let place = usize::from(number) - 7;
    reached.hit([Machine7, Machine8, Machine9, Machine10, Machine11, Machine12][place], true);
    match (scan, [Early7, Early8, Early9, Early10, Early11].get(place)) {
        (None, Some(rule)) => reached.hit(*rule, true),
        (Some(scan), _) => reached.hit(MachineAlone, scan != Err(number)),
        _ => {}
    }
}

fn sound(rows: &[LineRow], warnings: &[usize; 12], scan: Option<Result<usize, u8>>, reached: &mut Reached) {
    let ends = rows.iter().filter(|row| row.kind == RowKind::End).count();
    let ended = rows.iter().rposition(|row| row.kind == RowKind::End).unwrap_or(0);
    reached.hit(Rule::OpenRows, rows.len() > ended + 1);
    reached.hit(Rule::TwoSequences, ends > 1 && rows.len() > ends);
    let wrapped = rows[..ended].iter().any(|row| row.line >= 1 << 63);
    reached.hit(Rule::LineWrapped, wrapped && warnings[LARGE_LINE] > 0);
    reached.hit(Rule::MismatchByCount, warnings[MISMATCH] == 1 && scan != Some(Ok(ends)));
}
