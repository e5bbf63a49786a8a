//! Request E8: the rows of a line program by the row machine of the Standard's 6.2.2 and 6.2.5, written from its words and from the request's. Numbers
//! have 128 bits, so nothing wraps but what the request says. It shares nothing with the definitions that are proved.

use crate::stand_in::gimli::{LineRow, RowKind};

const CUT: u8 = 7;
const CUT_EXTENDED: u8 = 8;
const ZERO_EXTENDED: u8 = 9;
const OVERFLOWING: u8 = 10;
const OVERLONG: u8 = 11;
const OVERFLOW: u8 = 12;
const LINE_ENCODING: u8 = 21;
const LINE_ADDRESS: u8 = 22;

/// One more than the largest number of 64 bits.
const TOP: u128 = 1 << 64;

/// Field 1d: what the header says of advances.
#[derive(Clone, Copy, Debug)]
pub struct LineEncoding {
    pub minimum_length: u8,
    pub operations: u8,
    pub default_is_stmt: bool,
    pub line_base: i8,
    pub line_range: u8,
}

/// A program, and what its header says of opcodes.
#[derive(Clone, Copy)]
pub struct Program<'p> {
    pub encoding: LineEncoding,
    pub base: u8,
    pub lengths: &'p [u8],
    pub bytes: &'p [u8],
}

/// The registers that a row shows; is_stmt and those below it show in no row of document 01.
#[derive(Clone, Copy, Debug, PartialEq)]
pub struct Registers {
    pub address: u128,
    pub file: u128,
    pub line: u128,
    pub column: u128,
}

impl Registers {
    /// "At the beginning of each sequence".
    const FIRST: Self = Self { address: 0, file: 1, line: 1, column: 0 };

    /// E7: "a larger column is written 65,535".
    fn row(&self, kind: RowKind) -> LineRow {
        let [address, file, line] =
            [self.address, self.file, self.line].map(|number| u64::try_from(number).expect("a register of 64 bits"));
        LineRow { address, file, line, column: self.column.min(u128::from(u16::MAX)) as u16, kind }
    }
}

/// An instruction that was met.
pub struct Met {
    /// Where it stands, and how far it was read.
    pub at: usize,
    pub end: usize,
    pub before: Registers,
    /// The address that it moves to, allowed or not.
    pub to: Option<u128>,
    /// 0 if it has none.
    pub fault: u8,
}

impl Program<'_> {
    /// The rows up to the program's end or its first fault, and that fault. `met` sees each instruction.
    pub fn run(&self, mut met: impl FnMut(&Met)) -> (Vec<LineRow>, Option<u8>) {
        // "Line range 0 or operations other than 1, before any instruction".
        if self.encoding.line_range == 0 || self.encoding.operations != 1 {
            return (Vec::new(), Some(LINE_ENCODING));
        }
        let mut machine = Machine { program: *self, at: 0, registers: Registers::FIRST, to: None, rows: Vec::new() };
        while machine.at < self.bytes.len() {
            let (at, before) = (machine.at, machine.registers);
            machine.to = None;
            let fault = machine.step().err();
            met(&Met { at, end: machine.at, before, to: machine.to, fault: fault.unwrap_or(0) });
            if fault.is_some() {
                return (machine.rows, fault);
            }
        }
        (machine.rows, None)
    }
}

struct Machine<'p> {
    program: Program<'p>,
    /// The place of the next byte.
    at: usize,
    registers: Registers,
    /// Where the instruction under way moves to.
    to: Option<u128>,
    rows: Vec<LineRow>,
}

impl<'p> Machine<'p> {
    // ---- operands

    fn byte(&mut self) -> Result<u8, u8> {
        let byte = self.program.bytes.get(self.at).copied().ok_or(CUT)?;
        self.at += 1;
        Ok(byte)
    }

    /// So many bytes, whose end must be a number of 64 bits and inside the program.
    fn bytes(&mut self, count: u128) -> Result<&'p [u8], u8> {
        let end = self.at as u128 + count;
        if end >= TOP {
            return Err(OVERFLOW);
        }
        let bytes = self.program.bytes.get(self.at..end as usize).ok_or(CUT)?;
        self.at = end as usize;
        Ok(bytes)
    }

    /// The bytes of a LEB128 number (7.6), ten at most; the tenth has one of these low seven bits.
    fn leb(&mut self, tenth: [u8; 2]) -> Result<&'p [u8], u8> {
        let start = self.at;
        for place in 0.. {
            let byte = self.byte()?;
            if place == 9 && !tenth.contains(&(byte & 0x7f)) {
                return Err(OVERFLOWING);
            }
            if byte & 0x80 == 0 {
                break;
            }
            if place == 9 {
                return Err(OVERLONG);
            }
        }
        Ok(&self.program.bytes[start..self.at])
    }

    fn unsigned(&mut self) -> Result<u128, u8> {
        Ok(low_bits(self.leb([0, 1])?))
    }

    /// "Opcode 3 is always read signed, by E2's rule".
    fn signed(&mut self) -> Result<i128, u8> {
        let bytes = self.leb([0, 0x7f])?;
        let negative = bytes[bytes.len() - 1] & 0x40 != 0;
        Ok(low_bits(bytes) as i128 - if negative { 1 << (7 * bytes.len()) } else { 0 })
    }

    // ---- registers

    /// "An address register that falls within a sequence or passes 2^64 − 1".
    fn move_to(&mut self, address: u128) -> Result<(), u8> {
        self.to = Some(address);
        if address < self.registers.address || address >= TOP {
            return Err(LINE_ADDRESS);
        }
        self.registers.address = address;
        Ok(())
    }

    /// 6.2.5.1 with one operation in an instruction: the address is advanced by so many of them.
    fn advance(&mut self, operations: u128) -> Result<(), u8> {
        self.move_to(self.registers.address + u128::from(self.program.encoding.minimum_length) * operations)
    }

    /// The operation advance of a special opcode.
    fn advance_of(&self, opcode: u8) -> u128 {
        u128::from((opcode - self.program.base) / self.program.encoding.line_range)
    }

    /// "Lines wrap modulo 2^64".
    fn add_line(&mut self, lines: i128) {
        self.registers.line = (self.registers.line as i128 + lines).rem_euclid(TOP as i128) as u128;
    }

    fn append(&mut self, kind: RowKind) {
        self.rows.push(self.registers.row(kind));
    }

    // ---- instructions

    fn step(&mut self) -> Result<(), u8> {
        let opcode = self.byte()?;
        match opcode {
            0 => return self.extended(),
            _ if opcode >= self.program.base => return self.special(opcode),
            1 => self.append(RowKind::Plain),
            2 => {
                let operations = self.unsigned()?;
                self.advance(operations)?;
            }
            3 => {
                let lines = self.signed()?;
                self.add_line(lines);
            }
            4 => self.registers.file = self.unsigned()?,
            5 => self.registers.column = self.unsigned()?,
            // They change what no row shows.
            6 | 7 | 10 | 11 => {}
            8 => self.advance(self.advance_of(255))?,
            // Its operand is not multiplied.
            9 => {
                let bytes = number(self.bytes(2)?);
                self.move_to(self.registers.address + bytes)?;
            }
            12 => _ = self.unsigned()?,
            // "Header lengths serve unknown opcodes only".
            _ => {
                let declared = self.program.lengths.get(usize::from(opcode) - 1).copied().unwrap_or(0);
                for _ in 0..declared {
                    self.unsigned()?;
                }
            }
        }
        Ok(())
    }

    fn special(&mut self, opcode: u8) -> Result<(), u8> {
        let encoding = self.program.encoding;
        let adjusted = opcode - self.program.base;
        self.add_line(i128::from(encoding.line_base) + i128::from(adjusted % encoding.line_range));
        self.advance(self.advance_of(opcode))?;
        self.append(RowKind::Plain);
        Ok(())
    }

    /// "Every extended opcode (byte 0 at any base) ends where its length says; others but end sequence do nothing".
    fn extended(&mut self) -> Result<(), u8> {
        let length = self.unsigned()?;
        if length == 0 {
            return Err(ZERO_EXTENDED);
        }
        let opcode = self.byte().map_err(|_| CUT_EXTENDED)?;
        let operand = self.bytes(length - 1)?;
        match opcode {
            1 => {
                self.append(RowKind::End);
                self.registers = Registers::FIRST;
            }
            // "Set address reads all its operand bytes, lowest first": bytes past the sixteenth are zeros, or it is past 2^64 − 1 in any case.
            2 => {
                let (low, high) = operand.split_at(operand.len().min(16));
                self.move_to(if high.iter().all(|byte| *byte == 0) { number(low) } else { TOP })?;
            }
            _ => {}
        }
        Ok(())
    }
}

/// The low seven bits of each byte, the first one's lowest.
fn low_bits(bytes: &[u8]) -> u128 {
    bytes.iter().rev().fold(0, |value, byte| value << 7 | u128::from(byte & 0x7f))
}

/// The bytes as a number, the first one lowest.
fn number(bytes: &[u8]) -> u128 {
    bytes.iter().rev().fold(0, |value, byte| value << 8 | u128::from(*byte))
}
