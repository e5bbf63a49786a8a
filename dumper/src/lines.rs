//! A unit's line program: its header and its rows.

use gimli::{ColumnType, LineProgramHeader};

use crate::unit::Slice;

/// A unit's line program, run to its end.
pub struct Lines<'a> {
    pub header: LineProgramHeader<Slice<'a>>,
    pub program: &'a [u8],
    /// What field 1d says of the header, where rows are left to the program.
    pub encoding: Option<[u8; 5]>,
    pub rows: Vec<Row>,
}

pub struct Row {
    pub address: u64,
    pub file: u64,
    pub line: u64,
    /// 0 for the left edge; a column that does not fit is the largest.
    pub column: u16,
    /// 0 plain, 1 end of sequence, 2 failed here.
    pub kind: u8,
}

/// The kind of a row that neither ends a sequence nor failed.
pub const PLAIN: u8 = 0;

impl<'a> Lines<'a> {
    pub fn run(program: gimli::IncompleteLineProgram<Slice<'a>>, programs: bool) -> Self {
        let bytes = program.header().raw_program_buf().slice();
        let mut decoder = program.rows();
        let mut rows = Vec::new();
        loop {
            match decoder.next_row() {
                Ok(Some((_, row))) => rows.push(Row {
                    address: row.address(),
                    file: row.file_index(),
                    line: row.line().map_or(0, |line| line.get()),
                    column: match row.column() {
                        ColumnType::LeftEdge => 0,
                        ColumnType::Column(column) => column.get().try_into().unwrap_or(u16::MAX),
                    },
                    kind: row.end_sequence().into(),
                }),
                Ok(None) => break,
                Err(_) => {
                    rows.push(Row {
                        address: 0,
                        file: 0,
                        line: 0,
                        column: 0,
                        kind: 2,
                    });
                    break;
                }
            }
        }
        // The program may have added files, so the header is taken after it.
        let header = decoder.header().clone();
        if programs {
            rows.clear();
        }
        Lines {
            encoding: programs.then(|| encoding(&header)),
            header,
            program: bytes,
            rows,
        }
    }
}

/// Minimum instruction length, operations per instruction (1 before version 4), default statement
/// flag, line base, line range.
fn encoding(header: &LineProgramHeader<Slice>) -> [u8; 5] {
    let encoding = header.line_encoding();
    [
        encoding.minimum_instruction_length,
        encoding.maximum_operations_per_instruction,
        encoding.default_is_stmt.into(),
        encoding.line_base as u8,
        encoding.line_range,
    ]
}
