//! Answers to many addresses, on all processors, in the order in which they were asked.

use std::io::{self, BufWriter, Write};
use std::panic;
use std::thread;

use pezgok::Table;

use crate::print;
use crate::progress::Progress;

/// As many addresses are answered at once.
pub const BATCH: usize = 8192;
/// For fewer no thread is started.
const LEAST: usize = 256;

pub struct Output<'a, W: Write> {
    table: &'a Table,
    json: bool,
    out: BufWriter<W>,
    /// Whether every address had an answer.
    pub answered: bool,
}

impl<'a, W: Write> Output<'a, W> {
    pub fn new(table: &'a Table, json: bool, out: W) -> Self {
        Self { table, json, out: BufWriter::with_capacity(1 << 16, out), answered: true }
    }

    pub fn flush(&mut self) -> io::Result<()> {
        self.out.flush()
    }

    pub fn answer(&mut self, asked: &[u64], progress: &Progress) -> io::Result<()> {
        let most = thread::available_parallelism().map_or(1, usize::from);
        for batch in asked.chunks(BATCH) {
            let workers = most.min(batch.len() / LEAST).max(1);
            if workers == 1 {
                self.answered &= answers(self.table, self.json, batch, &mut self.out)?;
            } else {
                self.answer_by(workers, batch)?;
            }
            progress.steps(batch.len() as u64);
        }
        Ok(())
    }

    /// Each worker answers a part, and the parts are written in order.
    fn answer_by(&mut self, workers: usize, batch: &[u64]) -> io::Result<()> {
        let (table, json) = (self.table, self.json);
        let parts = batch.chunks(batch.len().div_ceil(workers));
        thread::scope(|scope| {
            let answer = |part: &'_ [u64]| {
                let mut bytes = Vec::new();
                answers(table, json, part, &mut bytes).map(|answered| (answered, bytes))
            };
            let workers: Vec<_> = parts.map(|part| scope.spawn(move || answer(part))).collect();
            for worker in workers {
                let (answered, bytes) = worker.join().unwrap_or_else(|fault| panic::resume_unwind(fault))?;
                self.answered &= answered;
                self.out.write_all(&bytes)?;
            }
            Ok(())
        })
    }
}

/// Writes the answers; true where every address has one.
fn answers(table: &Table, json: bool, asked: &[u64], out: &mut impl Write) -> io::Result<bool> {
    let mut answered = true;
    for &address in asked {
        let answer = table.look_up(address);
        answered &= if json { print::json(address, answer, out)? } else { print::text(answer, out)? };
    }
    Ok(answered)
}
