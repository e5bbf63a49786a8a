//! Both sides on one case: its buffers, the calls, and their times.

use std::hint::black_box;
use std::time::{Duration, Instant};

use oracle::plain::{finished, inputs, written};
use oracle::{Case, judged};

use crate::call;

/// The least times of some turns.
#[derive(Clone, Copy)]
pub struct Times {
    pub ours: Duration,
    /// The Rust's parsing of the input, which checks the grammar.
    pub parse: Duration,
    /// The Rust's import_unit over the parsed input.
    pub import: Duration,
    /// The oracle's writing of what it leaves behind, as our import writes it but for columns, which the Rust as it stands does not know.
    pub write: Duration,
    /// A copy of the inputs.
    pub copy: Duration,
}

impl Times {
    pub const NONE: Self =
        Self { ours: Duration::ZERO, parse: Duration::ZERO, import: Duration::ZERO, write: Duration::ZERO, copy: Duration::ZERO };

    fn least(self, other: Self) -> Self {
        Self {
            ours: self.ours.min(other.ours),
            parse: self.parse.min(other.parse),
            import: self.import.min(other.import),
            write: self.write.min(other.write),
            copy: self.copy.min(other.copy),
        }
    }

    pub fn plus(self, other: Self) -> Self {
        Self {
            ours: self.ours + other.ours,
            parse: self.parse + other.parse,
            import: self.import + other.import,
            write: self.write + other.write,
            copy: self.copy + other.copy,
        }
    }

    pub fn together(self) -> Duration {
        self.parse + self.import
    }
}

/// The buffers of a call, as long as its outputs need.
pub struct Buffers {
    work: Vec<u8>,
    pub outputs: [Vec<u8>; 3],
    copied: Vec<u8>,
    pub refused: bool,
}

/// Buffers for a case, whose answers are the same on both sides.
pub fn buffers(case: &Case) -> Result<Buffers, String> {
    let expected = judged(case)?;
    let outputs = [&expected.records, &expected.files, &expected.warnings].map(|bytes| vec![0; bytes.len()]);
    let copied = vec![0; case.main.len() + case.supplementary.len() + case.program.len()];
    let mut buffers = Buffers { work: vec![0; case.work as usize], outputs, copied, refused: expected.refusal != 0 };
    let (refusal, statistics) = match ours(case, &mut buffers) {
        Ok(done) => (0, [done.functions, done.line_rows, done.inline_nodes, done.rejected_ranges]),
        Err(refusal) => (refusal.number(), [0; 4]),
    };
    let same = refusal == expected.refusal && statistics == expected.statistics;
    let said = match said(case, &mut buffers) {
        Ok(done) => (0, [done.records, done.files, done.warnings], [done.functions, done.line_rows, done.inline_nodes, done.rejected_ranges]),
        Err(refusal) => (refusal.number(), [0; 3], [0; 4]),
    };
    let same_said = said == (expected.refusal, buffers.outputs.each_ref().map(Vec::len), expected.statistics);
    if !same || !same_said || buffers.outputs != [expected.records, expected.files, expected.warnings] {
        return Err(format!("the answers differ: refusal {refusal}, the pass's {}, the Rust's {}", said.0, expected.refusal));
    }
    Ok(buffers)
}

pub fn ours(case: &Case, buffers: &mut Buffers) -> Result<pezgok::Finished, pezgok::Refusal> {
    let [records, files, warnings] = &mut buffers.outputs;
    let import = if case.all { pezgok::import_dwarf } else { pezgok::import };
    import(call::inputs(case), call::asked(case), pezgok::Buffers { work: &mut buffers.work, records, files, warnings })
}

/// What the pass that writes no buffer says of such an import.
pub fn said(case: &Case, buffers: &mut Buffers) -> Result<pezgok::Finished, pezgok::Refusal> {
    let measure = if case.all { pezgok::measure_dwarf } else { pezgok::measure };
    measure(call::inputs(case), call::asked(case), &mut buffers.work)
}

pub fn clear(buffers: &mut Buffers) {
    buffers.work.fill(0);
    buffers.outputs.iter_mut().for_each(|output| output.fill(0));
}

pub fn timed<T>(action: impl FnOnce() -> T) -> (Duration, T) {
    let start = Instant::now();
    let value = black_box(action());
    (start.elapsed(), value)
}

/// One turn of both sides; the buffers are cleared before each. What the Rust gives back is dropped outside its time.
fn turn(case: &Case, buffers: &mut Buffers) -> Times {
    clear(buffers);
    let (ours, _) = timed(|| ours(black_box(case), buffers));
    clear(buffers);
    let (parse, parsed) = timed(|| inputs(black_box(case)));
    let (mut import, mut write) = (Duration::ZERO, Duration::ZERO);
    if let Ok((dwarf, units)) = &parsed {
        let imported;
        (import, imported) = timed(|| finished(black_box(case), dwarf, units.clone()));
        if let Ok(imported) = imported {
            write = timed(|| written(&imported, case.first_file)).0;
        }
    }
    let (copy, ()) = timed(|| {
        let (main, rest) = buffers.copied.split_at_mut(case.main.len());
        let (supplementary, program) = rest.split_at_mut(case.supplementary.len());
        main.copy_from_slice(&case.main);
        supplementary.copy_from_slice(&case.supplementary);
        program.copy_from_slice(&case.program);
    });
    Times { ours, parse, import, write, copy }
}

pub fn measured(case: &Case, buffers: &mut Buffers, turns: u32) -> Times {
    let first = turn(case, buffers);
    (1..turns).fold(first, |least, _| least.least(turn(case, buffers)))
}
