//! Lists the units of a folder that `dumper dump` wrote: for each a heading, then what the import gives, in the words of the listing program. Of a
//! folder that `dumper whole` wrote, the headings of all units, then what one import of all gives; where it is refused, the status is 4. With
//! `--symbols`, behind the units, the functions that are known only by symbol.

use std::io::{self, BufWriter, IsTerminal, Write};
use std::path::Path;
use std::{env, fs, process};

use pezgok::fields::{Fields, LINE_ENCODING, RANGE_LIST};
use pezgok::{
    Buffers, Finished, Inputs, Options, Refusal, import, import_dwarf, join_symbols, list_work_length, measure, measure_dwarf, work_length,
    work_length_encoded,
};

/// The status where a unit is refused, and so all are.
const REFUSED: i32 = 4;

fn main() {
    let words: Vec<_> = env::args_os().skip(1).collect();
    let (folder, with_symbols) = match &words[..] {
        [folder] => (folder, false),
        [folder, word] if word == "--symbols" => (folder, true),
        _ => fail("list FOLDER [--symbols]: a folder that `dumper dump` or `dumper whole` wrote"),
    };
    let folder = Path::new(folder);
    let index = fs::read_to_string(folder.join("index")).unwrap_or_else(|error| fail(&format!("{}: {error}", folder.display())));
    let rows: Vec<Vec<&str>> = index.lines().skip(1).map(|line| line.split('\t').collect()).collect();
    let mut out = BufWriter::new(io::stdout().lock());
    let shown = io::stderr().is_terminal() || rows.len() > 100;
    let mut all = Vec::new();
    let whole = folder.join("whole.main").exists();
    if whole {
        all = list_whole(folder, &rows, &mut out).unwrap_or_else(|error| stop(&error));
    }
    for (place, row) in rows.iter().enumerate().take(if whole { 0 } else { rows.len() }) {
        let [unit, ordinal, .., name] = row[..] else { fail("the folder's index is cut off") };
        let Ok(ordinal) = ordinal.parse() else { fail("the folder's index has no ordinal") };
        if shown && place % 100 == 99 {
            eprintln!("{} of {} units", place + 1, rows.len());
        }
        match list(folder, unit, ordinal, name, &mut out) {
            Ok(records) if with_symbols => all.extend(records),
            Ok(_) => (),
            Err(error) => stop(&error),
        }
    }
    let listed = if with_symbols { symbols(folder, &all, &mut out) } else { Ok(()) };
    if let Err(error) = listed.and_then(|()| out.flush()) {
        stop(&error);
    }
}

/// A reader that has seen enough is no error.
fn stop(error: &io::Error) -> ! {
    if error.kind() == io::ErrorKind::BrokenPipe {
        process::exit(0);
    }
    fail(&error.to_string());
}

fn fail(message: &str) -> ! {
    eprintln!("list: {message}");
    process::exit(2);
}

/// Lists a unit and gives its records; none where it is refused.
fn list(folder: &Path, unit: &str, ordinal: u64, name: &str, out: &mut impl Write) -> io::Result<Vec<u8>> {
    writeln!(out, "unit {unit} {name}")?;
    match imported(folder, unit, Some(ordinal))? {
        Ok(imported) => imported.list(out).map(|()| imported.records),
        Err(refusal) => refused(refusal, out).map(|()| Vec::new()),
    }
}

/// Lists all units of one import and gives their records.
fn list_whole(folder: &Path, rows: &[Vec<&str>], out: &mut impl Write) -> io::Result<Vec<u8>> {
    let imported = imported(folder, "whole", None)?.unwrap_or_else(|refusal| {
        eprintln!("list: a unit is refused, and so all are: refused {} {refusal}", refusal.number());
        process::exit(REFUSED)
    });
    for row in rows {
        let [unit, .., name] = row[..] else { fail("the folder's index is cut off") };
        writeln!(out, "unit {unit} {name}")?;
    }
    imported.list(out).map(|()| imported.records)
}

/// What an import gives.
struct Imported {
    done: Finished,
    records: Vec<u8>,
    files: Vec<u8>,
    warnings: Vec<u8>,
}

impl Imported {
    fn list(&self, out: &mut impl Write) -> io::Result<()> {
        finished(self.done, &self.records, &self.files, &self.warnings, out)
    }
}

/// Imports the unit of an ordinal, or all units, from its files in the folder, into buffers that are as long as needed.
fn imported(folder: &Path, name: &str, ordinal: Option<u64>) -> io::Result<Result<Imported, Refusal>> {
    let read = |ending: &str| fs::read(folder.join(format!("{name}.{ending}"))).unwrap_or_default();
    let main = fs::read(folder.join(format!("{name}.main")))?;
    let [supplementary, program, lists, addresses] = &["sup", "line", "lists", "addresses"].map(read);
    // A field has three bytes at least. Where a unit's rows come from its line program, its bytes take more; so do those of the list section.
    let encoded = Fields::new(&main).any(|field| field.tag == LINE_ENCODING);
    let work = if encoded { work_length_encoded } else { work_length };
    let listed = Fields::new(&main).filter(|field| field.tag == RANGE_LIST).count();
    let mut work = vec![0; work((main.len() + supplementary.len()) / 3, program.len()) + list_work_length(lists.len(), listed)];
    let inputs = Inputs { main: &main, supplementary, program, lists, addresses };
    let options = Options { ordinal: ordinal.unwrap_or(0), ..Options::default() };
    let measure = if ordinal.is_some() { measure } else { measure_dwarf };
    let import = if ordinal.is_some() { import } else { import_dwarf };
    Ok(measure(inputs, options, &mut work).and_then(|needed| {
        let [mut records, mut files, mut warnings] = [needed.records, needed.files, needed.warnings].map(buffer);
        let buffers = Buffers { work: &mut work, records: &mut records, files: &mut files, warnings: &mut warnings };
        let done = import(inputs, options, buffers)?;
        Ok(Imported { done, records, files, warnings })
    }))
}

/// The functions that the symbol tables add to the records of all units. Records of several units, one behind the other, are a records tray too.
fn symbols(folder: &Path, records: &[u8], out: &mut impl Write) -> io::Result<()> {
    let list = fs::read(folder.join("symbols"))?;
    writeln!(out, "symbols")?;
    let mut result = buffer(records.len() + list.len());
    match join_symbols(records, &list, &mut result) {
        Ok(length) => fields(&result[records.len()..length], &mut 1, out),
        Err(refusal) => refused(refusal, out),
    }
}

fn buffer(length: usize) -> Vec<u8> {
    let mut bytes = Vec::new();
    if bytes.try_reserve_exact(length).is_err() {
        fail(&format!("there is no memory for {length} bytes"));
    }
    bytes.resize(length, 0);
    bytes
}

fn refused(refusal: Refusal, out: &mut impl Write) -> io::Result<()> {
    writeln!(out, "refused {} {refusal}", refusal.number())
}

fn finished(done: Finished, records: &[u8], files: &[u8], warnings: &[u8], out: &mut impl Write) -> io::Result<()> {
    let mut file = 1;
    for tray in [&records[..done.records], &files[..done.files], &warnings[..done.warnings]] {
        fields(tray, &mut file, out)?;
    }
    writeln!(out, "stats {} {} {} {}", done.functions, done.line_rows, done.inline_nodes, done.rejected_ranges)
}

fn fields(mut tray: &[u8], file: &mut u64, out: &mut impl Write) -> io::Result<()> {
    while let [tag, low, high, after @ ..] = tray {
        let (payload, next) = after.split_at(usize::from(u16::from_le_bytes([*low, *high])));
        field(*tag, payload, file, out)?;
        tray = next;
    }
    Ok(())
}

fn field(tag: u8, p: &[u8], file: &mut u64, out: &mut impl Write) -> io::Result<()> {
    let number = |at: usize, size: usize| p[at..at + size].iter().rev().fold(0_u64, |value, &byte| value << 8 | u64::from(byte));
    let mut text = |head: String, bytes: &[u8]| {
        out.write_all(head.as_bytes())?;
        out.write_all(bytes)?;
        out.write_all(b"\n")
    };
    match tag {
        0x41 => text(format!("function {:x} {:x} ", number(0, 8), number(8, 8)), &p[16..]),
        0x42 => text(format!("row {:x} {} {} {}", number(0, 8), number(8, 4), number(12, 4), number(16, 2)), b""),
        0x43 => text(format!("inline {} {} {} ", number(0, 2), number(2, 4), number(6, 4)), &p[10..]),
        0x44 => text(format!("range {:x} {:x}", number(0, 8), number(8, 8)), b""),
        0x45 if p[8] == 0 => text(format!("site {:x}", number(0, 8)), b""),
        0x45 => text(format!("site {:x} ", number(0, 8)), &p[9..]),
        0x40 => {
            let split = 2 + number(0, 2) as usize;
            let names = [&p[2..split], b" ", &p[split..]].concat();
            *file += 1;
            text(format!("file {} ", *file - 1), &names)
        }
        _ if p[0] <= 2 => text(format!("warning {} ", p[0]), &p[1..]),
        _ => text(format!("warning {} {:x} {:x}", p[0], number(1, 8), number(9, 8)), b""),
    }
}
