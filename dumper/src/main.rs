//! Dumps the units of DWARF in ELF files as the sheets that an import of one unit reads, or of all
//! units of a file.

mod about;
mod cases;
mod coverage;
mod decoder;
mod dump;
mod elf;
mod fields;
mod lines;
mod lists;
mod objects;
mod output;
mod parts;
mod separate;
mod sheet;
mod stream;
mod symbols;
mod unit;
mod whole;

use std::path::{Path, PathBuf};
use std::process::ExitCode;

use cases::cases;
use objects::{each_unit, Summary};
use output::{fault, Pending};

const USAGE: &str = "\
usage: dumper dump OBJECT OUTDIR [--programs] [--lists] [--supplementary FILE]
       dumper whole OBJECT OUTDIR [--programs] [--lists] [--supplementary FILE]
       dumper cases OBJECT.. --out CASES [--whole] [--programs] [--lists] [--append] [--list LIST]
                    [--times TIMES] [--supplementary FILE]
       dumper stream OBJECT [--supplementary FILE] [--addresses] [--whole | --most FIELDS]";

fn main() -> ExitCode {
    let arguments = std::env::args_os().skip(1).map(PathBuf::from).collect();
    match run(arguments) {
        Ok(()) => ExitCode::SUCCESS,
        Err(stop) => {
            eprintln!("dumper: {}", stop.message);
            ExitCode::from(stop.status)
        }
    }
}

/// Bad input. An object without debug data is none, and has a status of its own; so has one whose
/// units are not to be had in one sheet.
const FAULT: u8 = 1;
const NO_DEBUG_DATA: u8 = 3;
const NOT_WHOLE: u8 = 4;

/// What a run ends with where it gives no output.
struct Stop {
    message: String,
    status: u8,
}

impl From<String> for Stop {
    fn from(message: String) -> Self {
        Stop {
            message,
            status: FAULT,
        }
    }
}

impl From<&str> for Stop {
    fn from(message: &str) -> Self {
        message.to_owned().into()
    }
}

#[derive(Default)]
struct Options {
    plain: Vec<PathBuf>,
    out: Option<PathBuf>,
    list: Option<PathBuf>,
    times: Option<PathBuf>,
    supplementary: Option<PathBuf>,
    append: bool,
    whole: bool,
    programs: bool,
    lists: bool,
}

impl Options {
    fn asked(&self) -> Asked<'_> {
        Asked {
            supplementary: self.supplementary.as_deref(),
            programs: self.programs,
            lists: self.lists,
            timed: self.times.is_some(),
        }
    }
}

/// What is asked of a file: its supplementary one, if one was given, whether rows are left to the
/// line programs and ranges to their lists, and whether the decoder is timed on the programs.
#[derive(Clone, Copy)]
struct Asked<'a> {
    supplementary: Option<&'a Path>,
    programs: bool,
    lists: bool,
    timed: bool,
}

fn run(arguments: Vec<PathBuf>) -> Result<(), Stop> {
    let mut options = Options::default();
    let mut arguments = arguments.into_iter();
    let command = arguments.next().ok_or(USAGE)?;
    if command.to_str() == Some("stream") {
        return stream::run(arguments);
    }
    while let Some(argument) = arguments.next() {
        let place = match argument.to_str() {
            Some("--out") => &mut options.out,
            Some("--list") => &mut options.list,
            Some("--times") => &mut options.times,
            Some("--supplementary") => &mut options.supplementary,
            Some("--append") => {
                options.append = true;
                continue;
            }
            Some("--whole") => {
                options.whole = true;
                continue;
            }
            Some("--programs") => {
                options.programs = true;
                continue;
            }
            Some("--lists") => {
                options.lists = true;
                continue;
            }
            Some(other) if other.starts_with("--") => {
                return Err(format!("{other}?\n{USAGE}").into())
            }
            _ => {
                options.plain.push(argument);
                continue;
            }
        };
        *place = Some(arguments.next().ok_or(USAGE)?);
    }
    match (command.to_str(), &*options.plain, &options.out) {
        (Some(word @ ("dump" | "whole")), [object, folder], None)
            if options.list.is_none()
                && options.times.is_none()
                && !options.append
                && !options.whole =>
        {
            if word == "whole" {
                whole::whole(object, folder, options.asked())
            } else {
                dump(object, folder, options.asked())
            }
        }
        (Some("cases"), [_, ..], Some(out)) if !(options.whole && options.times.is_some()) => {
            cases(&options, out)
        }
        _ => Err(USAGE.into()),
    }
}

fn dump(object: &Path, place: &Path, asked: Asked) -> Result<(), Stop> {
    let pending = Pending::new(place)?;
    let folder = pending.folder()?;
    let mut index =
        String::from("unit\tordinal\toffset\tversion\tmain\tsupplementary\tline\tfields\tname\n");
    let mut summary = Summary::default();
    let ended = each_unit(object, asked, &mut summary, |about, dump| {
        let parts = [
            ("main", &dump.main.bytes),
            ("sup", &dump.supplementary.bytes),
            ("line", &dump.program),
            ("lists", &dump.lists),
            ("addresses", &dump.addresses),
        ];
        // The last two are there where they are asked for.
        for (kind, bytes) in &parts[..if asked.lists { 5 } else { 3 }] {
            let path = folder.join(format!("{:04}.{kind}", about.number));
            std::fs::write(&path, bytes).map_err(|error| fault(place, error))?;
        }
        index += &format!(
            "{:04}\t{}\t{:#x}\t{}\t{}\t{}\t{}\t{}\t{}\n",
            about.number,
            dump.ordinal,
            about.offset,
            about.version,
            dump.main.bytes.len(),
            dump.supplementary.bytes.len(),
            dump.program.len(),
            dump.main.fields + dump.supplementary.fields,
            about.name
        );
        Ok(())
    });
    let symbols = &summary.symbols;
    // Without debug data there may still be symbols.
    if let Err(stop) = &ended {
        if stop.status != NO_DEBUG_DATA || symbols.bytes.is_empty() {
            return ended;
        }
    }
    std::fs::write(folder.join("index"), index).map_err(|error| fault(place, error))?;
    std::fs::write(folder.join("symbols"), &symbols.bytes).map_err(|error| fault(place, error))?;
    pending.finish()?;
    summary.print("units");
    symbols.print();
    ended
}
