//! The tree of inlined calls of one function: as text, or as a picture over its addresses.

#[path = "../shared/progress.rs"]
mod progress;
#[path = "../shared/source.rs"]
mod source;
mod svg;

use std::ffi::OsString;
use std::io::{self, BufWriter, Write};
use std::path::{Path, PathBuf};
use std::process::ExitCode;
use std::{env, fs};

use pezgok::{Function, Node, readable};

use progress::Progress;
use source::Stop;

const NO_FUNCTION: u8 = 1;
const BAD_USE: u8 = 2;

const USAGE: &str = "./list --tree FUNCTION [--text | --svg OUT.svg] OBJECT|INDEX, in any order";

struct Words {
    object: PathBuf,
    function: OsString,
    /// None: as text.
    picture: Option<PathBuf>,
    given: Vec<OsString>,
}

fn read(mut words: impl Iterator<Item = OsString>) -> Option<Words> {
    let (mut object, mut function, mut picture, mut text, mut given) = (None, None, None, false, Vec::new());
    while let Some(word) = words.next() {
        match word.to_str() {
            Some("--tree") => function = Some(words.next()?),
            Some("--svg") => picture = Some(words.next()?.into()),
            Some("--text") => text = true,
            Some("--supplementary") => given.extend([word, words.next()?]),
            Some(other) if other.starts_with("--") => return None,
            _ if object.is_none() => object = Some(word.into()),
            _ => return None,
        }
    }
    let words = Words { object: object?, function: function?, picture, given };
    (words.picture.is_none() || !text).then_some(words)
}

fn main() -> ExitCode {
    let done = match read(env::args_os().skip(1)) {
        Some(words) => run(&words),
        None => Err(Stop(Some(USAGE.into()))),
    };
    match done {
        Ok(true) => ExitCode::SUCCESS,
        Ok(false) => ExitCode::from(NO_FUNCTION),
        Err(Stop(words)) => {
            if let Some(words) = words {
                eprintln!("list: {words}");
            }
            ExitCode::from(BAD_USE)
        }
    }
}

/// False where there is no such function.
fn run(words: &Words) -> Result<bool, Stop> {
    let progress = Progress::new("list");
    let is_index = source::is_index(&words.object).map_err(|error| fault(&words.object, &error))?;
    let table = if is_index {
        source::of_index(&words.object, &progress)?
    } else {
        source::of_object(&words.object, &words.given, None, &progress, "list")?
    };
    let mut functions: Vec<Function<'_>> =
        table.functions().filter(|function| function.name() == words.function.as_encoded_bytes()).collect();
    if functions.is_empty() {
        eprintln!("list: {} has no function {}", words.object.display(), words.function.to_string_lossy());
        return Ok(false);
    }
    functions.sort_by_key(|function| function.range().start);
    match &words.picture {
        Some(place) => fs::write(place, svg::picture(&functions)).map_err(|error| fault(place, &error))?,
        None => text(&functions).map_err(|error| Stop(Some(error.to_string())))?,
    }
    Ok(true)
}

fn fault(path: &Path, error: &io::Error) -> Stop {
    Stop(Some(format!("{}: {error}", path.display())))
}

/// A line for each node, indented by its depth.
fn text(functions: &[Function<'_>]) -> io::Result<()> {
    let mut out = BufWriter::new(io::stdout().lock());
    for function in functions {
        let range = function.range();
        let known = if function.is_by_symbol() { " (symbol)" } else { "" };
        writeln!(out, "{}{known} {:x}-{:x}", readable(function.name()), range.start, range.end)?;
        for node in function.nodes().filter(|node| node.depth > 0) {
            writeln!(out, "{:indent$}{}{}", "", readable(node.name), about(&node), indent = 2 * node.depth)?;
        }
    }
    match out.flush() {
        Err(error) if error.kind() != io::ErrorKind::BrokenPipe => Err(error),
        _ => Ok(()),
    }
}

/// A node's ranges, and where it is called.
fn about(node: &Node<'_>) -> String {
    let ranges: String = node.ranges.iter().map(|range| format!(" {:x}-{:x}", range.start, range.end)).collect();
    match (&node.call_file, node.call_line) {
        (Some(file), line) => format!("{ranges}, called at {file}:{line}"),
        (None, 0) => ranges,
        (None, line) => format!("{ranges}, called at line {line}"),
    }
}
