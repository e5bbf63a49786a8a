//! Looks addresses of an object up: the functions that are running there, inlined ones among them, with files and lines.

mod answers;
mod print;
#[path = "../shared/progress.rs"]
mod progress;
#[path = "../shared/source.rs"]
mod source;
mod words;

use std::io::{self, BufRead, BufReader, Write};
use std::path::Path;
use std::process::ExitCode;
use std::{env, fs, process};

use pezgok::{Node, Table};

use answers::{BATCH, Output};
use progress::Progress;
use source::Stop;
use words::{Command, HELP, Look, address};

const UNANSWERED: u8 = 1;
const BAD_USE: u8 = 2;

fn main() -> ExitCode {
    let done = match words::read(env::args_os().skip(1)) {
        Ok(Command::Help) => {
            print!("{HELP}");
            Ok(true)
        }
        Ok(Command::Look(look)) => run(&look),
        Ok(Command::Index { object, file, given }) => index(&object, &file, &given),
        Err(words) => Err(Stop(Some(format!("{words}; ./look --help says more")))),
    };
    match done {
        Ok(true) => ExitCode::SUCCESS,
        Ok(false) => ExitCode::from(UNANSWERED),
        Err(Stop(words)) => {
            if let Some(words) = words {
                eprintln!("look: {words}");
            }
            ExitCode::from(BAD_USE)
        }
    }
}

fn fault(path: &Path, error: &io::Error) -> Stop {
    Stop(Some(format!("{}: {error}", path.display())))
}

/// Answers; true where every address has an answer.
fn run(look: &Look) -> Result<bool, Stop> {
    let progress = Progress::new("look");
    let is_index = source::is_index(&look.object).map_err(|error| fault(&look.object, &error))?;
    if is_index && !look.given.is_empty() {
        return Err(Stop(Some("an index has its supplementary file's data already".into())));
    }
    let asked = if look.addresses.is_empty() && !is_index && !look.deepest { Some(all_of_input()?) } else { None };
    let given = asked.as_deref().unwrap_or(&look.addresses);
    let table = if is_index {
        source::of_index(&look.object, &progress)?
    } else {
        source::of_object(&look.object, &look.given, (!look.deepest).then_some(given), &progress, "look")?
    };
    let deepest = look.deepest.then(|| deepest(&table)).flatten();
    progress.stage("addresses looked up", 0);
    let mut out = Output::new(&table, look.json, io::stdout().lock());
    if is_index && look.addresses.is_empty() && !look.deepest {
        return stream(out, &progress);
    }
    let deepest = deepest.map(|address| [address]);
    let asked = match &deepest {
        Some(address) => &address[..],
        None if look.deepest => return Err(Stop(Some(format!("{}: it has no function", look.object.display())))),
        None => given,
    };
    out.answer(asked, &progress).and_then(|()| out.flush()).map_err(|error| closed(&error))?;
    Ok(out.answered)
}

/// Answers what has been read so far before it waits for more, so that another program can ask and wait.
fn stream<W: Write>(mut out: Output<'_, W>, progress: &Progress) -> Result<bool, Stop> {
    let mut input = BufReader::with_capacity(1 << 16, io::stdin().lock());
    let (mut line, mut number, mut asked) = (String::new(), 0, Vec::new());
    loop {
        if input.buffer().is_empty() || asked.len() >= BATCH {
            out.answer(&asked, progress).and_then(|()| out.flush()).map_err(|error| closed(&error))?;
            asked.clear();
        }
        line.clear();
        number += 1;
        progress.rest(true);
        let ended = read_line(&mut input, &mut line)? == 0;
        progress.rest(false);
        let bad = line.split_whitespace().find(|word| address(word).map(|address| asked.push(address)).is_none());
        if ended || bad.is_some() {
            out.answer(&asked, progress).and_then(|()| out.flush()).map_err(|error| closed(&error))?;
            return bad.map_or(Ok(out.answered), |word| Err(bad_line(number, word)));
        }
    }
}

/// All addresses of standard input.
fn all_of_input() -> Result<Vec<u64>, Stop> {
    let mut input = BufReader::new(io::stdin().lock());
    let (mut line, mut number, mut asked) = (String::new(), 0, Vec::new());
    loop {
        line.clear();
        number += 1;
        if read_line(&mut input, &mut line)? == 0 {
            return Ok(asked);
        }
        for word in line.split_whitespace() {
            asked.push(address(word).ok_or_else(|| bad_line(number, word))?);
        }
    }
}

fn read_line(input: &mut impl BufRead, line: &mut String) -> Result<usize, Stop> {
    input.read_line(line).map_err(|error| Stop(Some(format!("standard input: {error}"))))
}

fn bad_line(number: u64, word: &str) -> Stop {
    Stop(Some(format!("standard input, line {number}: {word} is no address in hex")))
}

/// A reader that has seen enough is no error.
fn closed(error: &io::Error) -> Stop {
    if error.kind() == io::ErrorKind::BrokenPipe {
        process::exit(0);
    }
    Stop(Some(error.to_string()))
}

/// The first address of the deepest inlined call; of any function, where nothing is inlined.
fn deepest(table: &Table) -> Option<u64> {
    let nodes = table.functions().flat_map(|function| function.nodes().collect::<Vec<Node<'_>>>());
    let first = |node: &Node<'_>| node.ranges.first().map(|range| (node.depth, range.start));
    let inlined = nodes.filter_map(|node| first(&node)).reduce(|best, next| if next.0 > best.0 { next } else { best });
    inlined.map(|(_, address)| address).or_else(|| Some(table.functions().next()?.range().start))
}

/// Writes an index, beside its place and then renamed.
fn index(object: &Path, file: &Path, given: &[std::ffi::OsString]) -> Result<bool, Stop> {
    let progress = Progress::new("look");
    let table = source::of_object(object, given, None, &progress, "look")?;
    progress.stage("writing the index", 0);
    let mut draft = file.as_os_str().to_owned();
    draft.push(format!(".{}.tmp", process::id()));
    let written = fs::write(&draft, table.to_bytes()).and_then(|()| fs::rename(&draft, file));
    if let Err(error) = written {
        // Nothing is left behind, if there was anything.
        let _ = fs::remove_file(&draft);
        return Err(fault(file, &error));
    }
    Ok(true)
}
