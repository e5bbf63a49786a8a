//! Imports unit 0 of the files unit.main, unit.sup, unit.line, unit.lists and unit.addresses of a folder into buffers as long as it needs, and says what
//! came of it.

use std::path::Path;
use std::{env, fs, process};

use pezgok::{Buffers, Finished, Inputs, Options, Refusal, import, list_fields, list_work_length, measure, work_length};

fn main() {
    let Some(folder) = env::args_os().nth(1) else {
        eprintln!("import FOLDER: a folder with unit.main, and unit.sup, unit.line, unit.lists and unit.addresses if there are any");
        process::exit(2);
    };
    let read = |name: &str| fs::read(Path::new(&folder).join(name)).unwrap_or_default();
    let names = ["unit.main", "unit.sup", "unit.line", "unit.lists", "unit.addresses"];
    let [main, supplementary, program, lists, addresses] = &names.map(read);
    match measured_import(Inputs { main, supplementary, program, lists, addresses }) {
        Ok(done) => println!(
            "{} functions, {} line rows, {} inline nodes, {} rejected ranges; {} bytes of records, {} of files, {} of warnings",
            done.functions, done.line_rows, done.inline_nodes, done.rejected_ranges, done.records, done.files, done.warnings
        ),
        Err(refusal) => {
            println!("refused {}: {refusal}", refusal.number());
            process::exit(1);
        }
    }
}

fn measured_import(inputs: Inputs<'_>) -> Result<Finished, Refusal> {
    // A field has three bytes at least.
    let fields = (inputs.main.len() + inputs.supplementary.len()) / 3;
    let lists = list_work_length(inputs.lists.len(), list_fields(inputs.main, 0));
    let mut work = vec![0; work_length(fields, inputs.program.len()) + lists];
    let needed = measure(inputs, Options::default(), &mut work)?;
    let (mut records, mut files, mut warnings) = (vec![0; needed.records], vec![0; needed.files], vec![0; needed.warnings]);
    let buffers = Buffers { work: &mut work, records: &mut records, files: &mut files, warnings: &mut warnings };
    import(inputs, Options::default(), buffers)
}
