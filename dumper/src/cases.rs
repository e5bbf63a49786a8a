//! Cases: sheets with what a caller gives beside them, in one file.

use std::path::Path;

use crate::dump::Dump;
use crate::fields;
use crate::objects::{each_unit, Summary};
use crate::output::{self, fault, Pending};
use crate::whole;
use crate::{Options, Stop};

/// The switches of a case.
pub const INLINES: u8 = 1;
pub const CALL_SITES: u8 = 2;
pub const ALL_UNITS: u8 = 4;
/// The list section and the address table follow the inputs.
const SECTIONS: u8 = 8;
const FIRST_FILE: u32 = 1;
/// How long each output buffer of a case is, of a unit and of all units.
const BUFFER: u32 = 1 << 20;
const LARGE_BUFFER: u32 = 1 << 22;

/// A case: the lengths, what the caller gives beside the inputs, and the inputs.
pub fn case(dump: &Dump, switches: u8) -> Vec<u8> {
    let inputs = [&dump.main.bytes, &dump.supplementary.bytes, &dump.program];
    let mut bytes = Vec::new();
    for input in inputs {
        bytes.extend((input.len() as u32).to_le_bytes());
    }
    bytes.extend((dump.ordinal as u64).to_le_bytes());
    let sections = [&dump.lists, &dump.addresses];
    let lent = sections.iter().any(|section| !section.is_empty());
    bytes.push(if lent { switches | SECTIONS } else { switches });
    bytes.extend(FIRST_FILE.to_le_bytes());
    let all = switches & ALL_UNITS != 0;
    let work = fields::work_length(dump, (!all).then_some(dump.ordinal));
    bytes.extend(work.to_le_bytes());
    for buffer in [if all { LARGE_BUFFER } else { BUFFER }; 3] {
        bytes.extend(buffer.to_le_bytes());
    }
    for input in inputs {
        bytes.extend(input);
    }
    if lent {
        for section in sections {
            bytes.extend((section.len() as u32).to_le_bytes());
        }
        bytes.extend(sections.into_iter().flatten());
    }
    bytes
}

pub fn cases(options: &Options, out: &Path) -> Result<(), Stop> {
    let pending = Pending::new(out)?;
    let mut file = pending.file()?;
    if options.append && out.exists() {
        let before = std::fs::read(out).map_err(|error| fault(out, error))?;
        output::write(&mut file, out, &before)?;
    }
    let mut list = String::from(if options.whole {
        "object\tunits\tmain\tsupplementary\tline\tfields\n"
    } else {
        "object\tunit\tordinal\tversion\tlanguage\tmain\tsupplementary\tline\tfields\tname\tproducer\n"
    });
    let mut times = String::new();
    let mut summary = Summary::default();
    for object in &options.plain {
        if options.whole {
            let bytes = whole::case(object, options.asked(), &mut summary, &mut list)?;
            output::write(&mut file, out, &bytes)?;
            continue;
        }
        each_unit(object, options.asked(), &mut summary, |about, dump| {
            list += &format!(
                "{}\t{}\t{}\t{}\t{}\t{}\t{}\t{}\t{}\t{}\t{}\n",
                object.display(),
                about.number,
                dump.ordinal,
                about.version,
                about.language,
                dump.main.bytes.len(),
                dump.supplementary.bytes.len(),
                dump.program.len(),
                dump.main.fields + dump.supplementary.fields,
                about.name,
                about.producer
            );
            times += &format!("{}\n", about.decoding);
            output::write(&mut file, out, &case(&dump, INLINES | CALL_SITES))
        })?;
    }
    output::flush(file, out)?;
    for (path, text) in [(&options.list, &list), (&options.times, &times)] {
        let Some(path) = path else { continue };
        let pending = Pending::new(path)?;
        let mut file = pending.file()?;
        output::write(&mut file, path, text.as_bytes())?;
        output::flush(file, path)?;
        pending.finish()?;
    }
    pending.finish()?;
    summary.print(if options.whole { "objects" } else { "units" });
    Ok(())
}
