//! All units of a file in one sheet, each with what an import reads of it: executable ranges, rows,
//! ranges of entries, and its part of the line programs, which are joined.

use std::collections::HashMap;
use std::path::Path;

use crate::about::about;
use crate::cases::{self, ALL_UNITS, CALL_SITES, INLINES};
use crate::dump::{Dump, Input};
use crate::fields;
use crate::objects::{with_units, Summary};
use crate::output::{fault, Pending};
use crate::sheet::Own;
use crate::{Asked, Stop, NOT_WHOLE};

/// A unit's part of the joined programs, if it has a line program.
type Part = Option<(u64, u64)>;

impl Input<'_> {
    /// The sheets of all units and each one's part, or why they are not to be had.
    fn whole(&self) -> Result<(Dump, Vec<Part>), String> {
        let mut program = Vec::new();
        let (mut lines, mut parts) = (Vec::new(), Vec::new());
        // Units may share a line program: it is joined once.
        let mut known = HashMap::new();
        for index in 0..self.main.len() {
            let own = self.lines(index)?;
            parts.push(own.as_ref().map(|own| {
                *known.entry(own.header.offset().0).or_insert_with(|| {
                    let start = program.len() as u64;
                    program.extend(own.program);
                    (start, own.program.len() as u64)
                })
            }));
            lines.push(own);
        }
        if program.len() > fields::PROGRAM_LIMIT {
            return Err("line programs of more than 4,194,304 bytes".into());
        }
        let lists = (0..self.main.len())
            .map(|index| self.lists(index, true))
            .collect::<Result<Vec<_>, _>>()?;
        let reached = self.reach(0..self.main.len(), None)?;
        let (main, supplementary) = self.write(&reached, false, |index| {
            Some(Own {
                text: self.text,
                lines: lines[index].as_ref(),
                program: parts[index],
                lists: lists[index].as_ref(),
                part: None,
            })
        })?;
        // Each is lent the same.
        let lent = lists.iter().flatten().next();
        let dump = Dump {
            ordinal: 0,
            main,
            supplementary,
            program,
            encoded: self.programs && parts.iter().any(Option::is_some),
            lists: lent.map_or(&[][..], |lent| lent.lists).to_vec(),
            addresses: lent.map_or(&[][..], |lent| lent.addresses).to_vec(),
        };
        Ok((dump, parts))
    }
}

/// Writes the sheets of all units of a file to a folder.
pub fn whole(object: &Path, place: &Path, asked: Asked) -> Result<(), Stop> {
    let pending = Pending::new(place)?;
    let folder = pending.folder()?;
    let mut summary = Summary::default();
    with_units(object, asked, &mut summary, |input, summary| {
        let (dump, parts) = input.whole().map_err(|reason| Stop {
            message: fault(object, format!("not all units in one sheet: {reason}")),
            status: NOT_WHOLE,
        })?;
        summary.dumped = parts.len();
        let mut index = String::from("unit\toffset\tversion\tstart\tlength\tname\n");
        for (number, part) in parts.into_iter().enumerate() {
            let about = about(input, number);
            let (start, length) = part.map_or(("-".into(), "-".into()), |(start, length)| {
                (start.to_string(), length.to_string())
            });
            index += &format!(
                "{number:04}\t{:#x}\t{}\t{start}\t{length}\t{}\n",
                about.offset, about.version, about.name
            );
        }
        let files = [
            ("whole.main", &dump.main.bytes[..]),
            ("whole.sup", &dump.supplementary.bytes),
            ("whole.line", &dump.program),
            ("index", index.as_bytes()),
            ("symbols", &summary.symbols.bytes),
            ("whole.lists", &dump.lists),
            ("whole.addresses", &dump.addresses),
        ];
        // The last two are there where they are asked for.
        for (name, bytes) in &files[..if asked.lists { 7 } else { 5 }] {
            std::fs::write(folder.join(name), bytes).map_err(|error| fault(place, error))?;
        }
        Ok(())
    })?;
    pending.finish()?;
    summary.print("units");
    summary.symbols.print();
    Ok(())
}

/// The case of all units of a file, and its line in the list; nothing where they are not to be had
/// in one sheet, which is said and counted.
pub fn case(
    object: &Path,
    asked: Asked,
    summary: &mut Summary,
    list: &mut String,
) -> Result<Vec<u8>, Stop> {
    let mut bytes = Vec::new();
    with_units(object, asked, summary, |input, summary| {
        match input.whole() {
            Ok((dump, parts)) => {
                summary.dumped += 1;
                *list += &format!(
                    "{}\t{}\t{}\t{}\t{}\t{}\n",
                    object.display(),
                    parts.len(),
                    dump.main.bytes.len(),
                    dump.supplementary.bytes.len(),
                    dump.program.len(),
                    dump.main.fields + dump.supplementary.fields
                );
                bytes = cases::case(&dump, INLINES | CALL_SITES | ALL_UNITS);
            }
            Err(reason) => {
                let said = format!("not all units in one sheet, skipped: {reason}");
                eprintln!("{}", fault(object, said));
                *summary.skipped.entry(reason).or_default() += 1;
            }
        }
        Ok(())
    })?;
    Ok(bytes)
}
