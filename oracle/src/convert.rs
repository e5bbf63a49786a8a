//! The Rust's convert module: import_unit and what it calls, and the door to it.

#[allow(dead_code, clippy::all)]
mod diagnostic {
    text!("convert/diagnostic.rs");
}

#[allow(dead_code, clippy::all)]
pub mod elf {
    text!("convert/elf/mod.rs");
}

pub use diagnostic::ConversionWarning;

#[allow(dead_code, clippy::all)]
pub mod dwarf {
    mod dies {
        use crate::stand_in::gimli;
        text!("convert/dwarf/dies.rs");

        /// A door to coalesce_ranges.
        #[cfg(test)]
        pub(crate) fn merged(ranges: &[AddressRange]) -> Vec<AddressRange> {
            let mut ranges = ranges.to_vec();
            coalesce_ranges(&mut ranges);
            ranges
        }
    }

    #[cfg(test)]
    pub(crate) use dies::merged;

    pub(crate) mod lines {
        use crate::stand_in::gimli;
        text!("convert/dwarf/lines.rs");

        // Doors to what is private there, for the cases of this layer.

        /// The operand at a place, and the place after it.
        pub(crate) fn operand(program: &[u8], mut place: usize) -> Result<(u64, usize)> {
            let value = read_line_uleb(program, &mut place)?;
            Ok((value, place))
        }

        /// Where each sequence of a program begins.
        pub(crate) fn sequences(program: &[u8], lengths: &[u8], base: u8, offset: u64) -> Result<Vec<u64>> {
            scan_line_sequence_offsets(program, lengths, base, offset)
        }

        /// A path's directory and basename, and whether it is absolute.
        pub(crate) fn parts(path: &[u8]) -> (&[u8], &[u8], bool) {
            let (directory, basename) = split_path(path);
            (directory, basename, is_absolute_path(path))
        }

        /// One component and then the other, put below an empty path.
        pub(crate) fn joined(first: &[u8], second: &[u8]) -> Vec<u8> {
            let mut path = Vec::new();
            append_path(&mut path, first);
            append_path(&mut path, second);
            path
        }
    }

    pub(crate) mod references {
        use crate::stand_in::{gimli, hashbrown, smallvec};
        text!("convert/dwarf/references.rs");

        // A door to the searches, for their cases.

        use crate::calls::searches::Asked;
        use crate::trace::{Event, traced};

        /// What a search finds.
        pub(crate) enum Found {
            Name(Option<Vec<u8>>),
            Declaration(Option<LineEntry>),
        }

        /// What a search gives, and how many entries it read: its start, and each that the decoder was asked for behind a reference.
        pub(crate) struct Searched {
            pub(crate) found: Result<Found>,
            pub(crate) reads: usize,
        }

        /// The searches from the entries at offsets of the main section; none where no entry starts.
        pub(crate) fn searched(dwarf: &gimli::Dwarf<gimli::Slice<'_>>, queries: &[(Asked, usize)]) -> Vec<Option<Searched>> {
            let resolver = DwarfResolver::new(dwarf);
            queries.iter().map(|&(asked, target)| search(&resolver, asked, target)).collect()
        }

        fn search(resolver: &DwarfResolver<'_, gimli::Slice<'_>>, asked: Asked, target: usize) -> Option<Searched> {
            let (unit, offset) = resolver.unit_containing_offset(target).ok()??;
            let entry = resolver.entry(&unit, offset).ok()?;
            let (found, events) = traced(|| match asked {
                Asked::Name => resolve_name(resolver, &unit, &entry, 0).map(Found::Name),
                Asked::ReferenceName => entry
                    .attr_value(gimli::constants::DW_AT_call_origin)
                    .map_or(Ok(None), |origin| resolve_reference_name(resolver, &unit, &origin, 0, &mut VisitedDies::default()))
                    .map(Found::Name),
                // No files of the entry's own unit are known, as where it has no line header.
                Asked::Declaration => {
                    let (mut builder, mut warnings) = (GsymBuilder::new(), Vec::new());
                    resolve_declaration_line(resolver, &unit, &entry, &FileIndices::default(), &mut builder, &mut warnings)
                        .map(Found::Declaration)
                }
            });
            let reads = 1 + events.iter().filter(|event| matches!(event, Event::Follow { .. })).count();
            Some(Searched { found, reads })
        }
    }

    use dies::{DetailOptions, extract_subprogram_details};
    use lines::{UnitLines, collect_lines, statement_sequence_offset};
    use references::{DwarfResolver, absolute_entry_offset, resolve_declaration_line, resolve_name};

    use super::ConversionWarning;
    use super::elf::ConversionStats;
    use crate::model::{AddressRange, FileEntry, Function, LineEntry};
    use crate::stand_in::gimli;
    use crate::{Error, GsymBuilder, Result};
    use gimli::{AttributeValue, DebuggingInformationEntry, Dwarf, Reader, Slice, Unit};

    text!("convert/dwarf.rs");

    /// What imports leave behind, of one unit or of several, one after the other.
    pub struct Imported {
        pub builder: GsymBuilder,
        pub stats: ConversionStats,
        pub warnings: Vec<ConversionWarning>,
    }

    impl Imported {
        pub fn new() -> Self {
            Self { builder: GsymBuilder::new(), stats: ConversionStats::default(), warnings: Vec::new() }
        }

        /// import_unit at a unit of the main input, over the builder that is there, as the Rust's import_dwarf calls it.
        pub fn add(&mut self, dwarf: &Dwarf<Slice<'_>>, ordinal: usize, include_inlines: bool, include_call_sites: bool) -> Result<()> {
            let data = &dwarf.units[ordinal];
            let text: Vec<AddressRange> = data.text.iter().map(|range| AddressRange::new(range.begin, range.end)).collect();
            let mut context = ImportContext {
                executable_ranges: &text,
                builder: &mut self.builder,
                include_inlines,
                include_call_sites,
                stats: &mut self.stats,
                warnings: &mut self.warnings,
            };
            import_unit(dwarf, &Unit::of(data.clone()), &mut context)
        }
    }

    /// A row or a range, and the offset of its statement sequence.
    pub type Sequenced<T> = (T, Option<u64>);

    /// The unit's sorted rows and its sequences, for the coverage table; `before` are the files that units before it brought.
    pub fn table(
        dwarf: &Dwarf<Slice<'_>>,
        ordinal: usize,
        before: &[FileEntry],
    ) -> Option<(Vec<Sequenced<LineEntry>>, Vec<Sequenced<AddressRange>>)> {
        let unit = Unit::of(dwarf.units[ordinal].clone());
        let mut builder = GsymBuilder::new();
        before.iter().try_for_each(|file| builder.add_file(file.clone()).map(drop)).ok()?;
        let lines = collect_lines(dwarf, &unit, &mut builder, &mut Vec::new()).ok()?;
        Some((
            lines.entries.iter().map(|row| (row.entry, row.statement_sequence)).collect(),
            lines.sequences.iter().map(|sequence| (sequence.range, sequence.statement_sequence)).collect(),
        ))
    }

    /// What collect_lines leaves behind at a unit of the main input.
    pub struct Collected {
        unit: UnitLines,
        pub builder: GsymBuilder,
        pub warnings: Vec<ConversionWarning>,
    }

    impl Collected {
        pub fn new(dwarf: &Dwarf<Slice<'_>>, ordinal: usize) -> Result<Self> {
            let (mut builder, mut warnings) = (GsymBuilder::new(), Vec::new());
            let unit = collect_lines(dwarf, &Unit::of(dwarf.units[ordinal].clone()), &mut builder, &mut warnings)?;
            Ok(Self { unit, builder, warnings })
        }

        /// How many lines and sequences the unit has.
        pub fn counts(&self) -> [usize; 2] {
            [self.unit.entries.len(), self.unit.sequences.len()]
        }

        /// UnitLines::for_range.
        pub fn rows(&self, start: u64, end: u64, sequence: Option<u64>) -> (Vec<LineEntry>, bool) {
            self.unit.for_range(AddressRange::new(start, end), sequence)
        }
    }
}
