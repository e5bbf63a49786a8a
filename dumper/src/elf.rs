//! Reading an ELF file: where its code lies, and its debug sections with relocations applied.

use std::collections::HashMap;
use std::path::{Path, PathBuf};
use std::sync::Arc;

use gimli::{Dwarf, EndianSlice, RunTimeEndian};
use object::{
    File, Object, ObjectKind, ObjectSection, ObjectSymbol, RelocationKind, RelocationTarget,
    Section, SectionFlags, SectionIndex, SectionKind,
};

use crate::symbols::Symbols;
use crate::unit::Slice;

pub struct DebugFile {
    pub sections: gimli::Dwarf<Vec<u8>>,
    pub endian: RunTimeEndian,
    /// The executable sections, ascending.
    pub text: Vec<(u64, u64)>,
    pub symbols: Symbols,
    /// The supplementary file that this one names, with its identity.
    pub supplementary: Option<(PathBuf, Vec<u8>)>,
    /// What a file that names this one as supplementary calls it.
    pub identities: Vec<Vec<u8>>,
    /// Relocations of debug sections that are not absolute and so were left alone.
    pub unapplied: usize,
}

impl DebugFile {
    /// Its debug sections, beside those of its supplementary file.
    pub fn dwarf<'a>(&'a self, second: Option<&'a DebugFile>) -> Dwarf<Slice<'a>> {
        let borrow = |file: &'a DebugFile| {
            file.sections
                .borrow(|data| EndianSlice::new(data, self.endian))
        };
        let mut dwarf = borrow(self);
        dwarf.sup = second.map(|second| Arc::new(borrow(second)));
        dwarf
    }
}

pub fn read(path: &Path) -> Result<DebugFile, String> {
    let bytes = std::fs::read(path).map_err(|error| error.to_string())?;
    let file = File::parse(&*bytes).map_err(|error| format!("not an ELF file: {error}"))?;
    if file.format() != object::BinaryFormat::Elf {
        return Err("not an ELF file".into());
    }
    if !matches!(
        file.kind(),
        ObjectKind::Executable | ObjectKind::Dynamic | ObjectKind::Relocatable
    ) {
        return Err("neither a program, a library nor a relocatable object".into());
    }
    let endian = if file.is_little_endian() {
        RunTimeEndian::Little
    } else {
        RunTimeEndian::Big
    };
    let layout = Layout::new(&file)?;
    let mut unapplied = 0;
    let sections = gimli::Dwarf::load(|id| match file.section_by_name(id.name()) {
        Some(section) => load(&file, &section, &layout, endian, &mut unapplied),
        None => Ok(Vec::new()),
    })?;
    let (supplementary, mut identities) = links(&file)?;
    let build_id = file.build_id().map_err(|error| error.to_string())?;
    identities.extend(build_id.map(<[u8]>::to_vec));
    let symbols = Symbols::read(&file, &layout)?;
    Ok(DebugFile {
        sections,
        endian,
        text: layout.text,
        symbols,
        supplementary,
        identities,
        unapplied,
    })
}

/// Where sections lie: in a linked file at their addresses; in a relocatable one the executable
/// sections one after the other from 0, each at a multiple of 16, then all others but debug data.
pub struct Layout {
    pub text: Vec<(u64, u64)>,
    bases: HashMap<SectionIndex, u64>,
    pub relocatable: bool,
}

impl Layout {
    fn new(file: &File) -> Result<Self, String> {
        let relocatable = file.kind() == ObjectKind::Relocatable;
        let is_text = |section: &Section| is_code(section) && section.size() != 0;
        let end_of = |start: u64, section: &Section| {
            let end = start.checked_add(section.size());
            end.ok_or_else(|| format!("section {} ends past 2^64 - 1", name(section)))
        };
        let mut text = Vec::new();
        let mut bases = HashMap::new();
        let mut next = 0;
        for section in file.sections().filter(is_text) {
            let start = if relocatable {
                aligned(next)?
            } else {
                section.address()
            };
            let end = end_of(start, &section)?;
            text.push((start, end));
            bases.insert(section.index(), start);
            next = end;
        }
        if relocatable {
            for section in file.sections() {
                if section.size() != 0 && !is_text(&section) && !is_debug(&section) {
                    let start = aligned(next)?;
                    bases.insert(section.index(), start);
                    next = end_of(start, &section)?;
                }
            }
        }
        text.sort_unstable();
        Ok(Layout {
            text,
            bases,
            relocatable,
        })
    }

    pub fn base(&self, section: &Section) -> Result<u64, String> {
        if !self.relocatable || is_debug(section) {
            return Ok(section.address());
        }
        let base = self.bases.get(&section.index()).copied();
        base.ok_or_else(|| {
            format!(
                "a relocation names section {}, which is empty",
                name(section)
            )
        })
    }
}

/// Code, of which a separate debug file has the place and not the bytes.
fn is_code(section: &Section) -> bool {
    let SectionFlags::Elf { sh_flags } = section.flags() else {
        return false;
    };
    section.kind() == SectionKind::Text || sh_flags & u64::from(object::elf::SHF_EXECINSTR) != 0
}

fn aligned(place: u64) -> Result<u64, String> {
    let place = place.checked_add(15).ok_or("the sections pass 2^64 - 1")?;
    Ok(place & !15)
}

fn name(section: &Section) -> String {
    String::from_utf8_lossy(section.name_bytes().unwrap_or_default()).into_owned()
}

fn is_debug(section: &Section) -> bool {
    let name = section.name_bytes().unwrap_or_default();
    name.starts_with(b".debug_") || name.starts_with(b".zdebug_")
}

fn load(
    file: &File,
    section: &Section,
    layout: &Layout,
    endian: RunTimeEndian,
    unapplied: &mut usize,
) -> Result<Vec<u8>, String> {
    let fault = |what: String| format!("section {}: {what}", name(section));
    let data = section.uncompressed_data();
    let mut data = data.map_err(|error| fault(error.to_string()))?.into_owned();
    if !layout.relocatable {
        return Ok(data);
    }
    for (offset, relocation) in section.relocations() {
        let size = usize::from(relocation.size() / 8);
        if relocation.kind() != RelocationKind::Absolute || !matches!(size, 1 | 2 | 4 | 8) {
            *unapplied += 1;
            continue;
        }
        let target = target_address(file, relocation.target(), layout).map_err(fault)?;
        let place = usize::try_from(offset).ok();
        let place = place.and_then(|start| data.get_mut(start..start.checked_add(size)?));
        let place =
            place.ok_or_else(|| fault(format!("no place for relocation at {offset:#x}")))?;
        let mut value = target.wrapping_add(relocation.addend() as u64);
        if relocation.has_implicit_addend() {
            value = value.wrapping_add(number(place, endian));
        }
        match endian {
            RunTimeEndian::Little => place.copy_from_slice(&value.to_le_bytes()[..size]),
            RunTimeEndian::Big => place.copy_from_slice(&value.to_be_bytes()[8 - size..]),
        }
    }
    Ok(data)
}

fn target_address(file: &File, target: RelocationTarget, layout: &Layout) -> Result<u64, String> {
    let base = |index| {
        let section = file.section_by_index(index);
        layout.base(&section.map_err(|error| error.to_string())?)
    };
    match target {
        RelocationTarget::Symbol(index) => {
            let symbol = file
                .symbol_by_index(index)
                .map_err(|error| error.to_string())?;
            // An undefined symbol has address 0 and an absolute one its own.
            let start = symbol.section_index().map_or(Ok(0), base)?;
            Ok(start.wrapping_add(symbol.address()))
        }
        RelocationTarget::Section(index) => base(index),
        RelocationTarget::Absolute => Ok(0),
        other => Err(format!("unknown relocation target {other:?}")),
    }
}

fn number(bytes: &[u8], endian: RunTimeEndian) -> u64 {
    let join = |value: u64, byte: &u8| value << 8 | u64::from(*byte);
    match endian {
        RunTimeEndian::Little => bytes.iter().rev().fold(0, join),
        RunTimeEndian::Big => bytes.iter().fold(0, join),
    }
}

type Links = (Option<(PathBuf, Vec<u8>)>, Vec<Vec<u8>>);

/// The supplementary file that is named by .gnu_debugaltlink or .debug_sup, and, in a
/// supplementary file with .debug_sup, the checksum by which it is known.
fn links(file: &File) -> Result<Links, String> {
    let alternate = file.gnu_debugaltlink().map_err(|error| error.to_string())?;
    if let Some((path, identity)) = alternate {
        return Ok((Some((bytes_path(path), identity.to_vec())), Vec::new()));
    }
    let Some(section) = file.section_by_name(".debug_sup") else {
        return Ok((None, Vec::new()));
    };
    // Version (2 bytes), whether this is the supplementary file (1), its name, a checksum.
    let data = section
        .uncompressed_data()
        .map_err(|error| error.to_string())?;
    let fault = || "section .debug_sup is cut off".to_string();
    let flag = *data.get(2).ok_or_else(fault)?;
    let length = data[3..]
        .iter()
        .position(|byte| *byte == 0)
        .ok_or_else(fault)?;
    let path = bytes_path(&data[3..3 + length]);
    // The checksum's own length is a LEB128; every one in use is a single byte.
    let checksum = data.get(3 + length + 2..).ok_or_else(fault)?.to_vec();
    Ok(if flag == 0 {
        (Some((path, checksum)), Vec::new())
    } else {
        (None, vec![checksum])
    })
}

pub fn bytes_path(bytes: &[u8]) -> PathBuf {
    use std::os::unix::ffi::OsStrExt;
    PathBuf::from(std::ffi::OsStr::from_bytes(bytes))
}
