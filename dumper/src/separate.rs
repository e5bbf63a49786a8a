//! The separate debug file of an object that was stripped, where the machine has it.

use std::fs;
use std::path::{Path, PathBuf};

use object::{File, Object};

/// Where debug files are installed.
const INSTALLED: &str = "/usr/lib/debug";

/// The debug file of an object that has no debug data of its own: the one of its build identity,
/// else the one that it names, if that has the checksum that it says.
pub fn find(object: &Path) -> Option<PathBuf> {
    let bytes = fs::read(object).ok()?;
    let file = File::parse(&*bytes).ok()?;
    if file.section_by_name(".debug_info").is_some() {
        return None;
    }
    let identity = file.build_id().ok().flatten();
    if let Some(path) = identity.and_then(installed) {
        if same_build(&path, identity) {
            return Some(path);
        }
    }
    let (name, sum) = file.gnu_debuglink().ok().flatten()?;
    let name = crate::elf::bytes_path(name);
    let folder = object.canonicalize().ok()?.parent()?.to_path_buf();
    let below = folder.strip_prefix("/").ok()?;
    let places = [
        folder.join(&name),
        folder.join(".debug").join(&name),
        Path::new(INSTALLED).join(below).join(&name),
    ];
    let named = |place: &PathBuf| fs::read(place).is_ok_and(|bytes| checksum(&bytes) == sum);
    places.into_iter().find(named)
}

fn installed(identity: &[u8]) -> Option<PathBuf> {
    let (first, rest) = identity.split_first()?;
    let rest: String = rest.iter().map(|byte| format!("{byte:02x}")).collect();
    let name = format!("{first:02x}/{rest}.debug");
    Some(Path::new(INSTALLED).join(".build-id").join(name))
}

fn same_build(path: &Path, identity: Option<&[u8]>) -> bool {
    let bytes = fs::read(path).unwrap_or_default();
    let file = File::parse(&*bytes);
    file.is_ok_and(|file| file.build_id().ok().flatten() == identity)
}

/// The CRC-32 of a debug file by which an object knows it.
fn checksum(bytes: &[u8]) -> u32 {
    const POLYNOMIAL: u32 = 0xedb8_8320;
    let mut table = [0; 256];
    for (value, entry) in (0_u32..).zip(&mut table) {
        let step = |sum: u32, _| (sum >> 1) ^ (POLYNOMIAL & (sum & 1).wrapping_neg());
        *entry = (0..8).fold(value, step);
    }
    let add = |sum: u32, byte: &u8| (sum >> 8) ^ table[((sum ^ u32::from(*byte)) & 0xff) as usize];
    !bytes.iter().fold(!0, add)
}
