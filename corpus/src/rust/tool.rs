//! A program with the standard library: collections, strings, iterators, closures.
use std::collections::BTreeMap;

#[derive(Debug, Default)]
struct Patch {
    slots: BTreeMap<String, u16>,
}

impl Patch {
    fn add(&mut self, line: &str) -> Result<(), String> {
        let (name, slot) = line.split_once('=').ok_or_else(|| format!("no slot: {line}"))?;
        let slot = slot.trim().parse().map_err(|error| format!("{name}: {error}"))?;
        self.slots.insert(name.trim().to_string(), slot);
        Ok(())
    }
}

fn main() {
    let mut patch = Patch::default();
    let faults: Vec<_> = ["wash = 1", "spot = 17", "beam", "blinder = x"]
        .iter()
        .filter_map(|line| patch.add(line).err())
        .collect();
    println!("{patch:?} {faults:?}");
}
