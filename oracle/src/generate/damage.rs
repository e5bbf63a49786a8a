//! Damaged inputs, by bytes and by fields.

use crate::case::Case;
use crate::grammar;
use crate::output::field;
use crate::random::Random;

pub fn damage(random: &mut Random, case: &mut Case) {
    for _ in 0..random.pick(&[1, 1, 1, 2]) {
        let bytes = match random.below(10) {
            0 => &mut case.program,
            1..3 => &mut case.supplementary,
            _ => &mut case.main,
        };
        if bytes.is_empty() {
        } else if random.chance(40) {
            damage_bytes(random, bytes);
        } else {
            damage_fields(random, bytes);
        }
    }
}

fn damage_bytes(random: &mut Random, bytes: &mut Vec<u8>) {
    let place = random.place(bytes);
    match random.below(6) {
        0 => bytes.truncate(place),
        1 => bytes.insert(place, random.next() as u8),
        2 => bytes.extend(vec![0x10; random.between(1, 3) as usize]),
        3 => bytes[place] = bytes[place].wrapping_add(1),
        4 => bytes[place] = random.pick(&[0, 1, 2, 0xff]),
        _ => bytes[place] = random.next() as u8,
    }
}

/// The tag and the payload of each field, as far as they are whole.
pub fn split(bytes: &[u8]) -> Vec<(u8, Vec<u8>)> {
    let (mut fields, mut rest) = (Vec::new(), bytes);
    while let Some((tag, payload, after)) = grammar::field(rest) {
        fields.push((tag, payload.to_vec()));
        rest = after;
    }
    fields
}

pub fn joined(fields: &[(u8, Vec<u8>)]) -> Vec<u8> {
    let mut bytes = Vec::new();
    fields.iter().for_each(|(tag, payload)| field(&mut bytes, *tag, &[payload]));
    bytes
}

fn damage_fields(random: &mut Random, bytes: &mut Vec<u8>) {
    let mut fields = split(bytes);
    if fields.is_empty() {
        return;
    }
    let (place, other) = (random.place(&fields), random.place(&fields));
    match random.below(8) {
        0 => _ = fields.remove(place),
        1 => fields.insert(other, fields[place].clone()),
        2 => fields.swap(place, other),
        3 => fields[place].0 = random.pick(&[0, 0x0f, 0x10, 0x11, 0x12, 0x13, 0x14, 0x15, 0x16, 0x17, 0x18, 0x19, 0x1a, 0x1b, 0x1c]),
        4 => fields[place].1.push(random.pick(&[0, 1, 0x41])),
        5 => _ = fields[place].1.pop(),
        6 if place + 1 < fields.len() => fields.swap(place, place + 1),
        _ => {
            let payload = &mut fields[place].1;
            if !payload.is_empty() {
                let at = random.place(payload);
                payload[at] = random.pick(&[0, 1, 2, 3, 4, 6, 8, 10, 11, 0xff]);
            }
        }
    }
    *bytes = joined(&fields);
}
