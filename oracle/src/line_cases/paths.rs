//! Paths: whole ones, and ones put together from pieces.

use crate::random::Random;

const PIECES: [&[u8]; 22] = [
    b"/",
    b"/",
    b"/",
    b"/",
    b"\\",
    b"\\",
    b"\\",
    b"//",
    b"\\\\",
    b":",
    b"C:",
    b"C",
    b"a",
    b"a",
    b"b.c",
    b"..",
    b" ",
    b"|",
    b"\x00",
    b"\x7f",
    b"\xc3\xa9",
    b"\xff",
];

const WHOLE: [&[u8]; 34] = [
    b"",
    b"/",
    b"//",
    b"/a.c",
    b"a/",
    b"a//",
    b"//b.c",
    b"C:",
    b"C:/",
    b"C:\\",
    b"C:/b.c",
    b"C:\\b.c",
    b"C:b.c",
    b"CC:/b",
    b":/b",
    b"/:/b",
    b"\\\\s\\b",
    b"//s/b",
    b"\\\\s",
    b"\\\\s/b",
    b"\\/s/b",
    b"\\\\\\s\\b",
    b"\\\\/s/b",
    b"\\\\",
    b"\\s\\b",
    b"\\\\s\\",
    b"\\\\q.c",
    b"\\\\\\q.c",
    b"\\\\/q.c",
    b"C:\\rig\\dim.c",
    b"c:/rig\\dim.c",
    b"C:\\rig\\\\dim.c",
    b"C:\\rig\\",
    b"1:\\b.c",
];

/// Bytes that begin a Windows path, or might; and a few others.
pub const DRIVES: [u8; 9] = *b"Cc1:\\/.x\0";

pub fn path(random: &mut Random) -> Vec<u8> {
    match random.below(10) {
        0..3 => return random.pick(&WHOLE).to_vec(),
        3..5 => {
            let start = random.pick(&[b"".as_slice(), b"C:\\", b"c:/", b"1:\\", b"C:", b"\\\\"]);
            let rest = (0..random.between(0, 6)).map(|_| random.pick(&DRIVES)).collect::<Vec<u8>>();
            return [start, &rest].concat();
        }
        _ => {}
    }
    (0..random.below(7)).flat_map(|_| random.pick(&PIECES)).copied().collect()
}
