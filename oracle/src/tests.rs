//! The grammar's clauses, the order of refusals, and the buffers, each by a small case.

use crate::calls::lines::Call;
use crate::case::Case;
use crate::compose::*;
use crate::convert::dwarf::lines::parts;
use crate::line_cases::DRIVES;
use crate::listing::listing;
use crate::output::field;
use crate::requests::split_windows;
use crate::{answer, call_answers, document};

/// The refusal of a main input; work and buffers are long enough.
fn refusal(main: &[u8]) -> u8 {
    let work = 1 << 30;
    answer(&Case { work, ..Case::new(main.to_vec(), Vec::new(), Vec::new()) }).refusal
}

/// A unit of 100 bytes and what `rest` writes after it.
fn after_unit(rest: impl FnOnce(&mut Fields)) -> u8 {
    let mut main = Fields::default();
    rest(main.unit(0, 100, 5, 4));
    refusal(&main.0)
}

/// The same behind a line header.
fn after_header(rest: impl FnOnce(&mut Fields)) -> u8 {
    after_unit(|fields| rest(fields.header(0, 32, 4, 4, 13, &[])))
}

fn raw(tag: u8, payload: &[u8]) -> Vec<u8> {
    let mut bytes = Vec::new();
    field(&mut bytes, tag, &[payload]);
    bytes
}

#[test]
fn units() {
    let unit = |offset, length, version, word| refusal(&Fields::default().unit(offset, length, version, word).0);
    assert_eq!([unit(0, 0, 2, 4), unit(0, 0, 5, 8), unit(u64::MAX, 0, 5, 4), unit(1, u64::MAX - 1, 5, 4)], [0; 4]);
    assert_eq!([unit(0, 0, 1, 4), unit(0, 0, 6, 4), unit(0, 0, 5, 5), unit(0, 0, 5, 0), unit(1, u64::MAX, 5, 4)], [2; 5]);
    assert_eq!([after_unit(|f| _ = f.unit(100, 5, 5, 4)), after_unit(|f| _ = f.unit(100, 0, 5, 4).unit(100, 1, 5, 4))], [0; 2]);
    assert_eq!(after_unit(|f| _ = f.unit(99, 5, 5, 4)), 2);
    // No unit at all, which E4 finishes; fields that are cut off, unknown, or too long by a byte.
    assert_eq!(refusal(&[]), 0);
    assert_eq!(
        [refusal(&[0x10]), refusal(&[0x10, 18]), refusal(&[0x10, 18, 0, 0]), refusal(&raw(0x1b, &[])), refusal(&raw(0, &[]))],
        [2; 5]
    );
    assert_eq!(refusal(&raw(0x10, &[[0; 16].as_slice(), &[5, 4, 0]].concat())), 2);
}

#[test]
fn order_within_a_unit() {
    assert_eq!(after_unit(|f| _ = f.compilation_directory(b"").text(0, 1).text(2, 1).unit(100, 1, 5, 4).text(1, 2)), 0);
    assert_eq!(after_unit(|f| _ = f.compilation_directory(b"").compilation_directory(b"")), 2);
    assert_eq!(after_unit(|f| _ = f.text(0, 1).compilation_directory(b"")), 2);
    assert_eq!(after_header(|f| _ = f.header(0, 32, 4, 4, 13, &[])), 2);
    assert_eq!(after_unit(|f| _ = f.directory(0, b"")), 2);
    assert_eq!(after_header(|f| _ = f.directory(0, b"").file_zero(0, 0, b"").file(0, 0, b"").row(0, 0, 0, 0, END).entry(0, 0, 1)), 0);
    assert_eq!(after_header(|f| _ = f.file_zero(0, 0, b"").file_zero(0, 0, b"")), 2);
    assert_eq!(after_header(|f| _ = f.file(0, 0, b"").file_zero(0, 0, b"")), 2);
    assert_eq!(after_header(|f| _ = f.row(0, 0, 0, 0, PLAIN).file(0, 0, b"")), 2);
    assert_eq!(after_header(|f| _ = f.entry(0, 0, 1).row(0, 0, 0, 0, PLAIN)), 2);
    assert_eq!(after_unit(|f| _ = f.attribute(NAME, UNSIGNED, 0)), 2);
    assert_eq!(after_unit(|f| _ = f.entry(0, 0, 1).range(0, 1, 0).attribute(NAME, UNSIGNED, 0)), 2);
    assert_eq!(after_unit(|f| _ = f.entry(0, 0, 1).failure(0, b"").failure(1, b"")), 2);
    assert_eq!(after_unit(|f| _ = f.entry(0, 0, 1).failure(0, b"").range(0, 1, 0)), 2);
    assert_eq!(after_unit(|f| _ = f.entry(0, 0, 1).range(0, 1, 0).failure(0, b"")), 2);
    assert_eq!(after_unit(|f| _ = f.entry(0, 0, 1).range(0, 1, 0).failure(1, b"").entry(1, 1, 1).failure(1, b"")), 0);
}

#[test]
fn shapes() {
    let bytes = |tag: u8, payload: &[u8]| after_unit(|f| f.0.extend(raw(tag, payload)));
    assert_eq!([bytes(0x12, &[0; 15]), bytes(0x12, &[0; 17]), bytes(0x13, &[0; 18]), bytes(0x13, &[0; 19])], [2; 4]);
    assert_eq!(after_unit(|f| _ = f.header(0, 0, 6, 4, 0, &[])), 2);
    assert_eq!(after_header(|f| _ = f.directory(2, b"")), 2);
    assert_eq!([0, 1, 2, 3].map(|kind| after_header(|f| _ = f.row(0, 0, 0, u16::MAX, kind))), [0, 0, 6, 2]);
    assert_eq!([24, 25, 26, 27, 28].map(|size| after_header(|f| f.0.extend(raw(0x16, &vec![0; size])))), [2, 2, 2, 0, 2]);
    assert_eq!(after_header(|f| f.0.extend(raw(0x15, &[0; 8]))), 2);
    assert_eq!(after_unit(|f| _ = f.entry(99, 0, 1)), 0);
    assert_eq!(
        [after_unit(|f| _ = f.entry(100, 0, 1)), after_unit(|f| _ = f.entry(0, 1, 1)), after_unit(|f| _ = f.entry(5, 0, 1).entry(5, 1, 1))],
        [2; 3]
    );
    assert_eq!([after_unit(|f| _ = f.entry(0, 0, 1).entry(1, 0, 1)), after_unit(|f| _ = f.entry(0, 0, 1).entry(1, 2, 1))], [2; 2]);
    let attribute = |payload: &[u8]| after_unit(|f| f.entry(0, 0, 1).0.extend(raw(0x18, payload)));
    assert_eq!([attribute(&[3, 0, 3]), attribute(&[3, 0, 10]), attribute(&[3, 0, 9, 0, 0, 0, 0, 0, 0, 0, 0])], [0; 3]);
    assert_eq!(
        [attribute(&[3, 0]), attribute(&[3, 0, 0]), attribute(&[3, 0, 11]), attribute(&[3, 0, 10, 0]), attribute(&[3, 0, 1, 0])],
        [2; 5]
    );
    assert_eq!(after_unit(|f| _ = f.entry(0, 0, 1).range(0, 1, 2)), 2);
    assert_eq!(after_unit(|f| _ = f.entry(0, 0, 1).failure(2, b"")), 2);
}

#[test]
fn limits() {
    let long = [b'a'; 6114];
    for (length, expected) in [(4096, 0), (4097, 0), (6113, 0), (6114, 3)] {
        let text = &long[..length];
        assert_eq!(after_unit(|f| _ = f.compilation_directory(text)), expected);
        assert_eq!(after_header(|f| _ = f.directory(1, text)), expected);
        assert_eq!(after_header(|f| _ = f.file_zero(1, 0, text)), expected);
        assert_eq!(after_header(|f| _ = f.file(0, 0, text)), expected);
        assert_eq!(after_unit(|f| _ = f.entry(0, 0, 1).string(7, text)), expected);
        assert_eq!(after_unit(|f| _ = f.entry(0, 0, 1).failure(0, text)), if length <= 4096 { 0 } else { 3 });
        // 2 goes before 3 in one field, the first bad field before later ones.
        assert_eq!(after_unit(|f| _ = f.entry(0, 0, 1).failure(2, text)), 2);
        assert_eq!(after_unit(|f| _ = f.entry(0, 0, 1).string(7, text).entry(0, 0, 1)), if expected == 3 { 3 } else { 2 });
    }
    let refusals: Vec<u8> = crate::limits::large().iter().map(|case| answer(case).refusal).collect();
    assert_eq!(refusals, [1, 1, 2, 1, 0, 0, 3, 1, 1, 0, 1, 2, 3, 0, 0, 2, 3, 0, 1, 1, 0, 1, 0, 2, 3]);
}

#[test]
fn units_work_and_buffers() {
    let (_, case, _) = document::cases().remove(0);
    let full = answer(&case);
    assert_eq!((full.records.len(), full.files.len(), full.warnings.len(), full.statistics), (135, 14, 0, [1, 2, 1, 0]));
    let refused = |change: &dyn Fn(&mut Case)| {
        let mut changed = case.clone();
        change(&mut changed);
        let answer = answer(&changed);
        assert!(answer.refusal == 0 || answer == crate::Answer { refusal: answer.refusal, ..Default::default() });
        answer.refusal
    };
    assert_eq!([refused(&|case| case.ordinal = 1), refused(&|case| (case.ordinal, case.work) = (u64::MAX, 0))], [4; 2]);
    // 17 fields and a program of 3 bytes.
    let work = 64 * 17 + 4 * 3 + 32_768;
    assert_eq!([refused(&|case| case.work = work), refused(&|case| case.work = work - 1)], [0, 5]);
    assert_eq!([refused(&|case| case.records = 135), refused(&|case| (case.records, case.files) = (134, 13))], [0, 16]);
    assert_eq!([refused(&|case| case.files = 14), refused(&|case| case.files = 13), refused(&|case| case.warnings = 0)], [0, 17, 0]);
    assert_eq!(refused(&|case| case.supplementary = vec![0x10]), 2);
    assert_eq!([refused(&|case| case.first_file = 0), refused(&|case| case.first_file = u32::MAX)], [0; 2]);
}

/// Every tenth byte of opcode 3's operand: E2's rule where one operand is declared and the base is above 3, else the plain Rust's.
#[test]
fn tenth_bytes_of_opcode_3() {
    for (fill, tenth) in [0x80, 0xff].into_iter().flat_map(|fill| (0..=255).map(move |tenth| (fill, tenth))) {
        for (base, declared) in [0, 3, 4, 13].into_iter().flat_map(|base| (0..=3).map(move |declared| (base, declared))) {
            let program = [[3].as_slice(), &[fill; 9], &[tenth, 5, 6, 7, 0, 1, 1]].concat();
            let mut lengths = OPCODE_LENGTHS;
            lengths[2] = declared;
            let call = Call::Program { base, lengths: lengths.to_vec(), offset: 44, program };
            let expected = if base > 3 && declared == 1 { of_tenth_byte(fill, tenth) } else { plain::call_answers::lines(&call) };
            assert_eq!(call_answers::lines(&call), expected, "{fill:x} {tenth:x}, base {base}, {declared} declared");
        }
    }
}

/// What E2 and the Standard's 7.6 have of ten bytes, the first nine alike: the number's sign is the last byte's bit 40 hex.
fn of_tenth_byte(fill: u8, tenth: u8) -> String {
    let nine: i128 = (0..9).map(|place| i128::from(fill & 0x7f) << (7 * place)).sum();
    let tenth_is = |low: u8| nine + ((i128::from(low) - if low & 0x40 != 0 { 0x80 } else { 0 }) << 63);
    let fits = i64::try_from(tenth_is(tenth & 0x7f)).is_ok();
    match (fits, tenth & 0x80 != 0) {
        (false, _) => "refused 10".to_owned(),
        (true, true) => "refused 11".to_owned(),
        (true, false) => "sequences 2c".to_owned(),
    }
}

/// Every path of up to five of these bytes: split by E3's words where it begins as they say, else as the plain Rust does it.
#[test]
fn short_paths() {
    let is_separator = |byte: &u8| matches!(byte, b'/' | b'\\');
    let (mut paths, mut count) = (vec![Vec::new()], 0);
    for length in 0..=5 {
        for path in &paths {
            let root = match &path[..] {
                [b'C' | b'c' | b'x', b':', b'/' | b'\\', ..] => Some(3),
                [b'\\', b'\\', ..] => Some(2),
                _ => None,
            };
            let (directory, basename, _) = parts(path);
            let [ours, plain] = [call_answers::lines, plain::call_answers::lines].map(|answer| answer(&Call::Path(path.clone())));
            // Whether it is absolute is none of the request's.
            assert_eq!(ours.chars().last(), plain.chars().last(), "{path:?}");
            assert_eq!(split_windows(path).is_some(), root.is_some(), "{path:?}");
            if let Some(root) = root {
                assert_eq!(split_windows(path), Some((directory, basename)), "{path:?}");
                assert!(!basename.iter().any(is_separator), "{path:?}");
                let between = &path[directory.len()..path.len() - basename.len()];
                match between {
                    [] => assert_eq!(directory.len(), root, "{path:?}"),
                    [separator] => assert!(is_separator(separator) && directory.len() >= root, "{path:?}"),
                    _ => panic!("{path:?}"),
                }
                assert_eq!([directory, between, basename].concat(), *path);
            } else {
                assert_eq!(ours, plain, "{path:?}");
            }
        }
        count += paths.len();
        if length < 5 {
            paths = paths.iter().flat_map(|path| DRIVES.map(|byte| [path.as_slice(), &[byte]].concat())).collect();
        }
    }
    assert_eq!(count, 66_430);
}

/// Files of directory 0 in version 4, the compilation directory being /w: their directory and basename, by E3's words.
#[test]
fn windows_files() {
    for (path, file) in [
        ("C:\\x.c", Some("C:\\ x.c")),
        ("C:/x.c", Some("C:/ x.c")),
        ("c:\\a\\x.c", Some("c:\\a x.c")),
        ("C:\\a/x.c", Some("C:\\a x.c")),
        ("C:/a\\x.c", Some("C:/a x.c")),
        ("C:\\a\\\\x.c", Some("C:\\a\\ x.c")),
        ("C:\\\\x.c", Some("C:\\ x.c")),
        ("C:\\", None),
        ("C:/", None),
        ("C:\\a\\", None),
        ("\\\\", None),
        ("\\\\h\\", None),
        ("\\\\h\\s\\x.c", Some("\\\\h\\s x.c")),
        ("\\\\h\\x.c", Some("\\\\h x.c")),
        // No shares, so below the compilation directory.
        ("\\\\x.c", Some("/w/\\\\ x.c")),
        ("\\\\\\x.c", Some("/w/\\\\ x.c")),
        ("\\\\/x.c", Some("/w/\\\\ x.c")),
        // As before.
        ("C:x.c", Some("/w C:x.c")),
        ("1:\\x.c", Some(" 1:\\x.c")),
        ("@:\\x.c", Some(" @:\\x.c")),
        ("[:\\x.c", Some(" [:\\x.c")),
        ("\\x.c", Some("/w \\x.c")),
        ("a\\x.c", Some("/w a\\x.c")),
        ("\\/x.c", Some("/w/\\ x.c")),
        ("//h/x.c", Some("//h x.c")),
        ("/C:\\x.c", Some("/ C:\\x.c")),
    ] {
        let case = document::path(path.as_bytes());
        let printed = String::from_utf8(listing(&answer(&case), 1)).unwrap();
        let file = file.map_or(String::new(), |file| format!("file 1 {file}\n"));
        assert_eq!(printed, format!("{file}stats 0 0 0 0\n"), "{path}");
    }
}
