//! Symbols joined to records, through the wrapper.

use pezgok::{join_symbols, join_symbols_with, symbols_work_length};

fn field(tag: u8, numbers: [u64; 2], name: &[u8]) -> Vec<u8> {
    let length = (16 + name.len()) as u16;
    [&[tag][..], &length.to_le_bytes(), &numbers[0].to_le_bytes(), &numbers[1].to_le_bytes(), name].concat()
}

fn function(start: u64, end: u64, name: &[u8]) -> Vec<u8> {
    field(0x41, [start, end], name)
}

fn symbol(start: u64, size: u64, name: &[u8]) -> Vec<u8> {
    field(0x50, [start, size], name)
}

#[test]
fn symbols_that_no_record_holds_are_joined() {
    let records = function(0x1000, 0x1010, b"dim");
    let list = [
        symbol(0x100f, 8, b"inside"),
        symbol(0x1010, 8, b"fade"),
        symbol(0x1020, 0, b"of no size"),
        symbol(0x1030, 8, b""),
        symbol(0x1014, 8, b"inside fade"),
        symbol(0x0ff8, 64, b"runs into both"),
    ];
    let list = list.concat();
    let expected = [records.clone(), function(0x1010, 0x1018, b"fade"), function(0x0ff8, 0x1038, b"runs into both")].concat();
    for work in [0, 1, 16, 17, 32, symbols_work_length(records.len(), list.len())] {
        let (mut result, mut work) = (vec![0xa5; expected.len() + 4], vec![0xa5; work]);
        assert_eq!(join_symbols_with(&records, &list, &mut result, &mut work), Ok(expected.len()));
        assert_eq!(result, [&expected[..], &[0xa5; 4]].concat());
        assert!(work.iter().all(|&byte| byte == 0));
    }
    let mut result = vec![0xa5; expected.len()];
    assert_eq!(join_symbols(&records, &list, &mut result), Ok(expected.len()));
    assert_eq!(result, expected);
}

#[test]
fn refusals_have_numbers_and_names() {
    let (records, last) = (function(0x1000, 0x1010, b"dim"), u64::MAX);
    let short = records.len() - 1;
    for (tray, list, room, number, name) in [
        (function(0x1010, 0x1010, b"dim"), symbol(last, 1, b"fade"), 99, 19, "misshapen records"),
        (records.clone(), symbol(last, 1, b""), 0, 26, "misshapen symbol"),
        (records.clone(), function(1, 2, b"fade"), 99, 26, "misshapen symbol"),
        (records.clone(), symbol(last - 1, 1, b"fade"), records.len() + 22, 27, "short result"),
        (records.clone(), Vec::new(), short, 27, "short result"),
    ] {
        let mut result = vec![0xa5; room];
        let refusal = join_symbols(&tray, &list, &mut result).expect_err("it is refused");
        assert_eq!((refusal.number(), refusal.to_string().as_str()), (number, name));
        assert!(result.iter().all(|&byte| byte == 0));
    }
    let mut result = vec![0xa5; records.len() + 23];
    assert_eq!(join_symbols(&records, &symbol(last - 1, 1, b"fade"), &mut result), Ok(records.len() + 23));
}
