//! Takes in the Rust's own text at build time, into OUT_DIR: whole files and single items, unchanged in the package plain, in the oracle
//! with the edits of amendments.txt.
//!
//! GSYM_SRC names the folder of the text. GSYM_FAULT names a block of faults.txt whose edits are made to the oracle's copies, to show that
//! the cases notice the fault.

use std::path::{Path, PathBuf};
use std::{env, fs, process};

const WHOLE: &[&str] = &[
    "model.rs",
    "normalize.rs",
    "builder.rs",
    "convert/diagnostic.rs",
    "convert/dwarf/lines.rs",
    "convert/dwarf/references.rs",
    "convert/dwarf/dies.rs",
];

/// Items are named by what their first line begins with.
const ITEMS: &[(&str, &[&str])] = &[
    (
        "convert/dwarf.rs",
        &[
            "const DW_AT_LLVM_STMT_SEQUENCE:",
            "fn unsigned_attribute<",
            "fn file_index_attribute<",
            "struct ImportContext<",
            "fn import_unit<",
            "fn import_unit_details<",
            "fn next_subprogram<",
            "fn gimli_error(",
            "fn is_live_range(",
        ],
    ),
    ("convert/elf/mod.rs", &["pub struct ConversionStats {"]),
    ("format/function.rs", &["pub(crate) const MAX_INLINE_DEPTH:", "pub(crate) const fn check_inline_depth("]),
    ("error.rs", &["pub type Result<", "impl Error {", "impl From<gimli::Error> for Error {"]),
];

/// The oracle's own texts in which a fault may be planted too, and what says that one is.
const OWN: &[(&str, &str)] = &[
    ("requests.rs", "faulty_requests"),
    ("lookup.rs", "faulty_lookup"),
    ("answer.rs", "faulty_answer"),
    ("grammar.rs", "faulty_grammar"),
    ("machine.rs", "faulty_machine"),
    ("rnglists.rs", "faulty_rnglists"),
];

/// A block of amendments.txt or faults.txt.
struct Block {
    file: String,
    /// Old and new texts.
    edits: Vec<(String, String)>,
}

fn fail(message: String) -> ! {
    println!("cargo::error={message}");
    process::exit(1)
}

fn read(path: &Path) -> String {
    println!("cargo::rerun-if-changed={}", path.display());
    fs::read_to_string(path).unwrap_or_else(|error| fail(format!("{}: {error}", path.display())))
}

fn main() {
    println!("cargo::rerun-if-env-changed=GSYM_SRC");
    // The feature is the package plain's alone.
    println!("cargo::rustc-check-cfg=cfg(feature, values(\"plain\"))");
    OWN.iter().for_each(|(_, faulty)| println!("cargo::rustc-check-cfg=cfg({faulty})"));
    let plain = env::var_os("CARGO_FEATURE_PLAIN").is_some();
    let mut package = PathBuf::from(env::var_os("CARGO_MANIFEST_DIR").unwrap());
    // The package plain stands within the oracle's.
    if plain {
        package.pop();
    }
    let output = PathBuf::from(env::var_os("OUT_DIR").unwrap());
    let source = env::var_os("GSYM_SRC").map_or_else(|| package.join("../../shared/docs/src"), PathBuf::from);
    if !source.is_dir() {
        fail(format!("the Rust's text is not at hand: {} is no folder; GSYM_SRC can name another", source.display()));
    }
    // A fault is none of the package plain's, which is built once for all of them.
    let (mut amendments, mut fault) = if plain { (Vec::new(), None) } else { edits(&package) };
    for &(path, items) in WHOLE.iter().map(|path| (*path, [].as_slice())).collect::<Vec<_>>().iter().chain(ITEMS) {
        let mut text = read(&source.join(path));
        if !items.is_empty() {
            text = items.iter().map(|item| cut(path, &text, item)).collect();
        }
        for amendment in amendments.extract_if(.., |amendment| amendment.file == path) {
            text = edited(&text, &amendment, true);
        }
        if let Some(fault) = fault.take_if(|fault| fault.file == path) {
            text = edited(&text, &fault, false);
        }
        write(&output.join(path), &text);
    }
    for (path, faulty) in OWN {
        if let Some(fault) = fault.take_if(|fault| fault.file == *path) {
            write(&output.join(path), &edited(&read(&package.join("src").join(path)), &fault, false));
            println!("cargo::rustc-cfg={faulty}");
        }
    }
    if let Some(block) = amendments.into_iter().chain(fault).next() {
        fail(format!("amendments.txt or faults.txt names {}, of which nothing is taken in", block.file));
    }
}

/// All amendments, and the fault that is asked for.
fn edits(package: &Path) -> (Vec<Block>, Option<Block>) {
    println!("cargo::rerun-if-env-changed=GSYM_FAULT");
    let list = read(&package.join("amendments.txt"));
    let names = list.lines().filter_map(|line| line.strip_prefix("amendment: "));
    let amendments = names.map(|name| block("amendments.txt", &list, &format!("amendment: {name}\n"))).collect();
    let fault = env::var("GSYM_FAULT").ok();
    (amendments, fault.map(|name| block("faults.txt", &read(&package.join("faults.txt")), &format!("fault: {name}\n"))))
}

fn write(path: &Path, text: &str) {
    fs::create_dir_all(path.parent().unwrap()).unwrap();
    fs::write(path, text).unwrap_or_else(|error| fail(format!("{}: {error}", path.display())));
}

/// One item of a file, with the attributes and comments above it. The text is formatted: an item ends on its
/// own line, or with the first line that closes it at the left margin.
fn cut(path: &str, text: &str, item: &str) -> String {
    let lines: Vec<&str> = text.lines().collect();
    let starts: Vec<usize> = (0..lines.len()).filter(|&i| lines[i].starts_with(item)).collect();
    let [start] = starts[..] else {
        fail(format!("{path}: {} lines begin with \"{item}\", where one is needed", starts.len()));
    };
    let above = lines[..start].iter().rev().take_while(|line| line.starts_with("#[") || line.starts_with("///")).count();
    let length = if lines[start].ends_with(';') { Some(0) } else { lines[start..].iter().position(|line| *line == "}") };
    let Some(length) = length else {
        fail(format!("{path}: \"{item}\" does not end"));
    };
    lines[start - above..=start + length].join("\n") + "\n\n"
}

/// The block of a list that begins with a line.
fn block(name: &str, list: &str, first: &str) -> Block {
    let Some(block) = list.split("\n\n").find(|block| format!("{block}\n").starts_with(first)) else {
        fail(format!("{name} has no \"{}\"", first.trim_end()));
    };
    let values = |key: &'static str| block.lines().filter_map(move |line| line.strip_prefix(key)).map(|value| value.trim().to_owned());
    let edits: Vec<(String, String)> = values("old:").zip(values("new:")).collect();
    match values("file:").next() {
        Some(file) if !edits.is_empty() => Block { file, edits },
        _ => fail(format!("{name}: \"{}\" needs a file, and an old and a new text", first.trim_end())),
    }
}

/// The text without comments and with single blanks, so that an old text may run over lines, and with the edits.
fn edited(text: &str, block: &Block, once: bool) -> String {
    let code = text.lines().filter(|line| !line.trim_start().starts_with("//"));
    let mut text = code.flat_map(str::split_whitespace).collect::<Vec<_>>().join(" ");
    for (old, new) in &block.edits {
        let places = text.matches(old.as_str()).count();
        if places == 0 || once && places > 1 {
            fail(format!("{} has \"{old}\" at {places} places", block.file));
        }
        text = text.replace(old, new);
    }
    text.replace("; ", ";\n").replace("{ ", "{\n")
}
