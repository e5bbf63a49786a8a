//! A call of the import, and its answer.

/// The inputs, and how long the buffers are; their old content alters no answer.
#[derive(Clone, Debug, Eq, PartialEq)]
pub struct Case {
    pub main: Vec<u8>,
    pub supplementary: Vec<u8>,
    pub program: Vec<u8>,
    /// The list section and the address table that field 1f reads (E9).
    pub lists: Vec<u8>,
    pub addresses: Vec<u8>,
    /// All units of the main input are imported (E11), and the ordinal is not read.
    pub all: bool,
    pub ordinal: u64,
    pub inlines: bool,
    pub call_sites: bool,
    pub first_file: u32,
    pub work: u64,
    pub records: u32,
    pub files: u32,
    pub warnings: u32,
}

impl Case {
    /// A call as the listing program makes it: list section and address table are "both empty in the listing program".
    pub fn new(main: Vec<u8>, supplementary: Vec<u8>, program: Vec<u8>) -> Self {
        Self {
            main,
            supplementary,
            program,
            lists: Vec::new(),
            addresses: Vec::new(),
            all: false,
            ordinal: 0,
            inlines: true,
            call_sites: true,
            first_file: 1,
            work: 57_344,
            records: 32_768,
            files: 32_768,
            warnings: 32_768,
        }
    }
}

/// Refusal 0 is a finished import; a refused one has no bytes and only zeros.
#[derive(Clone, Debug, Default, Eq, PartialEq)]
pub struct Answer {
    pub refusal: u8,
    pub records: Vec<u8>,
    pub files: Vec<u8>,
    pub warnings: Vec<u8>,
    /// Functions, line rows, inline nodes, rejected ranges.
    pub statistics: [u64; 4],
}

/// What a case by hand shows, the case, and the listing that it must print.
pub type Shown = (&'static str, Case, String);

/// The cases by hand, then those that are drawn by their numbers, without end.
pub fn then_drawn(shown: Vec<Shown>, draw: impl Fn(u64) -> Case) -> impl Iterator<Item = Case> {
    shown.into_iter().map(|(_, case, _)| case).chain((0..).map(draw))
}
