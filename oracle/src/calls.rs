//! Calls of the lines layer and of the searches, as they stand in a file.

/// Calls of the lines layer.
pub mod lines {
    use crate::case::Case;

    /// A call. Its number in a file is its place here, from 1 on.
    pub enum Call {
        /// read_line_uleb at a place.
        Operand { place: u64, program: Vec<u8> },
        /// scan_line_sequence_offsets.
        Program { base: u8, lengths: Vec<u8>, offset: u64, program: Vec<u8> },
        /// split_path and is_absolute_path.
        Path(Vec<u8>),
        /// append_path, with one component after the other, on an empty path.
        Join(Vec<u8>, Vec<u8>),
        /// collect_lines at the first unit of a main input, and UnitLines::for_range for each query.
        Rows { case: Case, queries: Vec<Query> },
    }

    /// A function's range, and the sequence that it asks for.
    pub struct Query {
        pub start: u64,
        pub end: u64,
        pub sequence: Option<u64>,
    }

    impl Call {
        /// The kind, the length of what follows, and the call's values.
        pub fn bytes(&self) -> Vec<u8> {
            let (kind, body) = match self {
                Self::Operand { place, program } => (1, [&place.to_le_bytes(), program.as_slice()].concat()),
                Self::Program { base, lengths, offset, program } => {
                    (2, [&[*base, lengths.len() as u8], offset.to_le_bytes().as_slice(), lengths, program].concat())
                }
                Self::Path(path) => (3, path.clone()),
                Self::Join(first, second) => (4, [(first.len() as u16).to_le_bytes().as_slice(), first, second].concat()),
                Self::Rows { case, queries } => {
                    let [main, program] = [&case.main, &case.program].map(|bytes| (bytes.len() as u32).to_le_bytes());
                    let queries: Vec<u8> = queries.iter().flat_map(Query::bytes).collect();
                    (5, [&main, program.as_slice(), &case.main, &case.program, &queries].concat())
                }
            };
            [&[kind], (body.len() as u32).to_le_bytes().as_slice(), &body].concat()
        }
    }

    impl Query {
        fn bytes(&self) -> Vec<u8> {
            let asked = [u8::from(self.sequence.is_some())];
            [&self.start.to_le_bytes(), &self.end.to_le_bytes(), asked.as_slice(), &self.sequence.unwrap_or(0).to_le_bytes()].concat()
        }
    }
}

/// Calls of the searches of names and declarations.
pub mod searches {
    /// Two inputs, and what is asked of them.
    pub struct Call {
        pub main: Vec<u8>,
        pub supplementary: Vec<u8>,
        pub queries: Vec<Query>,
    }

    /// A search from the entry at an offset of the section.
    #[derive(Clone, Copy)]
    pub struct Query {
        pub asked: Asked,
        pub offset: u64,
    }

    /// What is searched from an entry: its name, the name that its call origin refers to, its declaration.
    #[derive(Clone, Copy, PartialEq)]
    pub enum Asked {
        Name,
        ReferenceName,
        Declaration,
    }

    /// What a query is answered, and how many entries the search reads, if there is one. In the package plain, which traces nothing,
    /// the start alone is counted.
    pub struct Answer {
        pub text: String,
        pub reads: Option<usize>,
    }

    impl Answer {
        pub fn line(&self) -> String {
            self.reads.map_or_else(|| self.text.clone(), |reads| format!("{} {reads}", self.text))
        }
    }

    impl Call {
        /// The length of what follows, the lengths of both inputs, the inputs, the queries.
        pub fn bytes(&self) -> Vec<u8> {
            let [main, supplementary] = [&self.main, &self.supplementary].map(|bytes| (bytes.len() as u32).to_le_bytes());
            let queries: Vec<u8> = self.queries.iter().flat_map(Query::bytes).collect();
            let body = [&main, supplementary.as_slice(), &self.main, &self.supplementary, &queries].concat();
            [(body.len() as u32).to_le_bytes().as_slice(), &body].concat()
        }
    }

    impl Query {
        fn bytes(&self) -> Vec<u8> {
            [[1 + self.asked as u8].as_slice(), &self.offset.to_le_bytes()].concat()
        }
    }
}
