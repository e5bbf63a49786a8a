//! What the library is given of a case. The benchmark takes it from here too.

use oracle::Case;

pub fn inputs(case: &Case) -> pezgok::Inputs<'_> {
    pezgok::Inputs {
        main: &case.main,
        supplementary: &case.supplementary,
        program: &case.program,
        lists: &case.lists,
        addresses: &case.addresses,
    }
}

pub fn asked(case: &Case) -> pezgok::Options {
    pezgok::Options { ordinal: case.ordinal, inlines: case.inlines, call_sites: case.call_sites, first_file: case.first_file }
}
