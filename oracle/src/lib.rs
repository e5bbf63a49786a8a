//! The oracle: imports of one unit of DWARF, or of all units, answered by the Rust importer's own text, which the build takes in. Around it
//! stand the input's grammar, the refusals, the buffers and the listing of document 01, the paper that asks for them.
//!
//! Two packages are built from these sources. In `plain` the text is as it stands. In `oracle` it carries the amendments of the
//! change requests, and `plain` judges its answers wherever no request applies.

// The coverage table, which `plain` has not, asks for some things alone.
#![cfg_attr(feature = "plain", allow(dead_code))]

macro_rules! text {
    ($path:literal) => {
        include!(concat!(env!("OUT_DIR"), "/", $path));
    };
}

// ---- the Rust's own text, in the modules that it expects

#[allow(dead_code, clippy::all)]
mod model {
    text!("model.rs");
}

#[allow(dead_code, clippy::all)]
mod normalize {
    text!("normalize.rs");
}

#[allow(dead_code, clippy::all)]
mod builder {
    use crate::stand_in::hashbrown;
    text!("builder.rs");
}

#[allow(dead_code, clippy::all)]
mod format {
    pub mod function {
        use crate::{Error, Result};
        text!("format/function.rs");
    }
}

mod convert;
mod error;
mod stand_in;

use builder::GsymBuilder;
use error::{Error, Result};
use model::AddressRange;
use stand_in::writer::{Endian, GsymVersion};
use stand_in::{validation, writer};

// ---- around it, in both packages

#[cfg(not(faulty_answer))]
mod answer;
pub mod call_answers;
#[cfg(not(faulty_grammar))]
mod grammar;
#[cfg(not(faulty_machine))]
mod machine;
mod output;
mod payload;
#[cfg(not(faulty_rnglists))]
mod rnglists;
mod trace;

pub use answer::{answer, answer_in, finished, inputs, list_work, measured, work_needed, work_of};
pub use case::{Answer, Case};
pub use output::{field, written};

// What is asked and what is answered have one type in both packages: `plain` makes it.
#[cfg(feature = "plain")]
pub mod calls;
#[cfg(feature = "plain")]
pub mod case;

#[cfg(not(feature = "plain"))]
pub use plain::{self, calls, case};

// ---- the oracle's own

#[cfg(all(test, not(feature = "plain")))]
mod columns;
#[cfg(not(feature = "plain"))]
pub mod compose;
#[cfg(not(feature = "plain"))]
pub mod coverage;
#[cfg(not(feature = "plain"))]
pub mod document;
#[cfg(not(feature = "plain"))]
pub mod files;
#[cfg(not(feature = "plain"))]
pub mod front_cases;
#[cfg(not(feature = "plain"))]
pub mod generate;
#[cfg(not(feature = "plain"))]
pub mod joined;
#[cfg(not(feature = "plain"))]
pub mod judge;
#[cfg(not(feature = "plain"))]
pub mod limits;
#[cfg(not(feature = "plain"))]
pub mod line_cases;
#[cfg(not(feature = "plain"))]
pub mod list_cases;
#[cfg(not(feature = "plain"))]
pub mod list_forms;
#[cfg(not(feature = "plain"))]
mod list_limits;
#[cfg(not(feature = "plain"))]
mod list_shown;
#[cfg(not(feature = "plain"))]
mod list_table;
#[cfg(all(test, not(feature = "plain")))]
mod list_tests;
#[cfg(not(feature = "plain"))]
pub mod listing;
#[cfg(not(feature = "plain"))]
mod lists;
#[cfg(not(feature = "plain"))]
pub mod look_cases;
#[cfg(not(any(feature = "plain", faulty_lookup)))]
pub mod lookup;
#[cfg(not(feature = "plain"))]
pub mod machine_cases;
#[cfg(all(test, not(feature = "plain")))]
mod machine_tests;
#[cfg(all(test, not(feature = "plain")))]
mod merging;
#[cfg(not(feature = "plain"))]
pub mod program_cases;
#[cfg(not(feature = "plain"))]
mod program_shown;
#[cfg(not(feature = "plain"))]
mod programs;
#[cfg(not(feature = "plain"))]
pub mod random;
#[cfg(not(any(feature = "plain", faulty_requests)))]
mod requests;
#[cfg(not(feature = "plain"))]
pub mod search_cases;
#[cfg(not(feature = "plain"))]
mod search_webs;
#[cfg(not(feature = "plain"))]
pub mod symbol_cases;
#[cfg(not(feature = "plain"))]
pub mod symbols;
#[cfg(all(test, not(feature = "plain")))]
mod tests;
#[cfg(not(feature = "plain"))]
pub mod whole_cases;
#[cfg(not(feature = "plain"))]
mod whole_shown;

// The build's copies, with the fault that is planted in one.
#[cfg(faulty_requests)]
mod requests {
    text!("requests.rs");
}
#[cfg(faulty_lookup)]
pub mod lookup {
    text!("lookup.rs");
}
#[cfg(faulty_answer)]
mod answer {
    text!("answer.rs");
}
#[cfg(faulty_grammar)]
mod grammar {
    text!("grammar.rs");
}
#[cfg(faulty_machine)]
mod machine {
    text!("machine.rs");
}
#[cfg(faulty_rnglists)]
mod rnglists {
    text!("rnglists.rs");
}

#[cfg(not(feature = "plain"))]
pub use judge::judged;
