//! What the Rust asked of the inputs in one import or search, for the coverage table and for the number of entries that a search reads.

use std::cell::RefCell;

#[derive(Clone, Copy, Debug)]
pub enum Event {
    /// An attribute was asked for, there or not.
    Attribute { supplementary: bool, unit: usize, entry: usize, name: u16 },
    /// A string was read.
    Text { empty: bool },
    /// An entry was read behind a reference.
    Follow { supplementary: bool, unit: usize, entry: usize },
    /// The ranges of an entry of the imported unit were asked for: it has a name.
    Ranges { entry: usize },
    /// The entries below a subprogram are walked, for one record.
    Walk { entry: usize },
}

thread_local! {
    static EVENTS: RefCell<Option<Vec<Event>>> = const { RefCell::new(None) };
}

/// In the package plain, which the benchmark times, nothing is kept.
pub fn trace(event: impl FnOnce() -> Event) {
    if cfg!(feature = "plain") {
        return;
    }
    EVENTS.with_borrow_mut(|events| {
        if let Some(events) = events {
            events.push(event());
        }
    });
}

/// What `run` gives, and the events on the way.
pub fn traced<T>(run: impl FnOnce() -> T) -> (T, Vec<Event>) {
    EVENTS.set(Some(Vec::new()));
    let result = run();
    (result, EVENTS.take().unwrap_or_default())
}
