//! Words on standard error while work takes long: the first after two seconds, then every two where something has changed.

use std::sync::atomic::{AtomicBool, AtomicU64, Ordering};
use std::sync::mpsc::{self, RecvTimeoutError, Sender};
use std::sync::{Arc, Mutex};
use std::thread::{self, JoinHandle};
use std::time::Duration;

const INTERVAL: Duration = Duration::from_secs(2);

#[derive(Default)]
struct State {
    stage: Mutex<String>,
    done: AtomicU64,
    /// 0 where it is not known.
    all: AtomicU64,
    /// Whether nothing is being done.
    resting: AtomicBool,
}

/// What is being done, and how far it is. Nothing is said after it is dropped.
pub struct Progress {
    state: Arc<State>,
    ended: Option<Sender<()>>,
    thread: Option<JoinHandle<()>>,
}

impl Progress {
    /// Lines begin with the program's name.
    pub fn new(program: &'static str) -> Self {
        let state = Arc::new(State::default());
        let (ended, end) = mpsc::channel();
        let seen = Arc::clone(&state);
        let thread = thread::spawn(move || {
            let mut said = String::new();
            while end.recv_timeout(INTERVAL) == Err(RecvTimeoutError::Timeout) {
                let stage = seen.stage.lock().map_or_else(|_| String::new(), |stage| stage.clone());
                let words = match (seen.done.load(Ordering::Relaxed), seen.all.load(Ordering::Relaxed)) {
                    (0, 0) => stage,
                    (done, 0) => format!("{stage}: {done}"),
                    (done, all) => format!("{stage}: {done} of {all}"),
                };
                if words != said && !seen.resting.load(Ordering::Relaxed) {
                    eprintln!("{program}: {words}");
                    said = words;
                }
            }
        });
        Self { state, ended: Some(ended), thread: Some(thread) }
    }

    /// Begins a stage of so many steps, 0 where that is not known.
    pub fn stage(&self, words: &str, all: u64) {
        if let Ok(mut stage) = self.state.stage.lock() {
            words.clone_into(&mut stage);
        }
        self.state.done.store(0, Ordering::Relaxed);
        self.state.all.store(all, Ordering::Relaxed);
    }

    /// Nothing is said while it waits for others.
    #[allow(dead_code)] // Of two programs one waits.
    pub fn rest(&self, resting: bool) {
        self.state.resting.store(resting, Ordering::Relaxed);
    }

    pub fn steps(&self, count: u64) {
        self.state.done.fetch_add(count, Ordering::Relaxed);
    }
}

impl Drop for Progress {
    fn drop(&mut self) {
        drop(self.ended.take());
        if let Some(thread) = self.thread.take() {
            // It holds nothing, so that it can't have failed in a way that matters here.
            let _ = thread.join();
        }
    }
}
