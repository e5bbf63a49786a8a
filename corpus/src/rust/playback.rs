//! A second file of the same unit.

#[derive(Clone, Copy, PartialEq, Eq, PartialOrd)]
pub enum State {
    Waiting { ticks: u32 },
    Running(u8),
    Done,
}

pub struct Cue {
    number: u32,
    state: State,
}

impl Cue {
    pub fn new(number: u32) -> Self {
        Cue {
            number,
            state: State::Waiting { ticks: number % 7 },
        }
    }

    pub fn number(&self) -> u32 {
        self.number
    }

    #[inline(never)]
    pub fn advance(&self) -> Option<Self> {
        let state = match self.state {
            State::Waiting { ticks: 0 } => State::Running(255),
            State::Waiting { ticks } => State::Waiting { ticks: ticks - 1 },
            State::Running(level) => match level.checked_sub(51) {
                Some(level) if level > 0 => State::Running(level),
                _ => State::Done,
            },
            State::Done => return None,
        };
        Some(Cue {
            number: self.number.wrapping_mul(3).rotate_left(1),
            state,
        })
    }
}
