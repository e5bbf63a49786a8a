//! A desk without the standard library, so that its units are only our own.
#![no_std]
#![crate_type = "lib"]

mod playback;

use core::sync::atomic::{AtomicU32, Ordering};

static MASTER: AtomicU32 = AtomicU32::new(255);

pub trait Curve {
    fn apply(&self, level: u8) -> u8;
}

pub struct Linear;
pub struct Power<const N: u32>;

impl Curve for Linear {
    fn apply(&self, level: u8) -> u8 {
        level
    }
}

impl<const N: u32> Curve for Power<N> {
    fn apply(&self, level: u8) -> u8 {
        (0..N).fold(u32::from(level), |value, _| scale(value, u32::from(level))) as u8
    }
}

#[inline]
fn scale(value: u32, by: u32) -> u32 {
    value.saturating_mul(by) / 255
}

#[inline(always)]
fn master() -> u32 {
    MASTER.load(Ordering::Relaxed)
}

#[no_mangle]
pub extern "C" fn desk_dim(level: u8, curve: u32) -> u8 {
    let curve: &dyn Curve = match curve {
        0 => &Linear,
        1 => &Power::<2>,
        _ => &Power::<3>,
    };
    scale(u32::from(curve.apply(level)), master()) as u8
}

/// Adds what a closure makes of each level.
#[inline(never)]
pub fn sum_with(levels: &[u8], each: impl Fn(u8) -> u32) -> u32 {
    levels.iter().copied().map(each).filter(|value| value % 2 == 0).sum()
}

#[no_mangle]
pub extern "C" fn desk_sum(levels: &[u8; 64], gain: u32) -> u32 {
    let loud = sum_with(levels, |level| scale(u32::from(level), gain));
    let soft = sum_with(&levels[..32], |level| master().wrapping_sub(u32::from(level)));
    loud.wrapping_add(soft)
}

#[no_mangle]
pub extern "C" fn desk_play(step: u32) -> u32 {
    let mut cue = playback::Cue::new(step);
    while let Some(next) = cue.advance() {
        cue = next;
    }
    cue.number()
}
