//! Frame age (document 002, frame offset; document 000, conditions 24, 26 and 27; document 02, T-02).

use crate::answers::OUT_OF_RANGE;

/// The frames of a day are numbered from 1; after the last one comes 1 again.
const FRAMES: i64 = 86_400;

#[derive(Clone, Copy, PartialEq, Eq, Debug, Default)]
pub struct FrameAge {
    pub answer: u32,
    pub age: u32,
    /// The frame part of condition 24: this cycle's frame or the one before.
    pub fresh: bool,
    /// Condition 26.
    pub stale: bool,
    /// Condition 27.
    pub recent: bool,
}

pub fn frame_age(station: u32, onboard: u32) -> FrameAge {
    let (station, onboard) = (i64::from(station), i64::from(onboard));
    let frames = 1..=FRAMES;
    if !frames.contains(&station) || !frames.contains(&onboard) {
        return FrameAge { answer: OUT_OF_RANGE, ..FrameAge::default() };
    }
    let age = ((station - onboard).rem_euclid(FRAMES) / 2) as u32;
    FrameAge { answer: 0, age, fresh: age <= 1, stale: age > 14, recent: age < 5 }
}
