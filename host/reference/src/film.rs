//! A shot's number on the film, from documents 01 and 02 alone.

use crate::accept::{demand, is_timeline, Refusal, TIMELINE_FIELD};

pub const DAY_FIELD: u8 = 39;

/// A day and a timeline.
pub type Shot = (u32, u16);

/// Ten minutes each, negative for a shot before the first. Either day is looked at before either timeline.
pub fn frame_number(first: Shot, shot: Shot) -> Result<i64, Refusal> {
    let days = 51_544..=88_068;
    demand(days.contains(&first.0), DAY_FIELD, 0)?;
    demand(days.contains(&shot.0), DAY_FIELD, 0)?;
    demand(is_timeline(u64::from(first.1)), TIMELINE_FIELD, 0)?;
    demand(is_timeline(u64::from(shot.1)), TIMELINE_FIELD, 0)?;
    Ok(slot(shot) - slot(first))
}

fn slot((day, timeline): Shot) -> i64 {
    let (hours, minutes) = (i64::from(timeline / 100), i64::from(timeline % 100));
    i64::from(day) * 144 + hours * 6 + minutes / 10
}
