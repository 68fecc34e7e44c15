//! The due times of ticks.

use reference::ticks::{due, Known};

/// The greatest tick of a clip of 1,048,576 pictures.
const GREATEST: u32 = 33_554_431;

/// A record for each tick: 0 exact or 1 estimated, then the tick in four bytes.
pub fn records() -> Vec<u8> {
    ticks()
        .flat_map(|(kind, tick)| {
            let mut record = vec![kind];
            record.extend(tick.to_be_bytes());
            record
        })
        .collect()
}

pub fn lines() -> String {
    ticks()
        .map(|(kind, tick)| {
            let known = if kind == 0 {
                Known::Exact(tick)
            } else {
                Known::Estimated(tick)
            };
            match due(known) {
                Known::Exact(seconds) => format!("{tick} exact {} {seconds}\n", seconds.to_bits()),
                Known::Estimated(seconds) => {
                    format!("{tick} estimated {} {seconds}\n", seconds.to_bits())
                }
            }
        })
        .collect()
}

/// The first 4096, then some up to the greatest and to the end of 32 bits, each both ways.
fn ticks() -> impl Iterator<Item = (u8, u32)> {
    let far = (1..=64).map(|step| step * (GREATEST / 64) - step);
    (0..4096)
        .chain(far)
        .chain([GREATEST - 1, GREATEST, u32::MAX - 1, u32::MAX])
        .flat_map(|tick| [(0, tick), (1, tick)])
}
