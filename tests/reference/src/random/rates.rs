//! Own rates at the ends of their range and about the figures of rows.

use super::Random;
use crate::carrier::OWN_RATES;
use crate::surface::Row;

/// An own rate within its range: such as decides alone, such as leaves the
/// decision to a row's b, and those between.
pub fn sound_rate(random: &mut Random, rows: &[Row]) -> u64 {
    let row = random.pick(rows);
    let (b, hardest) = (row.guaranteed_braking, row.hardest_braking);
    let (least, most) = (*OWN_RATES.start(), *OWN_RATES.end());
    let (any, below) = (least + random.below(most), least + random.below(b));
    let rate = random.pick(&[1, b - 1, b, b + 1, hardest, most, any, below, below]);
    rate.clamp(least, most)
}

/// An own rate such as a line of text can hold, now and then one out of range: also
/// such as would be within it, were it cut to 8 or 16 bits.
pub fn rate(random: &mut Random, rows: &[Row]) -> u64 {
    let sound = sound_rate(random, rows);
    if random.chance(6) {
        random.pick(&[0, 0, 256, 256, 256 + sound, 65_536 + sound, u32::MAX.into()])
    } else {
        sound
    }
}
