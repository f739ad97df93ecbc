//! Stopping distances: how far a carrier gets while it brakes to rest.

/// S(c, v): the sum of the positions gained, cycle by cycle, until rest.
///
/// The last cycle brakes only by what speed is left, so that rest comes at a
/// cycle's end. A rate of 0 never comes to rest and is refused by a panic.
pub fn distance(rate: u32, speed: u32) -> u64 {
    assert!(rate > 0, "a carrier that does not brake does not stop");
    let (rate, mut speed) = (u64::from(rate), u64::from(speed));
    let mut gained = 0;
    while speed > 0 {
        let braking = rate.min(speed);
        gained += 2 * speed - braking;
        speed -= braking;
    }
    gained
}

/// S(c, v) in closed form: q²c + 2qr + r with v = qc + r, which is q(v + r) + r.
///
/// The tests hold it equal to [`distance`].
pub fn fast(rate: u32, speed: u32) -> u64 {
    let (q, r) = (u64::from(speed / rate), u64::from(speed % rate));
    q * (u64::from(speed) + r) + r
}

/// A way to reckon stopping distances.
pub trait Stopping {
    fn distance(rate: u32, speed: u32) -> u64;
}

/// Stopping distances as the paper defines them.
pub struct Summed;

/// Stopping distances in closed form.
pub struct Fast;

impl Stopping for Summed {
    fn distance(rate: u32, speed: u32) -> u64 {
        distance(rate, speed)
    }
}

impl Stopping for Fast {
    fn distance(rate: u32, speed: u32) -> u64 {
        fast(rate, speed)
    }
}
