//! A carrier's motion within a cycle.

use crate::carrier::Carrier;

/// A carrier at a cycle's start and the acceleration it drives.
#[derive(Clone, Copy, Debug, PartialEq, Eq)]
pub struct Drive {
    pub carrier: Carrier,
    pub acceleration: i32,
}

impl Drive {
    /// n² times the position after the fraction k/n of the cycle.
    pub fn scaled_position(&self, k: i128, n: i128) -> i128 {
        let position = i128::from(self.carrier.position);
        let speed = i128::from(self.carrier.speed);
        n * n * position + 2 * speed * k * n + i128::from(self.acceleration) * k * k
    }

    /// n² times the tail's position then, which may lie before the lane's start.
    pub fn scaled_tail(&self, k: i128, n: i128) -> i128 {
        self.scaled_position(k, n) - n * n * i128::from(self.carrier.length)
    }

    /// The carrier after the whole cycle.
    pub fn end(&self) -> Carrier {
        self.carrier.after(self.acceleration)
    }

    /// The fraction (k, n) at which `self` comes nearest to `leader`, if that
    /// is within the cycle.
    ///
    /// The gap to the leader's tail is a parabola in k/n. It has a lowest point where the follower
    /// closes in at first and brakes harder than the leader, and there k/n is
    /// a ratio of whole numbers: no fraction is nearer than this one.
    pub fn closest_approach(&self, leader: &Drive) -> Option<(i128, i128)> {
        let closing = i128::from(self.carrier.speed) - i128::from(leader.carrier.speed);
        let opening = i128::from(leader.acceleration) - i128::from(self.acceleration);
        (0 < closing && closing < opening).then_some((closing, opening))
    }
}
