//! Taking a lane over from text.

use super::Lane;
use crate::refusal::Refusal;
use crate::stopping::Stopping;
use crate::text;

impl Lane {
    /// Becomes the lane of a handover text, be it that a rule then refuses it. First
    /// comes everything else that may be wrong with it, and then alone whether it is
    /// safe, by the row in force.
    pub(super) fn read_handover<S: Stopping>(&mut self, text: &[u8]) -> Result<(), Refusal> {
        *self = text::handover(text).map_err(|_| Refusal::HandoverFaulty)?;
        let row = self.lawful_row().ok_or(Refusal::HandoverFaulty)?;
        Refusal::HandoverUnsafe.when(!self.is_safe::<S>(&row))
    }
}
