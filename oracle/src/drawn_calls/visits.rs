//! Drawn calls of the visit map.

use super::Maker;
use crate::calls::{Call, Kind};
use crate::lent::Lent;
use crate::reading::Configuration;
use crate::rounds::Comparison;

/// Without such maps a run would not tell the rule from one that asks for values alone.
pub const MARKED_BY_SLOPE: &str = "accepted maps mark a coefficient by its slope alone";

impl Maker {
    /// One drawn map.
    pub fn visits_round(&mut self, comparison: &mut Comparison<Call>) {
        let call = self.call(Kind::Visits, comparison.round);
        let read = comparison.compare(&call);
        if read.number == 0 && !read.marked_by_slope().is_empty() {
            comparison.meet(MARKED_BY_SLOPE);
        }
    }

    pub(super) fn visits(&mut self, call: &mut Call, sound: &Configuration) {
        self.model_and_work(call, sound);
        let inputs = self.inputs(sound);
        call.inputs = self.lend(&inputs);
        let needed = sound.parameters();
        let length = match self.draws.whole(1, 40) {
            1 => needed - 1,
            2 => needed + 1,
            3 => 0,
            4 => inputs.len(),
            5 => self.whole(0, 2 * needed),
            _ => needed,
        };
        call.map = self.lend_bytes(length);
    }

    /// Old contents of memory: any bytes, or those that a map holds.
    pub(super) fn lend_bytes(&mut self, length: usize) -> Lent<u8> {
        let most = if self.once_in(2) { 1 } else { 0xff };
        let bytes: Vec<u8> = (0..length).map(|_| self.whole(0, most) as u8).collect();
        self.lend(&bytes)
    }
}
