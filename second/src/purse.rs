//! Units and depth, the same in a run and in a check.

use crate::refusals::Refusal;

/// "depth 200".
const DEPTH: u16 = 200;

/// The units of a walk.
pub struct Purse {
    fuel: u16,
    left: u16,
}

impl Purse {
    pub fn new(fuel: u16) -> Purse {
        Purse { fuel, left: fuel }
    }

    /// "Taking a unit hands back the purse with one unit less, or says Fuel."
    pub fn take(&mut self) -> Result<(), Refusal> {
        self.left = self.left.checked_sub(1).ok_or(Refusal::Fuel)?;
        Ok(())
    }

    /// Copies take their units one at a time.
    pub fn pay(&mut self, units: usize) -> Result<(), Refusal> {
        (0..units).try_for_each(|_| self.take())
    }

    /// "each query or statement row that starts takes one unit and one level of depth"; "Depth
    /// comes before Fuel".
    pub fn start(&mut self, depth: u16) -> Result<(), Refusal> {
        if depth > DEPTH {
            return Err(Refusal::Depth);
        }
        self.take()
    }

    /// "The answer carries the units spent."
    pub fn spent(&self) -> u16 {
        self.fuel - self.left
    }
}
