//! A family of inputs, made in batches.

use crate::random::Random;

/// A family gives its inputs in batches. Each batch goes once through the whole
/// family, so one batch of every family already gives every number.
pub struct Family<T> {
    pub name: &'static str,
    /// How many inputs of this family are compared for each hundred that are asked
    /// for. The shares of all families together are at least a hundred.
    pub share: usize,
    pub batch: fn(&mut Random) -> Vec<T>,
}

impl<T> Family<T> {
    pub const fn new(
        name: &'static str,
        share: usize,
        batch: fn(&mut Random) -> Vec<T>,
    ) -> Family<T> {
        Family { name, share, batch }
    }
}
