//! How a card, a log or a cut is refused.

/// Number and place by which a card, a log or a cut is refused.
#[derive(Debug, PartialEq, Eq, Clone, Copy)]
pub struct Refusal {
    pub number: u32,
    pub place: u32,
}

pub(crate) fn refuse<T>(number: u32, place: usize) -> Result<T, Refusal> {
    Err(Refusal {
        number,
        place: place as u32,
    })
}
