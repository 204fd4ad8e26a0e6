//! The bench tool's calls, written a second time, plainly and from the
//! customer's documents alone. The proved library is compared with this one.
//!
//! - `card`: reading and checking a chart card.
//! - `chart`: the chart of a sound card, as a tree.
//! - `log`: reading a log.
//! - `prune`: when a chart terminates or evades a lifeline, and pruning.
//! - `execute`: the occurrences of an action and their follow-ups.
//! - `judge`: the search, its figures and the verdict.
//! - `cut`: cutting a device out of a chart.
//! - `refusal`: how a card, a log or a cut is refused.
//!
//! Words in quotation marks in the comments are those of `01-scope.md`.

#![forbid(unsafe_code)]

pub mod card;
pub mod chart;
pub mod cut;
pub mod execute;
pub mod judge;
pub mod log;
pub mod prune;
pub mod refusal;

pub use card::{Checked, check, note};
pub use cut::{CutAnswer, cut};
pub use judge::{Judged, judge};
