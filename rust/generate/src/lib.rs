//! Cards and logs on which the two libraries are compared and measured. A seeded
//! generator makes them, sound or with faults.
//!
//! - `random`: the generator.
//! - `draft`: a card in the making.
//! - `charts`: the nodes of charts put together by hand.
//! - `cuts`: charts made together with what a cut leaves of them.
//! - `sound`: sound cards of every shape.
//! - `faults`: every cause of the numbers 1 to 6.
//! - `family`: a family of inputs; `cards`: the families of cards.
//! - `logs`: logs made by executing a chart.

#![forbid(unsafe_code)]

pub mod cards;
pub mod charts;
pub mod cuts;
pub mod draft;
pub mod family;
pub mod faults;
pub mod logs;
pub mod random;
pub mod sound;
