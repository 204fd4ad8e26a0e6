//! Compares card checks.

use generate::cards::{Card, FAMILIES};
use generate::random::Random;
use plain::Checked;

use crate::run::{self, Tally, hex};

/// All that a program says about a card.
#[derive(Debug, PartialEq, Eq)]
struct Answer {
    checked: Checked,
    note_length: usize,
}

/// Compares at least `cards` cards.
pub fn run(random: &mut Random, cards: usize) -> Result<(), String> {
    // 0 for a sound card, 1 to 6 for a refusal.
    let mut tally = Tally::new("cards", 0..=6);
    run::run(random, &FAMILIES, cards, compare_card, &mut tally)
}

/// Asks both programs about one card and returns the number they agree on. It must
/// also be the one that the card was made for: both might be wrong in the same way.
fn compare_card(_: &mut Random, card: &Card) -> Result<u32, String> {
    let bytes = &card.bytes;
    let plain = Answer {
        checked: plain::check(bytes),
        note_length: plain::note(bytes).len(),
    };
    let proved = Answer {
        checked: proved::check(bytes),
        note_length: proved::note(bytes),
    };
    let number = plain.checked.number;
    let foreseen = card.expected.is_none_or(|expected| expected == number);
    if plain == proved && foreseen {
        return Ok(number);
    }
    let expected = match card.expected {
        Some(number) => format!("number {number}"),
        None => "nothing said".to_string(),
    };
    let lines = [
        "a difference".to_string(),
        format!("card ({} bytes): {}", bytes.len(), hex(bytes)),
        format!("plain:    {plain:?}"),
        format!("proved:   {proved:?}"),
        format!("expected: {expected}"),
    ];
    Err(lines.join("\n"))
}
