//! Measures card checks. Nothing is lent to them but the card, so no buffer has
//! to be cleared.

use std::hint::black_box;

use generate::cards::{Card, FAMILIES, damage};
use generate::draft::MOST_NODES;
use generate::random::Random;
use generate::sound;
use plain::Checked;

use crate::measure::{ROUNDS, best};

const SEED: u64 = 20_260_101;
/// Cards in each set; in the mix, those of all families together.
const CARDS: usize = 1000;
/// How often a round goes through a set.
const PASSES: usize = 5;

type Cards = Vec<Vec<u8>>;

/// Prints nanoseconds per card for each set of cards.
pub fn run() {
    let mut random = Random::new(SEED);
    println!("nanoseconds per card check, less is faster, best of {ROUNDS} rounds");
    println!(
        "{:<32} {:>10} {:>10} {:>13}",
        "cards", "plain", "proved", "proved/plain"
    );
    for (name, cards) in sets(&mut random) {
        let round = best(
            || check_all(&cards, plain::check),
            || check_all(&cards, proved::check),
        );
        let checks = (PASSES * cards.len()) as f64;
        let (plain, proved) = (round.plain / checks, round.proved / checks);
        let ratio = proved / plain;
        println!("{name:<32} {plain:>10.1} {proved:>10.1} {ratio:>13.3}");
    }
}

fn check_all(cards: &Cards, check: fn(&[u8]) -> Checked) {
    for _ in 0..PASSES {
        for card in cards {
            black_box(check(black_box(card)));
        }
    }
}

fn sets(random: &mut Random) -> Vec<(&'static str, Cards)> {
    vec![
        ("small, 3 to 7 nodes", sound_cards(random, 3, 7)),
        ("middling, 55 to 65 nodes", sound_cards(random, 55, 65)),
        (
            "largest, 255 nodes",
            sound_cards(random, MOST_NODES, MOST_NODES),
        ),
        ("spoiled, one byte damaged", spoiled_cards(random)),
        ("mix of all families", mixed_cards(random)),
    ]
}

fn sound_cards(random: &mut Random, least: usize, most: usize) -> Cards {
    let one = |_| {
        let size = random.within(least..=most);
        sound::with_note(random, size).bytes()
    };
    (0..CARDS).map(one).collect()
}

/// Cards of any shape with one byte of a node or of the trailer changed.
fn spoiled_cards(random: &mut Random) -> Cards {
    let one = |_| {
        let draft = sound::any(random);
        let bytes = draft.bytes();
        let position = random.within(draft.note.len()..=bytes.len() - 1);
        damage(random, &bytes, position)
    };
    (0..CARDS).map(one).collect()
}

/// Cards of all families by their shares, drawn from some batches of each.
fn mixed_cards(random: &mut Random) -> Cards {
    let mut cards = Vec::new();
    for family in &FAMILIES {
        let batches: Vec<Card> = (0..10).flat_map(|_| (family.batch)(random)).collect();
        for _ in 0..family.share * CARDS / 100 {
            let card = random.below(batches.len());
            cards.push(batches[card].bytes.clone());
        }
    }
    cards
}
