//! What `01-scope.md` says outright about cuts, and each rule once.

use generate::cards::with_faults;
use generate::charts::*;
use generate::draft::{Draft, MOST_NODES, Node, TRAILER};
use generate::random::Random;
use generate::{faults, sound};
use plain::{CutAnswer, check, cut, note};

/// Longer than every card that a cut writes.
const AMPLE: usize = 4096;

/// A card of these nodes, declaring 3 lifelines and 2 messages.
fn card(nodes: Vec<Node>) -> Vec<u8> {
    Draft::new(nodes, 3, 2).bytes()
}

/// A card whose nodes have a note before them.
fn noted(nodes: Vec<Node>, note: &[u8]) -> Vec<u8> {
    [note, &card(nodes)].concat()
}

fn written(length: usize) -> CutAnswer {
    CutAnswer {
        number: 0,
        place: 0,
        length: length as u32,
    }
}

fn refused(number: u32, place: u32) -> CutAnswer {
    CutAnswer {
        number,
        place,
        length: 0,
    }
}

/// `length` bytes of garbage: the two bytes of a trailer's end, by turns.
fn garbage(length: usize) -> Vec<u8> {
    [0x57, 0x4C].into_iter().cycle().take(length).collect()
}

/// The answer, and the whole output afterwards, which had garbage in it.
fn cut_into(card: &[u8], lifeline: u32, length: usize) -> (CutAnswer, Vec<u8>) {
    let mut out = garbage(length);
    let answer = cut(card, lifeline, &mut out);
    (answer, out)
}

/// The card that is written to an ample output, or the refusal.
fn cut_card(card: &[u8], lifeline: u32) -> Result<Vec<u8>, CutAnswer> {
    let (answer, mut out) = cut_into(card, lifeline, AMPLE);
    if answer.number != 0 {
        return Err(answer);
    }
    out.truncate(answer.length as usize);
    Ok(out)
}

/// Cutting the lifeline out of the one chart leaves the other.
fn leaves(chart: Vec<Node>, lifeline: u32, expected: Vec<Node>) {
    let found = cut_card(&card(chart.clone()), lifeline);
    assert_eq!(found, Ok(card(expected)), "{chart:?} by {lifeline}");
}

/// No log of the chart avoids the lifeline.
fn leaves_nothing(chart: Vec<Node>, lifeline: u32) {
    let found = cut_card(&card(chart.clone()), lifeline);
    assert_eq!(found, Err(refused(12, 0)), "{chart:?} by {lifeline}");
}

#[test]
fn the_examples() {
    let choice = pair(ALT, emission(0, 0), emission(1, 0));
    leaves(choice, 0, emission(1, 0));
    leaves_nothing(emission(0, 0), 0);
    leaves(looped(STRICT_LOOP, emission(0, 0)), 0, empty());
}

#[test]
fn a_card_is_written_byte_by_byte() {
    // par(seq(1!0, alt(0!1, 2?1)), weak loop of 1?0), declaring 3 lifelines and 2
    // messages, its nodes in another order and behind a note.
    let nodes = [
        [2, 1, 0, 0],
        [2, 2, 1, 0],
        [9, 0, 0, 0],
        [1, 0, 1, 0],
        [6, 3, 1, 0],
        [1, 1, 0, 0],
        [4, 5, 4, 0],
        [5, 6, 2, 0],
    ];
    let before = noted(nodes.to_vec(), b"gate 4");
    let by_0 = [
        1, 1, 0, 0, 2, 2, 1, 0, 4, 0, 1, 0, 2, 1, 0, 0, 9, 3, 0, 0, 5, 2, 4, 0, 0x18, 0, 3, 2,
        0x57, 0x4C,
    ];
    assert_eq!(cut_card(&before, 0), Ok(by_0.to_vec()));
    assert_eq!(cut_card(&before, 1), Err(refused(12, 0)));
    let by_2 = [
        1, 1, 0, 0, 1, 0, 1, 0, 4, 0, 1, 0, 2, 1, 0, 0, 9, 3, 0, 0, 5, 2, 4, 0, 0x18, 0, 3, 2,
        0x57, 0x4C,
    ];
    assert_eq!(cut_card(&before, 2), Ok(by_2.to_vec()));
    let empty = [0, 0, 0, 0, 4, 0, 3, 2, 0x57, 0x4C];
    let only_loop = card(looped(HEAD_LOOP, s()));
    assert_eq!(cut_card(&only_loop, 1), Ok(empty.to_vec()));
}

#[test]
fn the_back_distance_has_two_bytes() {
    // 64 and 63 nodes: 256 and 252 bytes.
    let chart = |leaves| pairs(SEQ, &vec![emission(1, 0); leaves]);
    let longer = cut_card(&card(looped(WEAK_LOOP, chart(32))), 0).expect("a cut");
    assert_eq!(longer[256..], [0x00, 0x01, 3, 2, 0x57, 0x4C]);
    let shorter = cut_card(&card(chart(32)), 0).expect("a cut");
    assert_eq!(shorter[252..], [0xFC, 0x00, 3, 2, 0x57, 0x4C]);
}

#[test]
fn the_counts_and_lifelines_stay() {
    // Lifeline 15 and message 63 stay declared where they no longer act.
    let chart = pair(ALT, emission(15, 63), reception(14, 0));
    let found = cut_card(&Draft::new(chart, 16, 64).bytes(), 15);
    assert_eq!(found, Ok(Draft::new(reception(14, 0), 16, 64).bytes()));
}

#[test]
fn an_alt_keeps_what_evades() {
    let (here, away, other) = (emission(0, 0), emission(1, 0), reception(2, 1));
    leaves(pair(ALT, here.clone(), away.clone()), 0, away.clone());
    leaves(pair(ALT, away.clone(), here.clone()), 0, away.clone());
    let both = pair(ALT, away.clone(), other.clone());
    leaves(both.clone(), 0, both);
    leaves_nothing(pair(ALT, here.clone(), reception(0, 1)), 0);
    // The side that is kept is pruned as well.
    let inner = pair(ALT, here.clone(), away.clone());
    let side = pair(PAR, inner, other.clone());
    leaves(pair(ALT, here, side), 0, pair(PAR, away, other));
}

#[test]
fn other_pairs_evade_on_both_sides_or_not_at_all() {
    let choice = || pair(ALT, emission(0, 0), emission(1, 0));
    for kind in [STRICT, SEQ, PAR] {
        let expected = pair(kind, emission(1, 0), emission(1, 0));
        leaves(pair(kind, choice(), choice()), 0, expected);
        leaves_nothing(pair(kind, choice(), reception(0, 0)), 0);
        leaves_nothing(pair(kind, reception(0, 0), choice()), 0);
        leaves_nothing(pair(kind, empty(), reception(0, 0)), 0);
    }
}

#[test]
fn a_loop_stays_or_becomes_empty() {
    for kind in LOOPS {
        leaves(looped(kind, s()), 0, empty());
        leaves(looped(kind, s()), 2, looped(kind, s()));
        let choice = pair(ALT, s(), emission(2, 0));
        leaves(looped(kind, choice), 0, looped(kind, emission(2, 0)));
        leaves(looped(kind, empty()), 0, looped(kind, empty()));
        // A loop that becomes empty still evades, so the loop around it stays.
        for outer in LOOPS {
            let nested = looped(outer, looped(kind, emission(0, 0)));
            leaves(nested, 0, looped(outer, empty()));
        }
    }
}

#[test]
fn nothing_is_simplified() {
    for kind in PAIRS {
        leaves(
            pair(kind, empty(), empty()),
            0,
            pair(kind, empty(), empty()),
        );
        let gone = looped(STRICT_LOOP, emission(0, 0));
        let chart = pair(kind, gone.clone(), emission(1, 0));
        leaves(chart, 0, pair(kind, empty(), emission(1, 0)));
        let chart = pair(kind, emission(1, 0), gone);
        leaves(chart, 0, pair(kind, emission(1, 0), empty()));
        let twice = pair(kind, emission(1, 0), emission(1, 0));
        leaves(twice.clone(), 0, twice);
    }
}

#[test]
fn a_lifeline_that_never_acts_leaves_the_chart() {
    leaves(s(), 2, s());
    leaves(empty(), 0, empty());
    // The nodes of S in another order, and a note.
    let turned = vec![[2, 1, 0, 0], [1, 0, 0, 0], [3, 1, 0, 0]];
    assert_eq!(cut_card(&noted(turned, b"dry"), 2), Ok(card(s())));
}

#[test]
fn number_11_lifelines() {
    for declared in [1, 2, 16] {
        let card = Draft::new(emission(0, 0), declared, 1).bytes();
        let declared = u32::from(declared);
        for lifeline in [
            declared,
            declared + 1,
            16,
            17,
            255,
            256,
            257,
            1 << 16,
            u32::MAX,
        ] {
            // Also where the output is too short.
            for length in [0, AMPLE] {
                let (answer, _) = cut_into(&card, lifeline, length);
                assert_eq!(answer, refused(11, 0), "{lifeline} of {declared}");
            }
        }
        for lifeline in 1..declared {
            assert!(cut_card(&card, lifeline).is_ok());
        }
    }
}

#[test]
fn number_12_comes_before_13() {
    for chart in [emission(0, 0), s(), pair(PAR, empty(), s())] {
        for length in [0, 9, 10, AMPLE] {
            let (answer, _) = cut_into(&card(chart.clone()), 0, length);
            assert_eq!(answer, refused(12, 0));
        }
    }
}

#[test]
fn number_13_output() {
    for chart in [
        empty(),
        s(),
        looped(HEAD_LOOP, s()),
        pairs(SEQ, &vec![empty(); 128]),
    ] {
        let result = card(chart.clone());
        for length in [0, 1, 9, result.len() - 1] {
            let (answer, out) = cut_into(&card(chart.clone()), 2, length);
            assert_eq!(answer, refused(13, 0));
            assert_eq!(out, garbage(length));
        }
        for length in [result.len(), result.len() + 1, result.len() + 7, 5000] {
            let (answer, out) = cut_into(&card(chart.clone()), 2, length);
            assert_eq!(answer, written(result.len()));
            let (head, beyond) = out.split_at(result.len());
            assert_eq!(head, result);
            assert_eq!(beyond, &garbage(length)[result.len()..]);
        }
    }
}

#[test]
fn an_output_may_be_shorter_than_the_card_that_is_cut() {
    let card = noted(pair(ALT, s(), emission(2, 0)), &[0; 100]);
    let (answer, out) = cut_into(&card, 0, 10);
    assert_eq!(answer, written(10));
    assert_eq!(out, [1, 2, 0, 0, 4, 0, 3, 2, 0x57, 0x4C]);
}

#[test]
fn refusals_of_the_card_come_first() {
    let mut random = Random::new(1);
    for fault in faults::all().repeat(3) {
        let spoiled = with_faults(&mut random, &[fault]);
        let place = check(&spoiled.bytes).place;
        for (lifeline, length) in [(0, AMPLE), (0, 0), (255, 0), (u32::MAX, AMPLE)] {
            let (answer, out) = cut_into(&spoiled.bytes, lifeline, length);
            let number = spoiled.expected.expect("one fault's number is known");
            assert_eq!(answer, refused(number, place), "{fault:?}");
            assert_eq!(out, garbage(length));
        }
    }
}

#[test]
fn each_number_of_a_card_and_its_place() {
    let sound = card(s());
    let leaf = [1, 0, 0, 0];
    let deep = (0..16).fold(empty(), |body, _| looped(WEAK_LOOP, body));
    let rows = [
        (sound[..sound.len() - 1].to_vec(), refused(1, 0)),
        (sound[sound.len() - TRAILER..].to_vec(), refused(2, 0)),
        (Draft::new(s(), 17, 1).bytes(), refused(3, 0)),
        (card(vec![leaf, leaf, [3, 0, 1, 1]]), refused(4, 2)),
        (card(vec![leaf, leaf, [7, 0, 0, 0]]), refused(5, 1)),
        (card(deep), refused(6, 0)),
    ];
    for (card, expected) in rows {
        assert_eq!(cut_into(&card, 99, 0).0, expected);
    }
}

#[test]
fn a_refused_cut_leaves_the_output_as_found() {
    let charts = [(s(), 0), (s(), 3), (vec![[11, 0, 0, 0]], 2)];
    for (chart, lifeline) in charts {
        for length in [0, 1, 18, AMPLE] {
            let (answer, out) = cut_into(&card(chart.clone()), lifeline, length);
            assert_ne!(answer.number, 0);
            assert_eq!(out, garbage(length));
        }
    }
}

#[test]
fn a_cut_card_is_sound_and_cut_again_the_same() {
    let mut random = Random::new(2);
    let mut cuts = 0;
    for _ in 0..400 {
        let draft = sound::any(&mut random);
        for lifeline in 0..u32::from(draft.lifelines) {
            let Ok(result) = cut_card(&draft.bytes(), lifeline) else {
                continue;
            };
            let after = check(&result);
            assert_eq!((after.number, note(&result).len()), (0, 0));
            assert!(after.nodes as usize <= draft.nodes.len());
            let counts = [draft.lifelines, draft.messages];
            assert_eq!(result[result.len() - 4..result.len() - 2], counts);
            assert_eq!(cut_card(&result, lifeline), Ok(result));
            cuts += 1;
        }
    }
    assert!(cuts > 1000, "{cuts} cuts");
}

#[test]
fn a_chart_of_255_nodes_is_written_whole() {
    let chart = pairs(PAR, &vec![emission(1, 0); MOST_NODES.div_ceil(2)]);
    assert_eq!(chart.len(), MOST_NODES);
    leaves(chart.clone(), 0, chart.clone());
    leaves_nothing(chart, 1);
}
