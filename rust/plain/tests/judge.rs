//! What `01-scope.md` says outright about judgments, and each rule once.

use generate::charts::*;
use generate::draft::{Draft, Node};
use plain::{Judged, judge};

/// The most numbers of a room that are used.
const USABLE: usize = 16_384;
/// Enough steps for every log here.
const AMPLE: u32 = 1_000_000;

/// A card of these nodes, declaring 2 lifelines and 2 messages.
fn card(nodes: Vec<Node>) -> Vec<u8> {
    Draft::new(nodes, 2, 2).bytes()
}

/// The bytes of a log, written as in the document: 0!3 or 1?3, with blanks between.
fn log(text: &str) -> Vec<u8> {
    text.split_whitespace().flat_map(entry).collect()
}

fn entry(action: &str) -> [u8; 2] {
    let (direction, sign) = if action.contains('!') {
        (0, '!')
    } else {
        (1, '?')
    };
    let (lifeline, message) = action.split_once(sign).expect("! or ?");
    let number = |text: &str| text.parse::<u8>().expect("a number");
    [2 * number(lifeline) + direction, number(message)]
}

fn judged(number: u32, place: u32, steps: u32, places: u32) -> Judged {
    Judged {
        number,
        place,
        steps,
        places,
    }
}

/// Judges with this allowance and this many numbers of room.
fn lent(nodes: Vec<Node>, text: &str, allowance: u32, room: usize) -> Judged {
    judge(&card(nodes), &log(text), allowance, &mut vec![0; room])
}

/// Judges with an ample lending.
fn ample(nodes: Vec<Node>, text: &str) -> Judged {
    lent(nodes, text, AMPLE, USABLE)
}

/// K of the document: alt(S, 1!1).
fn k() -> Vec<Node> {
    pair(ALT, s(), emission(1, 1))
}

/// par(0!0, 0!0).
fn twice() -> Vec<Node> {
    pair(PAR, emission(0, 0), emission(0, 0))
}

#[test]
fn logs_worked_by_hand() {
    let rows = [
        (empty(), "", AMPLE, USABLE, judged(20, 0, 0, 1)),
        (empty(), "0!0", AMPLE, USABLE, judged(22, 0, 0, 1)),
        (s(), "", AMPLE, USABLE, judged(21, 0, 0, 3)),
        (s(), "0!0", AMPLE, USABLE, judged(21, 1, 1, 5)),
        (s(), "0!0 1?0", AMPLE, USABLE, judged(20, 2, 2, 6)),
        (s(), "1?0", AMPLE, USABLE, judged(22, 0, 0, 3)),
        (s(), "0!0 1?0", 1, USABLE, judged(9, 0, 1, 5)),
        (s(), "0!0 1?0", AMPLE, 5, judged(10, 0, 1, 5)),
        (s(), "0!0", AMPLE, 2, judged(10, 0, 0, 0)),
        (twice(), "0!0", AMPLE, USABLE, judged(21, 1, 2, 5)),
        (
            pair(ALT, emission(0, 0), s()),
            "0!0 1?0",
            AMPLE,
            USABLE,
            judged(20, 2, 3, 8),
        ),
        (
            looped(HEAD_LOOP, k()),
            "0!0 1!1 1?0",
            AMPLE,
            USABLE,
            judged(22, 1, 1, 9),
        ),
        (
            looped(WEAK_LOOP, k()),
            "0!0 1!1 1?0",
            AMPLE,
            USABLE,
            judged(20, 3, 3, 22),
        ),
    ];
    for (nodes, text, allowance, room, expected) in rows {
        let found = lent(nodes.clone(), text, allowance, room);
        assert_eq!(found, expected, "{nodes:?} {text}");
    }
}

#[test]
fn the_example_of_the_program() {
    let card = [
        0x01, 0x00, 0x00, 0x00, 0x02, 0x01, 0x00, 0x00, 0x03, 0x00, 0x01, 0x00, 0x0C, 0x00, 0x02,
        0x01, 0x57, 0x4C,
    ];
    let log = [0x00, 0x00, 0x03, 0x00];
    let found = judge(&card, &log, AMPLE, &mut vec![0; USABLE]);
    assert_eq!(found, judged(20, 2, 2, 6));
}

#[test]
fn allowance_is_asked_before_room() {
    assert_eq!(lent(s(), "0!0 1?0", 1, 5), judged(9, 0, 1, 5));
    // The chart's own 10 stands before any 9.
    assert_eq!(lent(s(), "0!0 1?0", 0, 2), judged(10, 0, 0, 0));
}

#[test]
fn allowance_is_asked_only_for_a_follow_up() {
    assert_eq!(lent(empty(), "", 0, 1), judged(20, 0, 0, 1));
    assert_eq!(lent(s(), "", 0, 3), judged(21, 0, 0, 3));
    assert_eq!(lent(s(), "1?0", 0, 3), judged(22, 0, 0, 3));
    assert_eq!(lent(s(), "0!1", 0, 3), judged(22, 0, 0, 3));
    assert_eq!(lent(s(), "0!0", 0, 3), judged(9, 0, 0, 3));
    assert_eq!(lent(s(), "0!0 1?0", 2, 6), judged(20, 2, 2, 6));
    assert_eq!(lent(s(), "0!0 0!0", 1, 5), judged(22, 1, 1, 5));
}

#[test]
fn what_may_not_act_is_passed_over() {
    let strict = pair(STRICT, emission(1, 1), emission(0, 0));
    assert_eq!(lent(strict, "0!0", 0, 3), judged(22, 0, 0, 3));
    let seq = pair(SEQ, reception(0, 1), emission(0, 0));
    assert_eq!(lent(seq, "0!0", 0, 3), judged(22, 0, 0, 3));
}

#[test]
fn a_follow_up_fits_whole_or_not_at_all() {
    assert_eq!(lent(s(), "0!0", AMPLE, 3), judged(10, 0, 0, 3));
    assert_eq!(lent(s(), "0!0", AMPLE, 4), judged(10, 0, 0, 3));
    assert_eq!(lent(s(), "0!0", AMPLE, 5), judged(21, 1, 1, 5));
    assert_eq!(lent(empty(), "", AMPLE, 0), judged(10, 0, 0, 0));
    assert_eq!(lent(empty(), "", AMPLE, 1), judged(20, 0, 0, 1));
}

#[test]
fn no_verdict_after_9_or_10_even_if_a_way_has_used_up_the_log() {
    assert_eq!(lent(twice(), "0!0", 1, USABLE), judged(9, 0, 1, 5));
    let thrice = pair(PAR, emission(0, 0), twice());
    assert_eq!(lent(thrice.clone(), "0!0", AMPLE, 7), judged(10, 0, 1, 7));
    assert_eq!(lent(thrice, "0!0", AMPLE, 8), judged(21, 1, 3, 8));
}

#[test]
fn the_place_of_a_deviation_is_of_the_whole_search() {
    // The first way executes two actions, the last one only one.
    let chart = pair(ALT, s(), emission(0, 0));
    assert_eq!(ample(chart, "0!0 1?0 0!0"), judged(22, 2, 3, 8));
}

#[test]
fn a_failed_choice_frees_its_places() {
    // The left choice takes 2 places, the right one 2 and then 1.
    let chart = pair(ALT, s(), pair(STRICT, emission(0, 0), emission(1, 1)));
    assert_eq!(ample(chart.clone(), "0!0 1!1"), judged(20, 2, 3, 10));
    assert_eq!(lent(chart, "0!0 1!1", 3, 10), judged(20, 2, 3, 10));
}

#[test]
fn occurrences_go_by_the_tree_and_not_by_the_node_numbers() {
    // alt(S, 0!0), its right side with the lowest number of all.
    let right = [1, 0, 0, 0];
    let left = [[1, 0, 0, 0], [2, 1, 0, 0], [3, 1, 2, 0]];
    let nodes = vec![right, left[0], left[1], left[2], [6, 3, 0, 0]];
    assert_eq!(ample(nodes, "0!0"), judged(20, 1, 2, 7));
}

#[test]
fn terminating_is_what_accepts() {
    let strict_loop = looped(STRICT_LOOP, emission(0, 0));
    assert_eq!(ample(strict_loop, "0!0 0!0"), judged(20, 2, 2, 6));
    let alt = pair(ALT, emission(0, 0), empty());
    assert_eq!(ample(alt.clone(), ""), judged(20, 0, 0, 3));
    assert_eq!(
        ample(pair(STRICT, alt, emission(1, 0)), ""),
        judged(21, 0, 0, 5)
    );
}

/// The places that the first and only follow-up takes, besides the chart's.
fn cost(nodes: Vec<Node>, text: &str) -> u32 {
    let chart = nodes.len() as u32;
    let found = ample(nodes, text);
    assert_eq!(found.steps, 1);
    found.places - chart
}

#[test]
fn places_of_pairs() {
    let (one, other) = (emission(0, 0), emission(1, 1));
    assert_eq!(cost(one.clone(), "0!0"), 1);
    for kind in [STRICT, SEQ, PAR] {
        assert_eq!(cost(pair(kind, one.clone(), other.clone()), "0!0"), 2);
    }
    assert_eq!(cost(pair(ALT, one.clone(), other.clone()), "0!0"), 1);
    // Right of strict: the right's follow-up alone.
    assert_eq!(cost(pair(STRICT, empty(), one.clone()), "0!0"), 1);
    // Right of seq: a pair besides the pruned left, which takes none here.
    assert_eq!(cost(pair(SEQ, empty(), one.clone()), "0!0"), 2);
    assert_eq!(cost(pair(SEQ, other.clone(), one.clone()), "0!0"), 2);
    assert_eq!(cost(pair(PAR, other.clone(), one.clone()), "0!0"), 2);
    assert_eq!(cost(pair(ALT, other, one), "0!0"), 1);
}

/// The places of the left of a seq, pruned by lifeline 0.
fn pruned(left: Vec<Node>) -> u32 {
    cost(pair(SEQ, left, emission(0, 1)), "0!1") - 2
}

#[test]
fn places_of_pruning() {
    let (here, away) = (emission(0, 0), emission(1, 0));
    for kind in PAIRS {
        assert_eq!(pruned(pair(kind, away.clone(), empty())), 1);
        let deep = pair(kind, away.clone(), pair(kind, empty(), away.clone()));
        assert_eq!(pruned(deep), 2);
    }
    assert_eq!(pruned(pair(ALT, here.clone(), away.clone())), 0);
    assert_eq!(pruned(pair(ALT, s(), pair(PAR, empty(), away.clone()))), 1);
    for kind in LOOPS {
        assert_eq!(pruned(looped(kind, away.clone())), 1);
        assert_eq!(pruned(looped(kind, here.clone())), 1);
        assert_eq!(pruned(looped(kind, s())), 1);
        assert_eq!(pruned(looped(kind, looped(kind, here.clone()))), 2);
        assert_eq!(pruned(looped(kind, k())), 1);
    }
}

#[test]
fn places_of_loops() {
    for kind in [STRICT_LOOP, HEAD_LOOP, PARALLEL_LOOP] {
        assert_eq!(cost(looped(kind, emission(0, 0)), "0!0"), 2);
        assert_eq!(cost(looped(kind, k()), "0!0"), 3);
    }
    // The front is the loop pruned: an empty, or a loop of the pruned body.
    assert_eq!(cost(looped(WEAK_LOOP, emission(0, 0)), "0!0"), 4);
    assert_eq!(cost(looped(WEAK_LOOP, k()), "0!0"), 5);
    let choice = pair(ALT, emission(0, 0), pair(PAR, emission(1, 0), empty()));
    assert_eq!(cost(looped(WEAK_LOOP, choice), "0!0"), 5);
}

#[test]
fn a_part_in_two_places_is_rebuilt_once_for_each() {
    // After 0!0 the loop of 1!0 stands in the front and in the loop behind.
    // Executing 0!1 prunes both by 0.
    let body = pair(ALT, emission(0, 0), looped(STRICT_LOOP, emission(1, 0)));
    let chart = pair(SEQ, looped(WEAK_LOOP, body), emission(0, 1));
    // The chart has 7 nodes. 0!0 takes the seq, two pairs, the empty, the front
    // of 2; 0!1 the seq, the empty, two pairs, front and loop of 2 each.
    assert_eq!(ample(chart, "0!0 0!1"), judged(20, 2, 2, 7 + 6 + 8));
}

#[test]
fn the_four_loops_differ() {
    let rounds = |kind, body: Vec<Node>, text| {
        let found = ample(looped(kind, body), text);
        (found.number, found.place)
    };
    let verdicts = |body: &[Node], text| LOOPS.map(|kind| rounds(kind, body.to_vec(), text));
    let (yes, no) = ((20, 4), (22, 1));
    // A second round begins before the first one ends: on another lifeline,
    // on the lifeline on which the first one waits, on the only lifeline.
    assert_eq!(verdicts(&s(), "0!0 0!0 1?0 1?0"), [no, yes, yes, yes]);
    assert_eq!(verdicts(&k(), "0!0 1!1 1?0 1!1"), [no, no, yes, yes]);
    let alone = pair(STRICT, emission(0, 0), emission(0, 1));
    assert_eq!(verdicts(&alone, "0!0 0!0 0!1 0!1"), [no, no, no, yes]);
}

#[test]
fn nothing_is_simplified() {
    for kind in [SEQ, PAR] {
        let chart = pair(kind, emission(0, 0), emission(1, 1));
        assert_eq!(ample(chart, "0!0 1!1"), judged(20, 2, 2, 3 + 2 + 2));
    }
    for kind in [HEAD_LOOP, PARALLEL_LOOP] {
        let chart = looped(kind, emission(0, 0));
        assert_eq!(ample(chart, "0!0 0!0"), judged(20, 2, 2, 2 + 2 + 3));
    }
    let chart = pair(SEQ, pair(SEQ, empty(), empty()), emission(0, 0));
    assert_eq!(ample(chart, "0!0"), judged(20, 1, 1, 8));
    let chart = pair(PAR, looped(WEAK_LOOP, empty()), emission(0, 0));
    assert_eq!(ample(chart, "0!0"), judged(20, 1, 1, 6));
}

#[test]
fn a_seq_lets_the_right_act_only_on_a_pruned_left() {
    // After 0!1 the left's choice is made: 0!0 has gone.
    let chart = || pair(SEQ, k(), emission(0, 1));
    assert_eq!(ample(chart(), "0!1 1!1"), judged(20, 2, 2, 7 + 2 + 2));
    assert_eq!(ample(chart(), "0!1 0!0 1?0").number, 22);
}

#[test]
fn refusals_of_the_card_come_first() {
    let spoiled = card(vec![[1, 0, 0, 0], [11, 0, 0, 0]]);
    assert_eq!(judge(&spoiled, &[0; 257], 0, &mut []), judged(4, 1, 0, 0));
    assert_eq!(judge(&[], &[9, 9, 9], 0, &mut []), judged(1, 0, 0, 0));
    let orphan = card(vec![[1, 0, 0, 0], [1, 0, 0, 0], [7, 1, 0, 0]]);
    assert_eq!(judge(&orphan, &[9, 9], 0, &mut []), judged(5, 0, 0, 0));
}

#[test]
fn number_7_length() {
    let refused = judged(7, 0, 0, 0);
    for length in [1, 3, 255, 257, 258, 300] {
        assert_eq!(judge(&card(s()), &vec![0; length], 0, &mut []), refused);
        // Also where actions are not declared.
        assert_eq!(judge(&card(s()), &vec![9; length], 0, &mut []), refused);
    }
}

#[test]
fn number_8_actions() {
    for (entry, sound) in [
        ([0, 1], true),
        ([3, 1], true),
        ([4, 0], false),
        ([5, 0], false),
        ([255, 0], false),
        ([0, 2], false),
        ([0, 255], false),
    ] {
        let log = [[0, 0], [3, 0], entry, [255, 255]].concat();
        let place = if sound { 3 } else { 2 };
        let found = judge(&card(s()), &log, 0, &mut []);
        assert_eq!(found, judged(8, place, 0, 0), "{entry:?}");
    }
}

#[test]
fn all_16_lifelines_and_64_messages_can_act() {
    let nodes = pair(STRICT, emission(15, 63), reception(15, 63));
    let card = Draft::new(nodes, 16, 64).bytes();
    let found = judge(&card, &[30, 63, 31, 63], 2, &mut [0; 6]);
    assert_eq!(found, judged(20, 2, 2, 6));
    let found = judge(&card, &[30, 63, 32, 63], 2, &mut [0; 6]);
    assert_eq!(found, judged(8, 1, 0, 0));
}

#[test]
fn logs_of_128_actions_are_sound_and_129_give_7() {
    let chart = || looped(STRICT_LOOP, emission(0, 0));
    let long = "0!0 ".repeat(128);
    assert_eq!(ample(chart(), &long), judged(20, 128, 128, 2 + 2 * 128));
    assert_eq!(ample(chart(), &"0!0 ".repeat(129)), judged(7, 0, 0, 0));
}

#[test]
fn charts_of_depth_16_are_sound_and_17_give_6() {
    let deep = |loops| (0..loops).fold(emission(0, 0), |body, _| looped(PARALLEL_LOOP, body));
    assert_eq!(ample(deep(15), "0!0"), judged(20, 1, 1, 16 + 16));
    assert_eq!(ample(deep(16), "0!0"), judged(6, 0, 0, 0));
}

/// A room of `length` numbers, none of them 0.
fn garbage(length: usize) -> Vec<u32> {
    (1..=length as u32).collect()
}

/// The room after a judgment that was lent `length` numbers.
fn room_after(card: &[u8], log: &[u8], allowance: u32, length: usize) -> Vec<u32> {
    let mut room = garbage(length);
    judge(card, log, allowance, &mut room);
    room
}

#[test]
fn a_refused_input_leaves_the_room_as_found() {
    for length in [0, 1, 5, USABLE + 3] {
        let found = garbage(length);
        assert_eq!(room_after(&[], &[], 9, length), found);
        assert_eq!(room_after(&card(s()), &[0], 9, length), found);
        assert_eq!(room_after(&card(s()), &[4, 0], 9, length), found);
    }
}

#[test]
fn all_else_zeroes_the_usable_room_and_nothing_beyond() {
    let logs = ["", "0!0", "0!0 1?0", "1?0"].map(log);
    for length in [0, 1, 2, 3, 5, 6, USABLE - 1, USABLE, USABLE + 1, 20_000] {
        let mut expected = garbage(length);
        expected[..length.min(USABLE)].fill(0);
        for log in &logs {
            for allowance in [0, 1, 2] {
                assert_eq!(room_after(&card(s()), log, allowance, length), expected);
            }
        }
    }
}

#[test]
fn only_16384_numbers_are_usable() {
    // Every follow-up of the weak loop rebuilds the par of 64 for its front.
    let away = pairs(PAR, &vec![emission(1, 0); 64]);
    let chart = looped(WEAK_LOOP, pair(ALT, away, emission(0, 0)));
    let long = "0!0 ".repeat(128);
    let exact = ample(chart.clone(), &long);
    assert_eq!(exact.number, 10);
    assert!(exact.places as usize <= USABLE);
    assert_eq!(lent(chart, &long, AMPLE, 2 * USABLE), exact);
}

/// A chart that grows 75 deep: 64 rounds of the parallel loop begin, and then every
/// 0!0 first tries the 6,400 actions that the rounds still owe.
fn deep_chart() -> Vec<Node> {
    let owed = pairs(PAR, &vec![emission(0, 0); 100]);
    let rounds = looped(PARALLEL_LOOP, pair(STRICT, emission(1, 0), owed));
    let turns = looped(STRICT_LOOP, pair(STRICT, emission(0, 0), emission(0, 1)));
    pair(PAR, rounds, turns)
}

#[test]
fn a_chart_that_grows_deep_needs_little_stack() {
    let search = || {
        let text = "1!0 ".repeat(64) + "0!0 0!1";
        ample(deep_chart(), &text)
    };
    let thread = std::thread::Builder::new().stack_size(1 << 20);
    let found = thread.spawn(search).expect("a thread").join();
    // 207 nodes. Round i takes its empty and strict, its loop's par, and the i
    // pars above. The last 0!0 owed takes its empty, 7 pars below its strict,
    // and the 65 pars above.
    let begun: u32 = (1..=64).map(|round| 3 + round).sum();
    let expected = judged(21, 66, 64 + 6400 + 1 + 1, 207 + begun + 73);
    assert_eq!(found.expect("a verdict"), expected);
}
