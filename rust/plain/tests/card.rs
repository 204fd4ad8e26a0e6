//! What `01-scope.md` says outright about cards, and each number once.

use std::rc::Rc;

use plain::chart::{Action, Chart, Declared, Direction, Pair};
use plain::{Checked, check, note};

/// The card of the document's last example: strict(0!0, 1?0).
const EXAMPLE: [u8; 18] = [
    0x01, 0x00, 0x00, 0x00, 0x02, 0x01, 0x00, 0x00, 0x03, 0x00, 0x01, 0x00, 0x0C, 0x00, 0x02, 0x01,
    0x57, 0x4C,
];

/// A card of these nodes, declaring 2 lifelines and 3 messages.
fn card(note: &[u8], nodes: &[[u8; 4]]) -> Vec<u8> {
    let back = (4 * nodes.len() as u16).to_le_bytes();
    let trailer = [back[0], back[1], 2, 3, 0x57, 0x4C];
    [note, nodes.as_flattened(), &trailer].concat()
}

/// The example's card with one byte changed.
fn example_with(position: usize, value: u8) -> Vec<u8> {
    let mut card = EXAMPLE.to_vec();
    card[position] = value;
    card
}

/// An empty inside loops, so that the depth is the one wanted.
fn loops(depth: u8) -> Vec<[u8; 4]> {
    let mut nodes = vec![[0, 0, 0, 0]];
    nodes.extend((1..depth).map(|number| [7, number - 1, 0, 0]));
    nodes
}

fn sound(nodes: u32, depth: u32, lifelines: u32) -> Checked {
    Checked {
        number: 0,
        place: 0,
        nodes,
        depth,
        lifelines,
    }
}

fn refused(number: u32, place: u32) -> Checked {
    Checked {
        number,
        place,
        nodes: 0,
        depth: 0,
        lifelines: 0,
    }
}

#[test]
fn the_example_is_sound() {
    assert_eq!(check(&EXAMPLE), sound(3, 2, 2));
    assert_eq!(note(&EXAMPLE), b"");
}

#[test]
fn the_example_reads_as_its_chart() {
    let emission = Action {
        direction: Direction::Emission,
        lifeline: 0,
        message: 0,
    };
    let reception = Action {
        direction: Direction::Reception,
        lifeline: 1,
        message: 0,
    };
    let left = Rc::new(Chart::Action(emission));
    let right = Rc::new(Chart::Action(reception));
    let card = plain::card::read(&EXAMPLE).expect("the example is sound");
    assert_eq!(card.chart, Chart::pair(Pair::Strict, left, right));
    let declared = Declared {
        lifelines: 2,
        messages: 1,
    };
    assert_eq!(card.declared, declared);
}

#[test]
fn the_note_is_the_part_before_the_first_node() {
    let noted = card(b"gate 4", &[[0, 0, 0, 0]]);
    assert_eq!(check(&noted), sound(1, 1, 0));
    assert_eq!(note(&noted), b"gate 4");
    assert_eq!(note(&noted).as_ptr(), noted.as_ptr());
}

#[test]
fn a_refused_card_gives_an_empty_note() {
    let noted = card(b"gate 4", &[[11, 0, 0, 0]]);
    assert_eq!(check(&noted), refused(4, 0));
    assert_eq!(note(&noted), b"");
}

#[test]
fn depth_16_is_sound_and_17_gives_6() {
    assert_eq!(check(&card(b"", &loops(16))), sound(16, 16, 0));
    assert_eq!(check(&card(b"", &loops(17))), refused(6, 0));
    assert_eq!(check(&card(b"", &loops(255))), refused(6, 0));
}

#[test]
fn number_1_size_and_mark() {
    assert_eq!(check(&[]), refused(1, 0));
    assert_eq!(check(&EXAMPLE[13..]), refused(1, 0));
    assert_eq!(check(&example_with(16, 0x4C)), refused(1, 0));
    assert_eq!(check(&example_with(17, 0x57)), refused(1, 0));
    let empty = [[0, 0, 0, 0]];
    assert_eq!(check(&card(&[0; 4086], &empty)), sound(1, 1, 0));
    assert_eq!(check(&card(&[0; 4087], &empty)), refused(1, 0));
}

#[test]
fn number_2_back_distance() {
    assert_eq!(check(&EXAMPLE[12..]), refused(2, 0));
    for back in [0, 3, 11, 13, 16] {
        assert_eq!(check(&example_with(12, back)), refused(2, 0));
    }
    let mut over = card(&[0; 4], &[[0; 4]; 255]);
    assert_eq!(check(&over), refused(5, 0));
    // 1,024 in place of 1,020, with the bytes for it.
    over[1024..1026].copy_from_slice(&[0x00, 0x04]);
    assert_eq!(check(&over), refused(2, 0));
}

#[test]
fn number_3_counts() {
    for (position, values) in [(14, [0, 17, 255]), (15, [0, 65, 255])] {
        for value in values {
            assert_eq!(check(&example_with(position, value)), refused(3, 0));
        }
    }
    assert_eq!(check(&example_with(14, 16)), sound(3, 2, 2));
    assert_eq!(check(&example_with(15, 64)), sound(3, 2, 2));
}

#[test]
fn number_4_nodes() {
    let faulty = [
        [11, 0, 0, 0],
        [0, 1, 0, 0],
        [0, 0, 1, 0],
        [0, 0, 0, 1],
        [1, 2, 0, 0],
        [2, 0, 3, 0],
        [1, 0, 0, 1],
        [3, 2, 0, 0],
        [6, 0, 2, 0],
        [4, 0, 1, 1],
        [7, 2, 0, 0],
        [10, 1, 1, 0],
        [9, 1, 0, 1],
    ];
    for node in faulty {
        let nodes = [[0, 0, 0, 0], [1, 1, 2, 0], node, [12, 0, 0, 0]];
        assert_eq!(check(&card(b"", &nodes)), refused(4, 2), "{node:?}");
    }
}

#[test]
fn number_5_children() {
    let leaf = [1, 0, 0, 0];
    let never = [leaf, leaf, leaf, [3, 0, 2, 0]];
    assert_eq!(check(&card(b"", &never)), refused(5, 1));
    let twice = [leaf, leaf, [3, 1, 1, 0], [4, 0, 2, 0]];
    assert_eq!(check(&card(b"", &twice)), refused(5, 1));
    let side_by_side = [leaf, [7, 0, 0, 0], leaf, [7, 2, 0, 0]];
    assert_eq!(check(&card(b"", &side_by_side)), refused(5, 1));
}

#[test]
fn the_order_is_4_then_5_then_6() {
    let mut nodes = loops(20);
    nodes[19] = [4, 18, 18, 0];
    assert_eq!(check(&card(b"", &nodes)), refused(5, 18));
    nodes[19] = [4, 18, 18, 1];
    assert_eq!(check(&card(b"", &nodes)), refused(4, 19));
}

#[test]
fn nodes_stand_in_any_order_and_lifelines_count_once() {
    let nodes = [
        [1, 1, 0, 0],
        [2, 1, 1, 0],
        [8, 1, 0, 0],
        [1, 1, 2, 0],
        [3, 3, 0, 0],
        [5, 4, 2, 0],
    ];
    assert_eq!(check(&card(b"", &nodes)), sound(6, 3, 1));
}

#[test]
fn any_bytes_have_an_answer() {
    for length in 0..4200 {
        for byte in [0, 1, 3, 0x4C, 0x57, 0xFF] {
            let mut bytes = vec![byte; length];
            assert!((1..=6).contains(&check(&bytes).number));
            bytes.extend([0xFC, 0x03, 16, 64, 0x57, 0x4C]);
            let checked = check(&bytes);
            assert!(checked.number <= 6 && note(&bytes).len() <= length);
        }
    }
}
