//! The proved library's calls, linked as any program links them, with the types
//! of the plain library. All unsafe code of this workspace is here.

use plain::{Checked, Judged};

/// The answer to a card, field by field as `airpistil.h` lays it out.
#[repr(C)]
struct CheckAnswer {
    number: u32,
    place: u32,
    nodes: u32,
    depth: u32,
    lifelines: u32,
}

/// The answer to a log, likewise.
#[repr(C)]
struct JudgeAnswer {
    number: u32,
    place: u32,
    steps: u32,
    places: u32,
}

/// The answer to a cut, likewise.
#[repr(C)]
struct CutAnswer {
    number: u32,
    place: u32,
    length: u32,
}

unsafe extern "C" {
    fn airpistil_check(card: *const u8, len: usize) -> CheckAnswer;
    fn airpistil_note(card: *const u8, len: usize) -> usize;
    fn airpistil_judge(
        card: *const u8,
        card_len: usize,
        log: *const u8,
        log_len: usize,
        allowance: u32,
        room: *mut u32,
        room_len: usize,
    ) -> JudgeAnswer;
    fn airpistil_cut(
        card: *const u8,
        card_len: usize,
        lifeline: u32,
        out: *mut u8,
        out_len: usize,
    ) -> CutAnswer;
}

/// Checks a card.
pub fn check(card: &[u8]) -> Checked {
    // Pointer and length are those of a slice that lives through the call.
    let answer = unsafe { airpistil_check(card.as_ptr(), card.len()) };
    Checked {
        number: answer.number,
        place: answer.place,
        nodes: answer.nodes,
        depth: answer.depth,
        lifelines: answer.lifelines,
    }
}

/// The length of a card's note; the note is the card's leading part.
pub fn note(card: &[u8]) -> usize {
    // Pointer and length are those of a slice that lives through the call.
    unsafe { airpistil_note(card.as_ptr(), card.len()) }
}

/// Judges a log by a card, with an allowance of steps and a lent room.
pub fn judge(card: &[u8], log: &[u8], allowance: u32, room: &mut [u32]) -> Judged {
    // Pointers and lengths are those of slices that live through the call, and
    // the room, the only one written to, is borrowed for it alone.
    let answer = unsafe {
        airpistil_judge(
            card.as_ptr(),
            card.len(),
            log.as_ptr(),
            log.len(),
            allowance,
            room.as_mut_ptr(),
            room.len(),
        )
    };
    Judged {
        number: answer.number,
        place: answer.place,
        steps: answer.steps,
        places: answer.places,
    }
}

/// Cuts a device out of a card's chart and writes the card of what remains.
pub fn cut(card: &[u8], lifeline: u32, out: &mut [u8]) -> plain::CutAnswer {
    // Pointers and lengths are those of slices that live through the call, and
    // the output, the only one written to, is borrowed for it alone.
    let answer = unsafe {
        airpistil_cut(
            card.as_ptr(),
            card.len(),
            lifeline,
            out.as_mut_ptr(),
            out.len(),
        )
    };
    plain::CutAnswer {
        number: answer.number,
        place: answer.place,
        length: answer.length,
    }
}
