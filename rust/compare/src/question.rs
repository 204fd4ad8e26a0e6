//! One judgment that is asked of both programs, and what is known beforehand.

use plain::Judged;

use crate::run::hex;

/// The most numbers of a room that are used.
pub const MOST_USABLE: usize = 16_384;

/// One judgment that is asked of both programs.
pub struct Question {
    pub card: Vec<u8>,
    pub log: Vec<u8>,
    pub allowance: u32,
    /// The room's length.
    pub room: usize,
    pub foreseen: Foreseen,
}

/// What the maker of a question knows about the answer.
#[derive(Debug, Clone)]
pub enum Foreseen {
    Nothing,
    /// Its number is one of these.
    Numbers(Vec<u32>),
    /// It is this one.
    Answer(Judged),
}

impl Foreseen {
    fn allows(&self, answer: Judged) -> bool {
        match self {
            Foreseen::Nothing => true,
            Foreseen::Numbers(numbers) => numbers.contains(&answer.number),
            Foreseen::Answer(foreseen) => *foreseen == answer,
        }
    }
}

/// An answer with this number and place, and zero figures.
pub fn refused(number: u32, place: usize) -> Judged {
    Judged {
        number,
        place: place as u32,
        steps: 0,
        places: 0,
    }
}

impl Question {
    pub fn usable(&self) -> usize {
        self.room.min(MOST_USABLE)
    }

    /// Whether an answer is as foreseen, and as the table says for its number.
    pub fn allows(&self, answer: Judged) -> bool {
        let Judged {
            number,
            place,
            steps,
            places,
        } = answer;
        let length = (self.log.len() / 2) as u32;
        let by_table = match number {
            4 | 5 | 8 => steps == 0 && places == 0,
            1..=7 => place == 0 && steps == 0 && places == 0,
            9 => place == 0 && steps == self.allowance,
            10 => place == 0,
            20 | 21 => place == length,
            22 => place < length,
            _ => false,
        };
        let lent = steps <= self.allowance && places as usize <= self.usable();
        by_table && lent && self.foreseen.allows(answer)
    }

    /// The question in words, for a report.
    pub fn describe(&self) -> Vec<String> {
        vec![
            format!("card ({} bytes): {}", self.card.len(), hex(&self.card)),
            format!("log ({} bytes): {}", self.log.len(), hex(&self.log)),
            format!("allowance {}, room {}", self.allowance, self.room),
            format!("foreseen: {:?}", self.foreseen),
        ]
    }
}
