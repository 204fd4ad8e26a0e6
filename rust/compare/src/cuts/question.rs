//! One cut that is asked of both programs, and what is known beforehand.

use generate::logs::Entry;
use plain::CutAnswer;

use crate::run::hex;

/// One cut that is asked of both programs.
pub struct Question {
    pub card: Vec<u8>,
    pub lifeline: u32,
    /// The output's length.
    pub output: usize,
    pub foreseen: Foreseen,
    /// Logs to judge by the card and by the one that is written.
    pub logs: Vec<Vec<Entry>>,
}

/// What the maker of a question knows about the answer.
#[derive(Debug, Clone)]
pub enum Foreseen {
    Nothing,
    /// A refusal with this number.
    Number(u32),
    /// This card is written, if the output is not shorter than the card.
    Card(Vec<u8>),
}

impl Question {
    /// Whether an answer and what it wrote are as foreseen, and as the table says
    /// for its number.
    pub fn allows(&self, answer: CutAnswer, written: &[u8]) -> bool {
        let by_table = match answer.number {
            0 => answer.place == 0,
            4 | 5 => answer.length == 0,
            _ => answer.place == 0 && answer.length == 0,
        };
        let foreseen = match &self.foreseen {
            Foreseen::Nothing => true,
            Foreseen::Number(number) => answer.number == *number,
            Foreseen::Card(card) if card.len() > self.output => answer.number == 13,
            Foreseen::Card(card) => answer.number == 0 && written == card,
        };
        by_table && foreseen
    }

    /// The question in words, for a report.
    pub fn describe(&self) -> Vec<String> {
        let foreseen = match &self.foreseen {
            Foreseen::Nothing => "nothing".to_string(),
            Foreseen::Number(number) => format!("number {number}"),
            Foreseen::Card(card) => format!("card ({} bytes): {}", card.len(), hex(card)),
        };
        vec![
            format!("card ({} bytes): {}", self.card.len(), hex(&self.card)),
            format!("lifeline {}, output {}", self.lifeline, self.output),
            format!("foreseen: {foreseen}"),
        ]
    }
}
