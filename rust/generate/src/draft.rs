//! A card in the making, whose parts can be set one by one, rightly or wrongly.

pub const LARGEST_CARD: usize = 4096;
pub const MOST_NODES: usize = 255;
pub const LARGEST_DEPTH: usize = 16;
pub const TRAILER: usize = 6;
pub const MARK: [u8; 2] = [0x57, 0x4C];

/// A node's fields: kind, a, b, c.
pub type Node = [u8; 4];

pub struct Draft {
    pub note: Vec<u8>,
    pub nodes: Vec<Node>,
    pub back: u16,
    pub lifelines: u8,
    pub messages: u8,
    pub mark: [u8; 2],
    /// At most this many of the card's last bytes are handed over, and no others.
    pub keep: usize,
}

impl Draft {
    /// A card of these nodes with a right trailer and no note.
    pub fn new(nodes: Vec<Node>, lifelines: u8, messages: u8) -> Draft {
        let mut draft = Draft {
            note: Vec::new(),
            nodes,
            back: 0,
            lifelines,
            messages,
            mark: MARK,
            keep: usize::MAX,
        };
        draft.back = draft.right_back();
        draft
    }

    /// The draft of a sound card's bytes.
    pub fn of(card: &[u8]) -> Draft {
        let (before, trailer) = card.split_at(card.len() - TRAILER);
        let back = u16::from_le_bytes([trailer[0], trailer[1]]);
        let (note, records) = before.split_at(before.len() - usize::from(back));
        let (nodes, _) = records.as_chunks();
        let mut draft = Draft::new(nodes.to_vec(), trailer[2], trailer[3]);
        draft.note = note.to_vec();
        draft
    }

    /// The back distance that fits the nodes.
    pub fn right_back(&self) -> u16 {
        4 * self.nodes.len() as u16
    }

    /// How many bytes stand before the trailer.
    pub fn before(&self) -> usize {
        self.note.len() + 4 * self.nodes.len()
    }

    /// The card's bytes.
    pub fn bytes(&self) -> Vec<u8> {
        let mut bytes = Vec::with_capacity(self.before() + TRAILER);
        bytes.extend(&self.note);
        bytes.extend(self.nodes.as_flattened());
        bytes.extend(self.back.to_le_bytes());
        bytes.extend([self.lifelines, self.messages]);
        bytes.extend(self.mark);
        bytes.split_off(bytes.len().saturating_sub(self.keep))
    }

    /// The depth of a sound card. Children stand before their parents, so one pass
    /// over the nodes finds how deep the tree below each of them is.
    pub fn depth(&self) -> usize {
        let mut depths: Vec<usize> = Vec::new();
        for node in &self.nodes {
            let below = children(node)
                .iter()
                .map(|&child| depths[usize::from(child)]);
            depths.push(1 + below.max().unwrap_or(0));
        }
        depths.last().copied().unwrap_or(0)
    }
}

/// The fields of a node that name its children: a and b of a pair, a of a loop.
pub fn children(node: &Node) -> &[u8] {
    match node[0] {
        3..=6 => &node[1..3],
        7..=10 => &node[1..2],
        _ => &[],
    }
}
