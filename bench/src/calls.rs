//! A call with all that it takes, what an engine left behind, and how both are shown.

use crate::Reply;

/// An engine: book, budget, wanted, workspace, answer buffer.
pub type Engine = fn(&[u8], u32, u32, &mut [u32], &mut [u8]) -> Reply;

/// What a call takes. The buffers are described by their lengths: `Ran` fills them with a pattern first.
#[derive(Clone, Debug)]
pub struct Call {
    pub book: Vec<u8>,
    pub budget: u32,
    pub wanted: u32,
    pub words: usize,
    pub out_len: usize,
}

/// What a call gave and left.
#[derive(Default)]
pub struct Ran {
    pub reply: Reply,
    pub workspace: Vec<u32>,
    pub out: Vec<u8>,
}

/// What the buffers hold before a call, so that an untouched place can be told from a cleared one.
pub const WORD_BEFORE: u32 = 0xA5C3_0F96;
pub const BYTE_BEFORE: u8 = 0x5A;

impl Ran {
    /// Calls the engine on freshly filled buffers, in the room of an earlier call.
    pub fn again(&mut self, engine: Engine, call: &Call) {
        self.workspace.clear();
        self.workspace.resize(call.words, WORD_BEFORE);
        self.out.clear();
        self.out.resize(call.out_len, BYTE_BEFORE);
        self.reply = engine(&call.book, call.budget, call.wanted, &mut self.workspace, &mut self.out);
    }

    /// Says where two results differ first, if they do.
    pub fn difference(&self, other: &Ran) -> Option<String> {
        if self.reply != other.reply {
            return Some(format!("reply {:?} and {:?}", self.reply, other.reply));
        }
        if let Some(i) = (0..self.out.len()).find(|&i| self.out[i] != other.out[i]) {
            return Some(format!("byte {i} of the answer buffer: {} and {}", self.out[i], other.out[i]));
        }
        if let Some(i) = (0..self.workspace.len()).find(|&i| self.workspace[i] != other.workspace[i]) {
            return Some(format!("word {i} of the workspace: {} and {}", self.workspace[i], other.workspace[i]));
        }
        None
    }
}

/// The book as document 01 shows one: a line of eight numbers for each record, with its number before it.
pub fn show(call: &Call) -> String {
    let mut text = format!(
        "budget {} wanted {} workspace {} words, answer buffer {} bytes, book {} bytes\n",
        call.budget,
        call.wanted,
        call.words,
        call.out_len,
        call.book.len()
    );
    for (i, bytes) in call.book.chunks(16).enumerate() {
        text += &format!("{i}:");
        for pair in bytes.chunks(2) {
            match pair {
                [low, high] => text += &format!(" {}", u16::from_le_bytes([*low, *high])),
                _ => text += " (a byte)",
            }
        }
        text += "\n";
    }
    text
}
