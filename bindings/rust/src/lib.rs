//! Answers a question from a book of rules.
//!
//! The work is done by the proved function `whittermay_solve` of the archive that this crate links. Here are types for what it replies, and the answers read
//! back as terms. A book is bytes: records of eight `u16`, low byte first, the last one the question.
//!
//! ```
//! use whittermay::{book, Ending, Engine, Term};
//!
//! // Rule: rush(fen). Question: rush(X)?   rush is symbol 1, fen is symbol 2.
//! let bytes = book(&[
//!     [2, 2, 0, 0, 0, 0, 0, 0],  // 0  the term fen
//!     [3, 0, 0, 0, 0, 0, 0, 0],  // 1  link to 0
//!     [4, 1, 1, 1, 0, 0, 0, 0],  // 2  the atom rush(fen)
//!     [8, 0, 0, 0, 2, 0, 0, 0],  // 3  the clause rush(fen)
//!     [3, 3, 0, 0, 0, 0, 0, 0],  // 4  link to 3
//!     [1, 0, 0, 0, 0, 0, 0, 0],  // 5  the variable X
//!     [3, 5, 0, 0, 0, 0, 0, 0],  // 6  link to 5
//!     [4, 1, 1, 6, 0, 0, 0, 0],  // 7  the atom rush(X)
//!     [10, 4, 1, 7, 1, 0, 0, 0], // 8  the question, with one unknown
//! ]);
//! let run = Engine::new().solve(&bytes, 1_000_000, 64).unwrap();
//! assert_eq!(run.ending, Ending::Complete);
//! assert_eq!(run.answers, [[Term::App(2, vec![])]]);
//! ```

mod reply;
mod term;

pub use reply::{Ending, Limit, Refusal, Run, Test};
pub use term::Term;

/// The words that the workspace of a call must have.
pub const WORKSPACE_WORDS: usize = 16_384;
/// The most bytes that a book, or an answer buffer, can have.
pub const MOST_BYTES: usize = 65_536;
/// The most answers that can be wanted.
pub const MOST_WANTED: u32 = 64;

extern "C" {
    fn whittermay_solve(
        book: *const u8,
        book_len: usize,
        budget: u32,
        wanted: u32,
        workspace: *mut u32,
        workspace_words: usize,
        out: *mut u8,
        out_len: usize,
        reply: *mut u32,
    );
}

/// The call as C has it, over slices: six numbers (refusal, record, ending, answers, assumed, units). It takes slices of every length and refuses those that do
/// not fit. [`Engine::solve`] is the same with types.
pub fn solve_into(book: &[u8], budget: u32, wanted: u32, workspace: &mut [u32], out: &mut [u8]) -> [u32; 6] {
    let mut reply = [0; 6];
    // SAFETY: each pointer comes from a slice of the length beside it, the exclusive ones overlap nothing, and the function asks nothing else.
    unsafe {
        whittermay_solve(book.as_ptr(), book.len(), budget, wanted, workspace.as_mut_ptr(), workspace.len(), out.as_mut_ptr(), out.len(), reply.as_mut_ptr());
    }
    reply
}

/// The bytes of a book, from its records.
pub fn book(records: &[[u16; 8]]) -> Vec<u8> {
    records.iter().flatten().flat_map(|n| n.to_le_bytes()).collect()
}

/// The room that calls work in, used again by each call.
pub struct Engine {
    workspace: Box<[u32]>,
    out: Box<[u8]>,
}

impl Engine {
    /// An engine with the largest answer buffer, 65,536 bytes.
    pub fn new() -> Engine {
        Engine::with_buffer(MOST_BYTES)
    }

    /// An engine whose answer buffer has this many bytes, eight for an answer record. Calls are refused ([`Test::Room`]) if that is over 65,536 or no multiple of 8.
    pub fn with_buffer(bytes: usize) -> Engine {
        Engine { workspace: vec![0; WORKSPACE_WORDS].into(), out: vec![0; bytes].into() }
    }

    /// Runs the question of a book: at most `budget` units, and until `wanted` answers (1 to 64) are given.
    pub fn solve(&mut self, book: &[u8], budget: u32, wanted: u32) -> Result<Run, Refusal> {
        let reply = solve_into(book, budget, wanted, &mut self.workspace, &mut self.out);
        reply::read(reply, &self.out)
    }
}

impl Default for Engine {
    fn default() -> Engine {
        Engine::new()
    }
}
