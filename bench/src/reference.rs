//! Document 01 again, written to be read beside it and not for speed: trees, whole states copied for every alternative, lists as lists.

use crate::{Reply, WORDS};

mod machine;
mod refusals;
mod tree;

/// One call.
pub fn solve(book: &[u8], budget: u32, wanted: u32, workspace: &mut [u32], out: &mut [u8]) -> Reply {
    if workspace.len() != WORDS || out.len() > 65_536 || out.len() % 8 != 0 || wanted < 1 || wanted > 64 {
        return [1, 0, 0, 0, 0, 0];
    }
    workspace.fill(0);
    if book.len() == 0 || book.len() > 65_536 || book.len() % 16 != 0 {
        return [2, 0, 0, 0, 0, 0];
    }
    let records: Vec<[u16; 8]> = book.chunks(16).map(record).collect();
    if let Some((number, record)) = refusals::refusal(&records) {
        return [number, record as u32, 0, 0, 0, 0];
    }
    out.fill(0);
    let question = tree::question(&records);
    let end = machine::run(&question, budget, wanted, out);
    [0, 0, end.ending, end.answers, end.assumed, end.units]
}

/// "eight u16, low byte first"
fn record(bytes: &[u8]) -> [u16; 8] {
    let mut numbers = [0; 8];
    for i in 0..8 {
        numbers[i] = bytes[2 * i] as u16 + 256 * bytes[2 * i + 1] as u16;
    }
    numbers
}
