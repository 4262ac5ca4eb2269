//! Document 01 in plain Rust, written for speed.
//!
//! A book that passes the tests is decoded once into tables indexed by record number (`text`); a term in hand is one word, its record and the base of
//! its variables, so clause texts are never copied (`unify`); candidates are found through an index of head symbols for every clause run (`program`).
//! All room is allocated once and used again by the next call.

mod fault;
mod program;
mod run;
mod text;
mod unify;
mod write;

use crate::{Reply, WORDS};
use std::cell::RefCell;

/// A record as an array of its eight numbers.
type Record = [u16; 8];

fn record(bytes: &[u8; 16]) -> Record {
    std::array::from_fn(|i| u16::from_le_bytes([bytes[2 * i], bytes[2 * i + 1]]))
}

/// "No record", "no link", "no cell".
const NONE: u16 = u16::MAX;

/// The engine's room.
pub struct Plain {
    records: Vec<Record>,
    marks: Vec<u16>,
    text: Box<text::Text>,
    index: Box<program::Index>,
    machine: Box<run::Machine>,
}

impl Default for Plain {
    fn default() -> Plain {
        Plain {
            records: Vec::with_capacity(4096),
            marks: Vec::with_capacity(4096),
            text: Box::default(),
            index: Box::default(),
            machine: Box::default(),
        }
    }
}

impl Plain {
    pub fn solve(&mut self, book: &[u8], budget: u32, wanted: u32, workspace: &mut [u32], out: &mut [u8]) -> Reply {
        if workspace.len() != WORDS || out.len() > 65_536 || out.len() % 8 != 0 || !(1..=64).contains(&wanted) {
            return [1, 0, 0, 0, 0, 0];
        }
        workspace.fill(0);
        if book.is_empty() || book.len() > 65_536 || book.len() % 16 != 0 {
            return [2, 0, 0, 0, 0, 0];
        }
        self.records.clear();
        self.records.extend(book.as_chunks::<16>().0.iter().map(record));
        if let Some((number, record)) = fault::first(&self.records, &mut self.marks) {
            return [number, record as u32, 0, 0, 0, 0];
        }
        out.fill(0);
        self.text.decode(&self.records);
        self.index.build(&self.records, &mut self.text);
        let [ending, answers, assumed, units] = self.machine.run(&self.text, &mut self.index, budget, wanted, out);
        [0, 0, ending, answers, assumed, units]
    }
}

/// One call, in this thread's room.
pub fn solve(book: &[u8], budget: u32, wanted: u32, workspace: &mut [u32], out: &mut [u8]) -> Reply {
    thread_local! { static ROOM: RefCell<Plain> = RefCell::default(); }
    ROOM.with_borrow_mut(|room| room.solve(book, budget, wanted, workspace, out))
}
