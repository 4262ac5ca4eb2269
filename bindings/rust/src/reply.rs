//! The reply, as types.

use crate::term::{self, Term};
use std::fmt;

/// Which limit stopped a run.
#[derive(Clone, Copy, Debug, PartialEq, Eq, Hash)]
pub enum Limit {
    /// Ending 2: the budget is spent.
    Budget,
    /// Ending 3: a goal would be the 513th taken on a branch.
    Goals,
    /// Ending 4: more than 2,048 variables on a branch.
    Variables,
    /// Ending 5: more than 256 pairs, terms looked at or terms being written at once.
    Lists,
    /// Ending 6: no place in the answer buffer for a record.
    Buffer,
}

/// How a run ended.
#[derive(Clone, Copy, Debug, PartialEq, Eq, Hash)]
pub enum Ending {
    /// Ending 0: the search is complete, there are no other answers.
    Complete,
    /// Ending 1: as many answers as wanted were given.
    Enough,
    /// Endings 2 to 6: a limit was met. There may be more answers.
    Stopped(Limit),
}

impl Ending {
    /// The number that document 01 gives this ending.
    pub fn number(self) -> u32 {
        match self {
            Ending::Complete => 0,
            Ending::Enough => 1,
            Ending::Stopped(Limit::Budget) => 2,
            Ending::Stopped(Limit::Goals) => 3,
            Ending::Stopped(Limit::Variables) => 4,
            Ending::Stopped(Limit::Lists) => 5,
            Ending::Stopped(Limit::Buffer) => 6,
        }
    }

    fn of(number: u32) -> Ending {
        match number {
            0 => Ending::Complete,
            1 => Ending::Enough,
            2 => Ending::Stopped(Limit::Budget),
            3 => Ending::Stopped(Limit::Goals),
            4 => Ending::Stopped(Limit::Variables),
            5 => Ending::Stopped(Limit::Lists),
            6 => Ending::Stopped(Limit::Buffer),
            _ => unreachable!("no ending has the number {number}"),
        }
    }
}

/// Which test refused a call.
#[derive(Clone, Copy, Debug, PartialEq, Eq, Hash)]
pub enum Test {
    /// 1: the answer buffer is over 65,536 bytes or no multiple of 8, or `wanted` is not 1 to 64.
    Room,
    /// 2: the book is empty, over 65,536 bytes, or no multiple of 16.
    Size,
    /// 3: a kind that is not 1 to 10, a last record that is no question, or a question elsewhere.
    Kind,
    /// 4: a value outside its range, an unlisted field that is not 0, or a pointer or run not wholly below its own record.
    Field,
    /// 5: a pointer or run at records of the wrong kind.
    Target,
    /// 6: a record, other than the last, that is not pointed at exactly once.
    Tree,
    /// 7: a variable or tie with an offset that its holder does not have, or a tie that repeats one, or is not allowed.
    Scope,
}

impl Test {
    /// The number that document 01 gives this test.
    pub fn number(self) -> u32 {
        self as u32 + 1
    }

    fn of(number: u32) -> Test {
        match number {
            1 => Test::Room,
            2 => Test::Size,
            3 => Test::Kind,
            4 => Test::Field,
            5 => Test::Target,
            6 => Test::Tree,
            7 => Test::Scope,
            _ => unreachable!("no test has the number {number}"),
        }
    }
}

/// A refused call: the test, and the lowest record that fails it (0 for tests 1 and 2).
#[derive(Clone, Copy, Debug, PartialEq, Eq, Hash)]
pub struct Refusal {
    pub test: Test,
    pub record: u32,
}

impl fmt::Display for Refusal {
    fn fmt(&self, f: &mut fmt::Formatter<'_>) -> fmt::Result {
        write!(f, "refused {} {}", self.test.number(), self.record)
    }
}

impl std::error::Error for Refusal {}

/// An accepted call.
#[derive(Clone, Debug, PartialEq, Eq)]
pub struct Run {
    pub ending: Ending,
    /// Each answer's values of the question's unknowns, in order.
    pub answers: Vec<Vec<Term>>,
    /// How many of the answers rest on a supposition.
    pub assumed: u32,
    /// How many units of work were done.
    pub units: u32,
}

/// What the six numbers and the answer buffer say.
pub(crate) fn read(reply: [u32; 6], out: &[u8]) -> Result<Run, Refusal> {
    let [refusal, record, ending, answers, assumed, units] = reply;
    if refusal != 0 {
        return Err(Refusal { test: Test::of(refusal), record });
    }
    Ok(Run { ending: Ending::of(ending), answers: term::answers(out, answers), assumed, units })
}
