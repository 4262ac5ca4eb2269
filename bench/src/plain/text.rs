//! The book's text in tables indexed by record number. They have a place for every u16, so that an index needs no test; a book uses the first 4,096.

use super::{Record, NONE};

pub const PLACES: usize = 65_536;

/// A term in hand is one word: for a variable `VARIABLE` and its number; for a term its record + 1 in the upper half, the base of its variables in
/// the lower. What an argument's link says is such a word for base 0, so that adding the base gives the word in hand, whichever it is.
pub const VARIABLE: u32 = 1 << 31;
pub const RECORD: u32 = 1 << 16;

/// Symbol and argument count in one word, to be compared at once.
#[derive(Clone, Copy, Default)]
pub struct Term {
    pub symbol: u32,
    pub arguments: u32,
}

impl Term {
    pub fn count(self) -> u32 {
        self.symbol & 15
    }
}

/// A goal: kind; for an atom argument count, first link and predicate; for and and or the two goals; for a suppose goal its goal and its run's number.
#[derive(Clone, Copy, Default)]
pub struct Goal {
    pub kind: u16,
    pub count: u16,
    pub a: u16,
    pub b: u16,
}

/// A clause, kept at its link.
#[derive(Clone, Copy, Default)]
pub struct Clause {
    pub variables: u16,
    pub ties: u16,
    pub tie_count: u16,
    pub arguments: u16,
    pub body: u16,
    /// The next link of the same run whose clause has the same predicate.
    pub next: u16,
}

pub struct Text {
    /// By link of an argument run: the term in hand at base 0.
    pub links: Box<[u32; PLACES]>,
    /// By record + 1.
    pub terms: Box<[Term; PLACES]>,
    pub goals: Box<[Goal; PLACES]>,
    /// By link of a clause run.
    pub clauses: Box<[Clause; PLACES]>,
    pub ties: Box<[(u16, u16); 4096]>,
    pub unknowns: u16,
    pub goal: u16,
}

impl Default for Text {
    fn default() -> Text {
        Text {
            links: zero(0),
            terms: zero(Term::default()),
            goals: zero(Goal::default()),
            clauses: zero(Clause::default()),
            ties: zero((0, 0)),
            unknowns: 0,
            goal: 0,
        }
    }
}

/// A table made on the heap.
pub fn zero<T: Clone, const N: usize>(of: T) -> Box<[T; N]> {
    match vec![of; N].into_boxed_slice().try_into() {
        Ok(table) => table,
        Err(_) => unreachable!("the slice has the table's length"),
    }
}

impl Text {
    /// Everything but what needs the predicates' numbers: `b` of atoms and suppose goals, `next` of clauses.
    pub fn decode(&mut self, records: &[Record]) {
        for (i, r) in records.iter().enumerate() {
            match *r {
                [2, symbol, count, first, ..] => self.terms[i + 1] = Term { symbol: (symbol as u32) << 4 | count as u32, arguments: first as u32 },
                [3, at, ..] => match records[at as usize] {
                    [1, offset, ..] => self.links[i] = VARIABLE | offset as u32,
                    [2, ..] => self.links[i] = (at as u32 + 1) * RECORD,
                    [_, variables, ties, tie_count, head, flag, body, _] => {
                        let arguments = records[head as usize][3];
                        let body = if flag == 1 { body } else { NONE };
                        self.clauses[i] = Clause { variables, ties, tie_count, arguments, body, next: NONE };
                    }
                },
                [4, _, count, first, ..] => self.goals[i] = Goal { kind: 4, count, a: first, b: 0 },
                [kind @ 5..=6, left, right, ..] => self.goals[i] = Goal { kind, count: 0, a: left, b: right },
                [7, _, _, goal, ..] => self.goals[i] = Goal { kind: 7, count: 0, a: goal, b: 0 },
                [9, own, outer, ..] => self.ties[i] = (own, outer),
                [10, _, _, goal, unknowns, ..] => (self.unknowns, self.goal) = (unknowns, goal),
                _ => {}
            }
        }
    }
}
