//! Answers as terms, read back from the records of an answer buffer.

use std::fmt;

/// A value: an open variable with its number in that answer, or a symbol with its arguments.
#[derive(Clone, Debug, PartialEq, Eq, Hash)]
pub enum Term {
    Var(u16),
    App(u16, Vec<Term>),
}

impl fmt::Display for Term {
    /// An open variable as `_0`, a term as `5` or `5(6, _0)`.
    fn fmt(&self, f: &mut fmt::Formatter<'_>) -> fmt::Result {
        match self {
            Term::Var(n) => write!(f, "_{n}"),
            Term::App(symbol, arguments) => {
                write!(f, "{symbol}")?;
                for (i, argument) in arguments.iter().enumerate() {
                    write!(f, "{}{argument}", if i == 0 { "(" } else { ", " })?;
                }
                write!(f, "{}", if arguments.is_empty() { "" } else { ")" })
            }
        }
    }
}

/// The four numbers of an answer record: answer, 1 for a variable or 2 for a term, number, argument count.
fn record(bytes: &[u8]) -> [u16; 4] {
    let number = |k: usize| u16::from_le_bytes([bytes[2 * k], bytes[2 * k + 1]]);
    [number(0), number(1), number(2), number(3)]
}

/// The answers of a buffer: the values of each one's unknowns. A term's record stands before its arguments', so the records are read from the last to the first,
/// and each term takes its arguments from the terms read before it.
pub(crate) fn answers(out: &[u8], count: u32) -> Vec<Vec<Term>> {
    let mut answers = vec![Vec::new(); count as usize];
    for bytes in out.chunks_exact(8).rev() {
        let [answer, what, number, arguments] = record(bytes);
        if what == 0 {
            continue;
        }
        let later = &mut answers[answer as usize];
        if what == 1 {
            later.push(Term::Var(number));
        } else {
            let mut taken = later.split_off(later.len() - arguments as usize);
            taken.reverse();
            later.push(Term::App(number, taken));
        }
    }
    for answer in &mut answers {
        answer.reverse();
    }
    answers
}
