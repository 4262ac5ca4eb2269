//! The rows of the benchmark: books that are kept in `books/`, and those made here.

use crate::layout::{and, atom, fact, or, suppose, term, variable, Clause, Goal, Question, Term};

pub struct Row {
    pub name: &'static str,
    pub book: Vec<u8>,
}

macro_rules! kept {
    ($name:expr, $file:expr) => {
        Row { name: $name, book: include_bytes!(concat!("../books/", $file, ".book")).to_vec() }
    };
}

pub fn rows() -> Vec<Row> {
    vec![
        kept!("naive reverse of 20", "a_nrev20-2"),
        kept!("naive reverse of 29", "a_nrev29-2"),
        kept!("six queens", "b_queens6-1"),
        kept!("eight queens", "b_queens8-0"),
        kept!("nested suppositions", "c_nested-1"),
        kept!("tied suppositions", "c_tied-1"),
        kept!("100 suppositions", "d_many-3"),
        kept!("100 suppositions, one call", "d_many-0"),
        Row { name: "naive reverse among 8 x 64 others", book: reverse_among_others() },
        Row { name: "facts among 8 x 63 others", book: facts_among_others() },
        Row { name: "64 others made anew", book: others_made_anew() },
        Row { name: "the last of 64 made anew", book: last_made_anew() },
        Row { name: "512 predicates in turn, 8 x 64", book: in_turn() },
        Row { name: "300 suppositions in turn", book: nested_in_turn() },
        Row { name: "300 suppositions made anew", book: nested_made_anew() },
        Row { name: "heads of one bucket", book: one_bucket() },
        kept!("deep ground terms", "e_deep-2"),
        kept!("bushy ground terms", "e_tree-2"),
        kept!("chain of 64", "f_chain-0"),
        Row { name: "64 answers, one call", book: answers() },
        Row { name: "1,000 predicates", book: thousand(250, 2) },
        Row { name: "1,000 predicates, one call", book: thousand(0, 2) },
        Row { name: "refused by test 7", book: refused_late() },
        Row { name: "refused by test 3", book: refused_early() },
    ]
}

/// A book of 4,096 records: a thousand rules `p(i) :- p(i+1)`, each chain ending at a predicate without clauses after `length` rules, and sixteen facts
/// `k` that two goals try one after the other, so that with a length of 250 all rules are entered 256 times over. With length 0 the question is the
/// last predicate alone, and the call is little more than its tests.
fn thousand(length: u16, unknowns: u16) -> Vec<u8> {
    let body = |i: u16| if length > 0 && i % length == length - 1 { NONE } else { i + 1 };
    let mut clauses: Vec<_> = (0..1_000).map(|i| fact(i, &[]).if_(atom(body(i), &[]))).collect();
    clauses.extend((0..16).map(|c| fact(K, &[term(c, &[])])));
    let all = or(or(atom(0, &[]), atom(250, &[])), or(atom(500, &[]), atom(750, &[])));
    let goal = if length > 0 {
        and(atom(K, &[variable(0)]), and(atom(K, &[variable(1)]), all))
    } else {
        let last = || atom(999, &[]);
        and(or(or(last(), last()), or(last(), last())), and(atom(K, &[variable(0)]), atom(K, &[variable(1)])))
    };
    let book = Question { clauses, goal, unknowns }.book();
    assert_eq!(book.len(), 65_536);
    book
}

const NONE: u16 = 2_000;
const K: u16 = 3_000;
const APPEND: u16 = 3_001;
const REVERSE: u16 = 3_002;
const NIL: u16 = 4_000;
const CONS: u16 = 4_001;

fn list(items: &[Term]) -> Term {
    items.iter().rev().fold(term(NIL, &[]), |tail, head| term(CONS, &[head.clone(), tail]))
}

/// Facts `k(0)` to `k(15)`, and naive reverse.
fn rules() -> Vec<Clause> {
    let v = variable;
    let more = |head, tail| term(CONS, &[v(head), v(tail)]);
    let mut clauses: Vec<_> = (0..16).map(|c| fact(K, &[term(c, &[])])).collect();
    clauses.extend([
        fact(REVERSE, &[list(&[]), list(&[])]),
        fact(REVERSE, &[more(0, 1), v(2)]).over(4).if_(and(atom(REVERSE, &[v(1), v(3)]), atom(APPEND, &[v(3), list(&[v(0)]), v(2)]))),
        fact(APPEND, &[list(&[]), v(0), v(0)]).over(1),
        fact(APPEND, &[more(0, 1), v(2), more(0, 3)]).over(4).if_(atom(APPEND, &[v(1), v(2), v(3)])),
    ]);
    clauses
}

/// The reverse of so many elements, into unknown 2, and then a predicate without clauses.
fn reverse(elements: u16) -> Goal {
    let items: Vec<_> = (0..elements).map(|e| term(e, &[])).collect();
    and(atom(REVERSE, &[list(&items), variable(2)]), atom(NONE, &[]))
}

fn asked(goal: Goal) -> Vec<u8> {
    Question { clauses: rules(), goal, unknowns: 3 }.book()
}

/// So many suppositions around a goal, one in the other, each of so many facts that nobody asks for; and, if so wanted, with a fact `k` in the middle of them.
fn others(levels: u16, each: u16, among: bool, goal: Goal) -> Goal {
    (0..levels).fold(goal, |inner, l| {
        let mut clauses: Vec<_> = (0..each).map(|c| fact(64 * l + c, &[])).collect();
        if among {
            clauses.insert(usize::from(each / 2), fact(K, &[term(100 + l, &[])]));
        }
        suppose(&clauses, inner)
    })
}

/// The reverse of 20 elements 16 times over, in the midst of eight suppositions.
fn reverse_among_others() -> Vec<u8> {
    asked(others(8, 64, false, and(atom(K, &[variable(0)]), reverse(20))))
}

/// Three goals `k`, one after the other: each has the facts of eight suppositions, with 63 others between any two of them, and 16 of the question's own.
fn facts_among_others() -> Vec<u8> {
    let k = |u| atom(K, &[variable(u)]);
    asked(others(8, 63, true, and(k(0), and(k(1), and(k(2), atom(NONE, &[]))))))
}

/// The reverse of four elements 256 times over, each time in a supposition that is made anew.
fn others_made_anew() -> Vec<u8> {
    let k = |u| atom(K, &[variable(u)]);
    asked(and(k(0), and(k(1), others(1, 64, false, reverse(4)))))
}

/// Four goals 4,096 times over, each time in a supposition of 64 facts that is made anew; the last of them is the one that the goals ask for.
fn last_made_anew() -> Vec<u8> {
    let k = |u| atom(K, &[variable(u)]);
    let last = || atom(63, &[]);
    let four = and(last(), and(last(), and(last(), and(last(), atom(NONE, &[])))));
    asked(and(k(0), and(k(1), and(k(2), others(1, 64, false, four)))))
}

/// Each of the 512 facts of eight suppositions asked for, one after the other, 16 times over.
fn in_turn() -> Vec<u8> {
    asked(others(8, 64, false, and(atom(K, &[variable(0)]), and(any(0, 512), atom(NONE, &[])))))
}

/// 300 suppositions of one fact each, one inside the other; each fact is asked for, one after the other, 16 times over.
fn nested_in_turn() -> Vec<u8> {
    asked(nested(300, and(atom(K, &[variable(0)]), and(any(0, 300), atom(NONE, &[])))))
}

/// The same, the suppositions made anew each of the 16 times: every search is the first one from its program.
fn nested_made_anew() -> Vec<u8> {
    asked(and(atom(K, &[variable(0)]), nested(300, and(any(0, 300), atom(NONE, &[])))))
}

/// The goal under suppositions of fact 0, fact 1 and so on, that of fact 0 the innermost.
fn nested(facts: u16, goal: Goal) -> Goal {
    (0..facts).fold(goal, |goal, symbol| suppose(&[fact(symbol, &[])], goal))
}

/// Any of the predicates `from` up to `to`.
fn any(from: u16, to: u16) -> Goal {
    let middle = (from + to) / 2;
    if from == middle { atom(from, &[]) } else { or(any(from, middle), any(middle, to)) }
}

/// The 64 facts of a predicate, all asked for: each is an answer, and the call ends with the last.
fn answers() -> Vec<u8> {
    let clauses = (0..64).map(|c| fact(K, &[term(c, &[])])).collect();
    Question { clauses, goal: atom(K, &[variable(0)]), unknowns: 1 }.book()
}

/// Four goals of a predicate of one clause, 256 times over, behind 500 facts of another that the proved engine's index puts into the same bucket.
fn one_bucket() -> Vec<u8> {
    let mut clauses: Vec<_> = (0..500).map(|c| fact(100, &[term(c, &[])])).collect();
    clauses.extend(rules());
    clauses.push(fact(164, &[]));
    let k = |u| atom(K, &[variable(u)]);
    let one = || atom(164, &[]);
    let four = and(one(), and(one(), and(one(), and(one(), atom(NONE, &[])))));
    Question { clauses, goal: and(k(0), and(k(1), four)), unknowns: 2 }.book()
}

/// The same book with an unknown out of scope: every test is made over the whole book, the last fails.
fn refused_late() -> Vec<u8> {
    thousand(250, 1)
}

/// The same book with its last record no question.
fn refused_early() -> Vec<u8> {
    let mut book = thousand(250, 2);
    let last = book.len() - 16;
    book[last] = 9;
    book
}
