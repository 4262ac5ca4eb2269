//! Document 01's reference questions and what it says was run and compared, by both plain engines.

use whittermay_bench::calls::{Call, Engine, Ran};
use whittermay_bench::layout::*;
use whittermay_bench::{plain, reference, WORDS};

const ENGINES: [Engine; 2] = [plain::solve, reference::solve];

/// The answers' bytes as lines of four numbers.
fn lines(out: &[u8]) -> Vec<[u16; 4]> {
    let line = |b: &[u8]| std::array::from_fn(|k| u16::from_le_bytes([b[2 * k], b[2 * k + 1]]));
    out.chunks(8).map(line).take_while(|l: &[u16; 4]| l[1] != 0).collect()
}

/// Runs a book with the program's buffer and holds it to ending, answers, assumed, units and the answers' lines.
fn gives_book(book: Vec<u8>, wanted: u32, budget: u32, reply: [u32; 4], written: Option<&[[u16; 4]]>) {
    for engine in ENGINES {
        let mut ran = Ran::default();
        ran.again(engine, &Call { book: book.clone(), budget, wanted, words: WORDS, out_len: 4096 });
        assert_eq!(ran.reply, [0, 0, reply[0], reply[1], reply[2], reply[3]]);
        if let Some(written) = written {
            assert_eq!(lines(&ran.out), written);
        }
        assert!(ran.workspace.iter().all(|&w| w == 0));
    }
}

fn gives(clauses: &[Clause], goal: Goal, unknowns: u16, reply: [u32; 4], written: &[[u16; 4]]) {
    gives_book(question(clauses, goal, unknowns), 64, 1_000_000, reply, Some(written));
}

fn question(clauses: &[Clause], goal: Goal, unknowns: u16) -> Vec<u8> {
    Question { clauses: clauses.to_vec(), goal, unknowns }.book()
}

// Predicates and constants.
const P: u16 = 1;
const Q: u16 = 2;
const D: u16 = 3;
const A: u16 = 11;
const B: u16 = 12;
const F: u16 = 13;

fn c(symbol: u16) -> Term {
    term(symbol, &[])
}

#[test]
fn c1_to_c5() {
    let p = || atom(P, &[]);
    gives(&[], p(), 0, [0, 0, 0, 1], &[]);
    gives(&[fact(P, &[])], p(), 0, [0, 1, 0, 3], &[]);
    let book = question(&[fact(P, &[])], p(), 0);
    gives_book(book.clone(), 1, 1_000_000, [1, 1, 0, 3], None);
    gives_book(book.clone(), 64, 2, [2, 0, 0, 2], None);
    gives_book(book, 64, 3, [0, 1, 0, 3], None);
}

#[test]
fn c6_to_c8() {
    gives(&[], and(suppose(&[fact(P, &[])], atom(P, &[])), atom(P, &[])), 0, [0, 0, 0, 5], &[]);
    let w = |clause: Clause| suppose(&[clause], and(atom(P, &[c(A)]), atom(P, &[c(B)])));
    let clause = || fact(P, &[variable(0)]).over(1);
    gives(&[], w(clause().tied(0, 0)), 1, [0, 0, 0, 9], &[]);
    gives(&[], w(clause()), 1, [0, 1, 1, 11], &[[0, 1, 0, 0]]);
}

#[test]
fn c9_to_c12() {
    let y = variable(0);
    gives(&[fact(P, &[y.clone(), y.clone()]).over(1)], atom(P, &[y.clone(), term(F, &[y.clone()])]), 1, [0, 0, 0, 6], &[]);
    let c10 = || suppose(&[fact(P, &[c(B)])], atom(P, &[variable(0)]));
    gives(&[fact(P, &[c(A)])], c10(), 1, [0, 2, 2, 10], &[[0, 2, B, 0], [1, 2, A, 0]]);
    gives(&[fact(P, &[c(A)]), fact(D, &[c(A)])], and(c10(), atom(D, &[variable(0)])), 1, [0, 1, 1, 16], &[[0, 2, A, 0]]);
    gives(&[fact(P, &[])], or(atom(P, &[]), atom(P, &[])), 0, [0, 2, 0, 7], &[]);
}

#[test]
fn c13() {
    let rules = [fact(P, &[c(A)]), fact(P, &[c(B)]), fact(D, &[c(B)])];
    let supposed = suppose(&[fact(Q, &[])], and(atom(P, &[variable(0)]), atom(Q, &[])));
    gives(&rules, and(supposed, atom(D, &[variable(0)])), 1, [0, 1, 1, 21], &[[0, 2, B, 0]]);
}

#[test]
fn p_if_p() {
    let rule = |n| question(&[fact(P, &[]).over(n).if_(atom(P, &[]))], atom(P, &[]), 0);
    gives_book(rule(0), 64, 1_025, [3, 0, 0, 1_024], None);
    gives_book(rule(0), 64, 1_024, [2, 0, 0, 1_024], None);
    gives_book(rule(64), 64, 1_000_000, [4, 0, 0, 65], None);
}

/// An atom of eight arguments whose first nests d terms of eight arguments through their first.
fn nested(d: usize) -> Vec<Term> {
    let mut all = vec![c(A); 8];
    for _ in 0..d {
        let deeper = term(F, &all);
        all = vec![c(A); 8];
        all[0] = deeper;
    }
    all
}

#[test]
fn depths_35_and_36() {
    // The terms nested in the first argument, the first of which is itself one.
    let book = |d: usize| question(&[fact(P, &nested(d))], atom(P, &nested(d)), 0);
    gives_book(book(35), 64, 1_000_000, [0, 1, 0, 1 + 1 + 8 * 36 + 1], None);
    gives_book(book(36), 64, 1_000_000, [5, 0, 0, 37], None);
}

#[test]
fn one_record_and_the_sample() {
    for engine in ENGINES {
        let mut ran = Ran::default();
        let one = [10u16, 0, 0, 0, 0, 0, 0, 0].iter().flat_map(|n| n.to_le_bytes()).collect();
        ran.again(engine, &Call { book: one, budget: 1, wanted: 1, words: WORDS, out_len: 8 });
        assert_eq!(ran.reply, [4, 0, 0, 0, 0, 0]);
    }
    let sample: [[u16; 8]; 6] = [
        [4, 1, 0, 0, 0, 0, 0, 0],
        [8, 0, 0, 0, 0, 0, 0, 0],
        [3, 1, 0, 0, 0, 0, 0, 0],
        [4, 1, 0, 0, 0, 0, 0, 0],
        [7, 2, 1, 3, 0, 0, 0, 0],
        [10, 0, 0, 4, 0, 0, 0, 0],
    ];
    let book: Vec<u8> = sample.iter().flatten().flat_map(|n| n.to_le_bytes()).collect();
    assert_eq!(book, question(&[], suppose(&[fact(P, &[])], atom(P, &[])), 0));
    gives_book(book, 64, 1_000_000, [0, 1, 1, 4], Some(&[]));
}
