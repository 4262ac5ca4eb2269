//! Every case of the repository's case files, compared in reply, every byte of the buffer and every word of the workspace.

use std::fs;
use std::path::Path;
use whittermay::{solve_into, Engine, WORKSPACE_WORDS};

struct Case {
    book: Vec<u8>,
    wanted: u32,
    budget: u32,
    room: usize,
    reply: [u32; 6],
    used: Vec<u8>,
}

/// A case is ten u32 (book length, wanted, budget, buffer length, kind, a, b, c, d, used length), the book and the bytes that the buffer starts with afterwards.
fn cases(file: &str) -> Vec<Case> {
    let path = Path::new(env!("CARGO_MANIFEST_DIR")).join("../../crates/cases/data").join(file);
    let bytes = fs::read(&path).unwrap_or_else(|e| panic!("{}: {e}", path.display()));
    let mut rest = &bytes[..];
    let mut cases = Vec::new();
    while !rest.is_empty() {
        let head: Vec<u32> = rest[..40].chunks_exact(4).map(|w| u32::from_le_bytes(w.try_into().unwrap())).collect();
        let [length, wanted, budget, room, kind, a, b, c, d, used] = head[..] else { unreachable!() };
        let (book, after) = rest[40..].split_at(length as usize);
        let (used, after) = after.split_at(used as usize);
        cases.push(Case {
            book: book.to_vec(),
            wanted,
            budget,
            room: room as usize,
            reply: if kind == 0 { [a, b, 0, 0, 0, 0] } else { [0, 0, a, b, c, d] },
            used: used.to_vec(),
        });
        rest = after;
    }
    cases
}

fn compare(file: &str, least: usize) {
    let cases = cases(file);
    assert!(cases.len() >= least, "{file} has only {} cases", cases.len());
    for (n, case) in cases.iter().enumerate() {
        let words: Vec<u32> = (1..=WORKSPACE_WORDS as u32).collect();
        let bytes: Vec<u8> = (0..case.room).map(|i| (i % 251) as u8 + 1).collect();
        let (mut workspace, mut out) = (words.clone(), bytes.clone());
        let reply = solve_into(&case.book, case.budget, case.wanted, &mut workspace, &mut out);
        assert_eq!(reply, case.reply, "{file} {n}");
        let refusal = reply[0];
        assert_eq!(workspace, if refusal == 1 { words } else { vec![0; WORKSPACE_WORDS] }, "{file} {n}: workspace");
        if refusal == 0 {
            assert_eq!(out[..case.used.len()], case.used, "{file} {n}: answers");
            assert!(out[case.used.len()..].iter().all(|b| *b == 0), "{file} {n}: unused bytes");
        } else {
            assert_eq!(out, bytes, "{file} {n}: buffer of a refused call");
        }
        typed(file, n, case);
    }
}

/// The same call with types says the same.
fn typed(file: &str, n: usize, case: &Case) {
    let [refusal, record, ending, answers, assumed, units] = case.reply;
    match Engine::with_buffer(case.room).solve(&case.book, case.budget, case.wanted) {
        Ok(run) => {
            let said = [run.ending.number(), run.answers.len() as u32, run.assumed, run.units];
            assert_eq!((0, said), (refusal, [ending, answers, assumed, units]), "{file} {n}");
        }
        Err(refused) => assert_eq!((refused.test.number(), refused.record), (refusal, record), "{file} {n}"),
    }
}

#[test]
fn listed_calls() {
    compare("compared.bin", 6);
}

#[test]
fn vectors() {
    compare("vectors.bin", 1134);
}

#[test]
fn rooms_of_other_sizes() {
    for words in [0, 1, WORKSPACE_WORDS - 1, WORKSPACE_WORDS + 1] {
        let mut workspace = vec![7; words];
        assert_eq!(solve_into(&[], 1, 1, &mut workspace, &mut []), [1, 0, 0, 0, 0, 0]);
        assert_eq!(workspace, vec![7; words]);
    }
}
