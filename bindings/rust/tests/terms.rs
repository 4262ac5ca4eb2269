//! Small books through the typed interface.

use whittermay::{book, Ending, Engine, Limit, Refusal, Run, Term, Test};

fn constant(symbol: u16) -> Term {
    Term::App(symbol, vec![])
}

/// `c(a)`; `c(b) => c(X)`: c is symbol 1, a is 2, b is 3.
fn supposed() -> Vec<u8> {
    book(&[
        [2, 2, 0, 0, 0, 0, 0, 0],  // 0  a
        [3, 0, 0, 0, 0, 0, 0, 0],  // 1  link to a
        [4, 1, 1, 1, 0, 0, 0, 0],  // 2  c(a)
        [8, 0, 0, 0, 2, 0, 0, 0],  // 3  the clause c(a)
        [3, 3, 0, 0, 0, 0, 0, 0],  // 4  link to the clause
        [2, 3, 0, 0, 0, 0, 0, 0],  // 5  b
        [3, 5, 0, 0, 0, 0, 0, 0],  // 6  link to b
        [4, 1, 1, 6, 0, 0, 0, 0],  // 7  c(b)
        [8, 0, 0, 0, 7, 0, 0, 0],  // 8  the clause c(b)
        [3, 8, 0, 0, 0, 0, 0, 0],  // 9  link to the clause
        [1, 0, 0, 0, 0, 0, 0, 0],  // 10 X
        [3, 10, 0, 0, 0, 0, 0, 0], // 11 link to X
        [4, 1, 1, 11, 0, 0, 0, 0], // 12 c(X)
        [7, 9, 1, 12, 0, 0, 0, 0], // 13 c(b) => c(X)
        [10, 4, 1, 13, 1, 0, 0, 0],
    ])
}

#[test]
fn supposed_clauses_come_first() {
    let run = Engine::new().solve(&supposed(), 1_000_000, 64);
    assert_eq!(run, Ok(Run { ending: Ending::Complete, answers: vec![vec![constant(3)], vec![constant(2)]], assumed: 2, units: 10 }));
}

#[test]
fn enough() {
    let run = Engine::new().solve(&supposed(), 1_000_000, 1).unwrap();
    assert_eq!((run.ending, run.answers), (Ending::Enough, vec![vec![constant(3)]]));
}

#[test]
fn limits_say_which_they_are() {
    let spent = Engine::new().solve(&supposed(), 6, 64).unwrap();
    assert_eq!((spent.ending, spent.answers.len(), spent.units), (Ending::Stopped(Limit::Budget), 1, 6));
    let full = Engine::with_buffer(8).solve(&supposed(), 1_000_000, 64).unwrap();
    assert_eq!((full.ending, full.answers.len(), full.units), (Ending::Stopped(Limit::Buffer), 1, 9));
}

#[test]
fn an_engine_is_used_again() {
    let mut engine = Engine::new();
    let first = engine.solve(&supposed(), 1_000_000, 64);
    assert_eq!(engine.solve(&[], 1, 1), Err(Refusal { test: Test::Size, record: 0 }));
    assert_eq!(engine.solve(&supposed(), 1_000_000, 64), first);
}

/// `pair(f(Y, g(Z)), Y)`; question `pair(X, W)`: pair 1, f 2, g 3.
#[test]
fn terms_with_open_variables() {
    let bytes = book(&[
        [1, 0, 0, 0, 0, 0, 0, 0],    // 0  Y
        [1, 1, 0, 0, 0, 0, 0, 0],    // 1  Z
        [3, 1, 0, 0, 0, 0, 0, 0],    // 2  link to Z
        [2, 3, 1, 2, 0, 0, 0, 0],    // 3  g(Z)
        [3, 0, 0, 0, 0, 0, 0, 0],    // 4  links to Y, g(Z)
        [3, 3, 0, 0, 0, 0, 0, 0],    // 5
        [2, 2, 2, 4, 0, 0, 0, 0],    // 6  f(Y, g(Z))
        [1, 0, 0, 0, 0, 0, 0, 0],    // 7  Y
        [3, 6, 0, 0, 0, 0, 0, 0],    // 8  links to both
        [3, 7, 0, 0, 0, 0, 0, 0],    // 9
        [4, 1, 2, 8, 0, 0, 0, 0],    // 10 the head
        [8, 2, 0, 0, 10, 0, 0, 0],   // 11 the clause, with two variables
        [3, 11, 0, 0, 0, 0, 0, 0],   // 12 link to it
        [1, 0, 0, 0, 0, 0, 0, 0],    // 13 X
        [1, 1, 0, 0, 0, 0, 0, 0],    // 14 W
        [3, 13, 0, 0, 0, 0, 0, 0],   // 15 links to X, W
        [3, 14, 0, 0, 0, 0, 0, 0],   // 16
        [4, 1, 2, 15, 0, 0, 0, 0],   // 17 pair(X, W)
        [10, 12, 1, 17, 2, 0, 0, 0], // 18 the question, two unknowns
    ]);
    let run = Engine::new().solve(&bytes, 1_000_000, 64).unwrap();
    let shown: Vec<Vec<String>> = run.answers.iter().map(|a| a.iter().map(Term::to_string).collect()).collect();
    assert_eq!(shown, [["2(_0, 3(_1))", "_0"]]);
    assert_eq!(run.answers[0][1], Term::Var(0));
}

#[test]
fn answers_without_unknowns() {
    let sample = book(&[
        [4, 1, 0, 0, 0, 0, 0, 0],
        [8, 0, 0, 0, 0, 0, 0, 0],
        [3, 1, 0, 0, 0, 0, 0, 0],
        [4, 1, 0, 0, 0, 0, 0, 0],
        [7, 2, 1, 3, 0, 0, 0, 0],
        [10, 0, 0, 4, 0, 0, 0, 0],
    ]);
    let run = Engine::with_buffer(0).solve(&sample, 1_000_000, 64).unwrap();
    assert_eq!((run.ending, run.answers, run.assumed, run.units), (Ending::Complete, vec![vec![]], 1, 4));
}

#[test]
fn refusals_name_test_and_record() {
    let mut engine = Engine::new();
    let alone = engine.solve(&book(&[[10, 0, 0, 0, 0, 0, 0, 0]]), 1, 1).unwrap_err();
    assert_eq!(alone, Refusal { test: Test::Field, record: 0 });
    assert_eq!(alone.to_string(), "refused 4 0");
    assert_eq!(engine.solve(&supposed(), 1, 65), Err(Refusal { test: Test::Room, record: 0 }));
    assert_eq!(Engine::with_buffer(12).solve(&supposed(), 1, 1), Err(Refusal { test: Test::Room, record: 0 }));
}
