//! Random questions with their rules: few symbols, so that things match; now and then shapes that reach for one of the limits.

use super::Dice;
use crate::layout::{Atom, Clause, Goal, Question, Term};

/// What a book is made with.
struct Shape {
    /// Argument counts of the predicates 1, 2, ..
    predicates: Vec<usize>,
    /// Argument counts of the function symbols 1, 2, ..; the first is a constant.
    functions: Vec<usize>,
    term_depth: usize,
    most_variables: usize,
    most_ties: usize,
    /// One clause in so many of the question's run has ties, and one tie in so many repeats an offset or is out of range.
    tie_fault: usize,
    /// Goals and clauses that may still be made.
    parts: usize,
}

pub fn question(dice: &Dice) -> Question {
    match dice.below(24) {
        0..=1 => return nested(dice),
        2..=3 => return growing(dice),
        4 => return many_clauses(dice),
        5 => return plain_rules(dice),
        _ => {}
    }
    let mut shape = Shape {
        predicates: (0..1 + dice.below(4)).map(|_| dice.of(&[0, 0, 1, 1, 1, 2, 2, 3, 8])).collect(),
        functions: (0..1 + dice.below(4)).map(|k| if k == 0 { 0 } else { dice.of(&[0, 0, 1, 2, 2, 3, 8]) }).collect(),
        term_depth: dice.of(&[0, 1, 1, 2, 3, 5]),
        most_variables: dice.of(&[0, 1, 2, 2, 3, 4, 64]),
        most_ties: dice.of(&[0, 1, 2, 4, 64]),
        tie_fault: dice.of(&[1000, 1000, 1000, 10]),
        parts: dice.of(&[4, 8, 16, 30, 60, 150]),
    };
    let unknowns = dice.below(1 + if dice.one_in(12) { 64 } else { 4 });
    let rules = dice.below(1 + dice.of(&[1, 4, 4, 8, 8, 20]));
    let clauses = (0..rules).map(|_| shape.clause(dice, None, 3)).collect();
    let goal = shape.goal(dice, unknowns, 5);
    Question { clauses, goal, unknowns: unknowns as u16 }
}

impl Shape {
    fn term(&mut self, dice: &Dice, variables: usize, depth: usize) -> Term {
        if variables > 0 && dice.one_in(2) {
            return Term::Variable(dice.below(variables) as u16);
        }
        let symbol = if depth == 0 { 0 } else { dice.below(self.functions.len()) };
        let count = self.functions[symbol];
        // Wide terms nest through one argument alone, or books would grow without measure.
        let deep = dice.below(count.max(1));
        let arguments = (0..count).map(|k| self.term(dice, variables, if count > 2 && k != deep { 0 } else { depth - 1 })).collect();
        Term::Symbol(1 + symbol as u16, arguments)
    }

    fn atom(&mut self, dice: &Dice, variables: usize) -> Atom {
        let p = dice.below(self.predicates.len());
        let depth = self.term_depth;
        Atom(1 + p as u16, (0..self.predicates[p]).map(|_| self.term(dice, variables, depth)).collect())
    }

    fn goal(&mut self, dice: &Dice, variables: usize, depth: usize) -> Goal {
        self.parts = self.parts.saturating_sub(1);
        let which = if depth == 0 || self.parts == 0 { 0 } else { dice.below(10) };
        match which {
            0..=4 => Goal::Atom(self.atom(dice, variables)),
            5..=6 => Goal::And(Box::new(self.goal(dice, variables, depth - 1)), Box::new(self.goal(dice, variables, depth - 1))),
            7 => Goal::Or(Box::new(self.goal(dice, variables, depth - 1)), Box::new(self.goal(dice, variables, depth - 1))),
            _ => {
                let count = 1 + if dice.one_in(3) { dice.below(4) } else { 0 };
                let clauses = (0..count).map(|_| self.clause(dice, Some(variables), depth - 1)).collect();
                Goal::Suppose(clauses, Box::new(self.goal(dice, variables, depth - 1)))
            }
        }
    }

    /// A clause; `outer` is the number of variables of its suppose goal's holder, none for the question's own.
    fn clause(&mut self, dice: &Dice, outer: Option<usize>, depth: usize) -> Clause {
        self.parts = self.parts.saturating_sub(1);
        let variables = dice.below(1 + if dice.one_in(2) { self.most_variables.min(3) } else { self.most_variables });
        let ties = self.ties(dice, variables, outer);
        let head = self.atom(dice, variables);
        let body = (dice.one_in(2) && depth > 0).then(|| self.goal(dice, variables, depth - 1));
        Clause { variables: variables as u16, ties, head, body }
    }

    fn ties(&mut self, dice: &Dice, variables: usize, outer: Option<usize>) -> Vec<(u16, u16)> {
        let outer = match outer {
            Some(n) => n,
            None if dice.one_in(self.tie_fault) => 64,
            None => return vec![],
        };
        let most = variables.min(outer).min(self.most_ties);
        let (mut owns, mut outers) = (some_of(dice, variables, most), some_of(dice, outer, most));
        for k in 0..most {
            if dice.one_in(self.tie_fault) {
                let side = if dice.one_in(2) { &mut owns } else { &mut outers };
                side[k] = if dice.one_in(2) { side[dice.below(most)] } else { side[k] + dice.below(70) as u16 };
            }
        }
        let count = dice.below(most + 1);
        owns.into_iter().zip(outers).take(if dice.one_in(3) { count } else { most }).collect()
    }
}

/// Different numbers below a bound, in random order.
fn some_of(dice: &Dice, bound: usize, count: usize) -> Vec<u16> {
    let mut all: Vec<u16> = (0..bound as u16).collect();
    for k in 0..count {
        let other = k + dice.below(bound - k);
        all.swap(k, other);
    }
    all.truncate(count);
    all
}

/// A term of some depth, nested through one argument of eight or fewer, the same for the same numbers.
fn tower(count: usize, through: usize, depth: usize, foot: Term) -> Term {
    let mut term = foot;
    for _ in 0..depth {
        let arguments = (0..count).map(|k| if k == through { term.clone() } else { Term::Symbol(1, vec![]) }).collect();
        term = Term::Symbol(2, arguments);
    }
    term
}

/// Deep terms met by deep terms or by unknowns: the lists of pairs, of terms looked at and of terms written.
fn nested(dice: &Dice) -> Question {
    let count = dice.of(&[8, 8, 8, 7, 4, 1]);
    let through = if dice.one_in(4) { dice.below(count) } else { 0 };
    let depth = if count == 1 { dice.below(300) } else { dice.of(&[30, 34, 35, 36, 37, 40]) };
    let depth = if count == 4 { 2 * depth + dice.below(20) } else { depth };
    let unknowns = dice.of(&[1, 1, 2, 10, 64]) as u16;
    let foot = |dice: &Dice| if dice.one_in(2) { Term::Symbol(1, vec![]) } else { Term::Variable(0) };
    let high = tower(count, through, depth, foot(dice));
    let low = if dice.one_in(2) { Term::Variable(dice.below(unknowns as usize) as u16) } else { tower(count, through, depth, foot(dice)) };
    let padding: Vec<Term> = (0..dice.below(8)).map(|_| Term::Symbol(1, vec![])).collect();
    let with = |t: &Term| Atom(1, std::iter::once(t.clone()).chain(padding.iter().cloned()).collect());
    let rule = Clause { variables: 1, ties: vec![], head: with(&high), body: None };
    let mut goal = Goal::Atom(with(&low));
    if dice.one_in(2) {
        goal = Goal::And(Box::new(goal.clone()), Box::new(goal));
    }
    Question { clauses: vec![rule], goal, unknowns }
}

/// A rule that calls itself with a term around its unknown, or with many variables: goals, variables and lists without end.
fn growing(dice: &Dice) -> Question {
    let count = dice.of(&[1, 2, 8, 8, 8]);
    let variables = dice.of(&[1, 1, 4, 5, 20, 63, 64]);
    let depth = 1 + dice.below(2);
    let around = tower(count, 0, depth, Term::Variable(0));
    let mut body = Goal::Atom(Atom(1, vec![around]));
    let end = Clause { variables: 0, ties: vec![], head: Atom(1, vec![tower(count, 0, 10 + dice.below(40), Term::Symbol(1, vec![]))]), body: None };
    let supposed = Clause { variables: 2, ties: vec![(1, 0)], head: Atom(2, vec![Term::Variable(0), Term::Variable(1)]), body: None };
    if dice.one_in(2) {
        let asked = Goal::Atom(Atom(2, vec![Term::Variable(0), Term::Variable(0)]));
        body = match dice.below(3) {
            0 => Goal::And(Box::new(Goal::Suppose(vec![supposed], Box::new(asked))), Box::new(body)),
            1 => Goal::Suppose(vec![supposed], Box::new(Goal::And(Box::new(asked), Box::new(body)))),
            _ => Goal::Or(Box::new(body), Box::new(Goal::Suppose(vec![supposed], Box::new(asked)))),
        };
    }
    let rule = Clause { variables, ties: vec![], head: Atom(1, vec![Term::Variable(0)]), body: Some(body) };
    let mut clauses = if dice.one_in(2) { vec![rule, end] } else { vec![end, rule] };
    clauses.truncate(1 + dice.below(2));
    let unknowns = 1 + dice.below(3) as u16;
    let start = if dice.one_in(2) { Term::Symbol(1, vec![]) } else { Term::Variable(0) };
    Question { clauses, goal: Goal::Atom(Atom(1, vec![start])), unknowns }
}

/// Long runs: many facts of several predicates, nested suppositions with many clauses.
fn many_clauses(dice: &Dice) -> Question {
    let predicates = 1 + dice.below(90);
    let fact = |dice: &Dice| {
        let (p, c) = (1 + dice.below(predicates) as u16, 1 + dice.below(4) as u16);
        Clause { variables: 0, ties: vec![], head: Atom(p, vec![Term::Symbol(c, vec![])]), body: None }
    };
    let ask = |dice: &Dice| {
        let p = 1 + dice.below(predicates) as u16;
        Goal::Atom(Atom(p, vec![if dice.one_in(3) { Term::Symbol(1, vec![]) } else { Term::Variable(dice.below(3) as u16) }]))
    };
    let clauses = (0..dice.of(&[0, 3, 100, 500, 1000])).map(|_| fact(dice)).collect();
    let mut goal = ask(dice);
    for _ in 0..dice.of(&[0, 2, 8, 30]) {
        goal = match dice.below(4) {
            0 => Goal::And(Box::new(ask(dice)), Box::new(goal)),
            1 => Goal::Or(Box::new(goal), Box::new(ask(dice))),
            2 => Goal::And(Box::new(goal), Box::new(ask(dice))),
            _ => {
                let most = dice.of(&[1, 2, 64]);
                let supposed = (0..1 + dice.below(most)).map(|_| fact(dice)).collect();
                Goal::Suppose(supposed, Box::new(goal))
            }
        };
    }
    Question { clauses, goal, unknowns: 3 }
}

/// Rules without arguments, most of them the only one of their predicate: long chains and rings, cut by facts, second rules, arguments, variables and
/// suppositions. Some symbols are the same in their ten lowest bits.
fn plain_rules(dice: &Dice) -> Question {
    let predicates = dice.of(&[1, 2, 3, 10, 40, 300]);
    let symbol = |dice: &Dice, p: usize| (p % predicates) as u16 + if dice.one_in(20) { 1024 } else { 0 };
    let atom = |dice: &Dice, p: usize| {
        let arguments = if dice.one_in(40) { vec![Term::Symbol(1, vec![])] } else { vec![] };
        Goal::Atom(Atom(symbol(dice, p), arguments))
    };
    let rule = |dice: &Dice, p: usize| {
        let next = if dice.one_in(20) { dice.below(predicates) } else { p + 1 };
        let body = match dice.below(40) {
            0 => None,
            1 => Some(Goal::And(Box::new(atom(dice, next)), Box::new(atom(dice, p)))),
            2 => Some(Goal::Or(Box::new(atom(dice, p)), Box::new(atom(dice, next)))),
            _ => Some(atom(dice, next)),
        };
        let arguments = if dice.one_in(60) { vec![Term::Symbol(1, vec![])] } else { vec![] };
        Clause { variables: if dice.one_in(30) { 1 + dice.below(64) as u16 } else { 0 }, ties: vec![], head: Atom(symbol(dice, p), arguments), body }
    };
    let mut clauses: Vec<Clause> = (0..predicates).map(|p| rule(dice, p)).collect();
    for _ in 0..dice.of(&[0, 0, 1, 3]) {
        let p = dice.below(predicates);
        let more = rule(dice, p);
        clauses.insert(dice.below(clauses.len() + 1), more);
    }
    let mut goal = atom(dice, 0);
    for _ in 0..dice.of(&[0, 0, 1, 2, 6]) {
        let p = dice.below(predicates);
        goal = match dice.below(4) {
            0 => Goal::And(Box::new(goal), Box::new(atom(dice, p))),
            1 => Goal::Or(Box::new(goal), Box::new(atom(dice, p))),
            2 => Goal::Or(Box::new(atom(dice, p)), Box::new(goal)),
            _ => {
                let fact = Clause { variables: 0, ties: vec![], head: Atom(symbol(dice, p), vec![]), body: None };
                Goal::Suppose(vec![if dice.one_in(2) { fact } else { rule(dice, p) }], Box::new(goal))
            }
        };
    }
    Question { clauses, goal, unknowns: dice.below(3) as u16 }
}
