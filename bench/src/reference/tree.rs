//! The book as trees, made from the last record down.

use std::rc::Rc;

pub enum Term {
    Variable(usize),
    Symbol(u16, Vec<Rc<Term>>),
}

pub struct Atom {
    pub symbol: u16,
    pub arguments: Vec<Rc<Term>>,
}

pub enum Goal {
    Atom(Atom),
    And(Rc<Goal>, Rc<Goal>),
    Or(Rc<Goal>, Rc<Goal>),
    Suppose(Vec<Rc<Clause>>, Rc<Goal>),
}

pub struct Clause {
    pub variables: usize,
    /// Own offset, outer offset.
    pub ties: Vec<(usize, usize)>,
    pub head: Atom,
    pub body: Option<Rc<Goal>>,
}

pub struct Question {
    pub clauses: Vec<Rc<Clause>>,
    pub goal: Rc<Goal>,
    pub unknowns: usize,
}

type Records = [[u16; 8]];

pub fn question(records: &Records) -> Question {
    let r = records[records.len() - 1];
    Question { clauses: clauses(records, r[1], r[2]), goal: goal(records, r[3]), unknowns: r[4] as usize }
}

/// What the links of a run point at.
fn linked(records: &Records, first: u16, count: u16) -> Vec<u16> {
    (0..count).map(|k| records[(first + k) as usize][1]).collect()
}

fn clauses(records: &Records, first: u16, count: u16) -> Vec<Rc<Clause>> {
    linked(records, first, count).into_iter().map(|c| Rc::new(clause(records, c))).collect()
}

fn clause(records: &Records, i: u16) -> Clause {
    let r = records[i as usize];
    let ties = (0..r[3]).map(|k| records[(r[2] + k) as usize]).map(|t| (t[1] as usize, t[2] as usize)).collect();
    let body = if r[5] == 1 { Some(goal(records, r[6])) } else { None };
    Clause { variables: r[1] as usize, ties, head: atom(records, r[4]), body }
}

fn atom(records: &Records, i: u16) -> Atom {
    let r = records[i as usize];
    Atom { symbol: r[1], arguments: arguments(records, r[3], r[2]) }
}

fn arguments(records: &Records, first: u16, count: u16) -> Vec<Rc<Term>> {
    linked(records, first, count).into_iter().map(|t| Rc::new(term(records, t))).collect()
}

fn term(records: &Records, i: u16) -> Term {
    let r = records[i as usize];
    match r[0] {
        1 => Term::Variable(r[1] as usize),
        _ => Term::Symbol(r[1], arguments(records, r[3], r[2])),
    }
}

fn goal(records: &Records, i: u16) -> Rc<Goal> {
    let r = records[i as usize];
    Rc::new(match r[0] {
        4 => Goal::Atom(atom(records, i)),
        5 => Goal::And(goal(records, r[1]), goal(records, r[2])),
        6 => Goal::Or(goal(records, r[1]), goal(records, r[2])),
        _ => Goal::Suppose(clauses(records, r[1], r[2]), goal(records, r[3])),
    })
}
