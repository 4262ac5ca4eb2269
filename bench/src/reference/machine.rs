//! The machine of document 01, one sentence at a time.

use super::tree::{Atom, Clause, Goal, Question, Term};
use std::collections::VecDeque;
use std::rc::Rc;

/// A clause in force, with the base of the variables that its ties name.
type Program = Rc<Vec<(Rc<Clause>, usize)>>;

/// A text with the base of its variables.
type InHand = (Rc<Term>, usize);

#[derive(Clone)]
enum Entry {
    Open,
    Same(usize),
    Bound(InHand),
}

#[derive(Clone)]
struct Branch {
    goals: Rc<List>,
    entries: Vec<Entry>,
    taken: usize,
    assumed: bool,
}

/// The list of goals, each with its base and its program.
enum List {
    Empty,
    First(Rc<Goal>, usize, Program, Rc<List>),
}

/// An untried alternative: a branch whose list begins with it, or an atom's candidates that are left.
enum Alternative {
    Goal(Branch),
    Candidates(Branch, Rc<Goal>, usize, Program, VecDeque<(Rc<Clause>, usize)>),
}

pub struct End {
    pub ending: u32,
    pub answers: u32,
    pub assumed: u32,
    pub units: u32,
}

enum Stop {
    Ending(u32),
    /// On any failure, go back.
    Failure,
}

/// What is read through bindings and ties: a variable's number or a term.
enum Value {
    Variable(usize),
    Term(u16, Vec<Rc<Term>>, usize),
}

struct Run<'a> {
    budget: u32,
    wanted: u32,
    end: End,
    out: &'a mut [u8],
    at: usize,
    alternatives: Vec<Alternative>,
}

pub fn run(question: &Question, budget: u32, wanted: u32, out: &mut [u8]) -> End {
    let end = End { ending: 0, answers: 0, assumed: 0, units: 0 };
    let mut run = Run { budget, wanted, end, out, at: 0, alternatives: Vec::new() };
    let program = Rc::new(question.clauses.iter().map(|c| (c.clone(), 0)).collect());
    let goals = Rc::new(List::First(question.goal.clone(), 0, program, Rc::new(List::Empty)));
    let mut branch = Branch { goals, entries: vec![Entry::Open; question.unknowns], taken: 0, assumed: false };
    let mut pending = None;
    run.end.ending = loop {
        let done = match pending.take() {
            None => run.step(&mut branch, question.unknowns),
            Some((goal, base, program, candidates)) => run.enter(&mut branch, goal, base, program, candidates),
        };
        match done {
            Ok(()) => {}
            Err(Stop::Ending(ending)) => break ending,
            // "Going back: the newest alternative, with bindings, list and programs as they were. None left: the search is complete."
            Err(Stop::Failure) => match run.alternatives.pop() {
                None => break 0,
                Some(Alternative::Goal(kept)) => branch = kept,
                Some(Alternative::Candidates(kept, goal, base, program, candidates)) => {
                    branch = kept;
                    pending = Some((goal, base, program, candidates));
                }
            },
        }
    };
    run.end
}

impl Run<'_> {
    /// "A unit is done only if the budget has one left; then its limit is tested. A unit that meets a limit is not counted."
    fn unit(&mut self, met: bool, ending: u32) -> Result<(), Stop> {
        if self.end.units == self.budget {
            return Err(Stop::Ending(2));
        }
        if met {
            return Err(Stop::Ending(ending));
        }
        self.end.units += 1;
        Ok(())
    }

    /// Takes the first goal of the list, or gives an answer.
    fn step(&mut self, branch: &mut Branch, unknowns: usize) -> Result<(), Stop> {
        let List::First(goal, base, program, rest) = &*branch.goals.clone() else {
            return self.answer(branch, unknowns);
        };
        let list = |goal: &Rc<Goal>, program: &Program, rest: &Rc<List>| Rc::new(List::First(goal.clone(), *base, program.clone(), rest.clone()));
        self.unit(branch.taken == 512, 3)?;
        branch.taken += 1;
        match &**goal {
            Goal::And(left, right) => branch.goals = list(left, program, &list(right, program, rest)),
            Goal::Or(left, right) => {
                self.alternatives.push(Alternative::Goal(Branch { goals: list(right, program, rest), ..branch.clone() }));
                branch.goals = list(left, program, rest);
            }
            Goal::Suppose(clauses, inner) => {
                let supposed = clauses.iter().map(|c| (c.clone(), *base));
                branch.assumed = true;
                branch.goals = list(inner, &Rc::new(supposed.chain(program.iter().cloned()).collect()), rest);
            }
            Goal::Atom(atom) => {
                let heads = |c: &Clause| c.head.symbol == atom.symbol && c.head.arguments.len() == atom.arguments.len();
                let candidates = program.iter().filter(|(c, _)| heads(c)).cloned().collect();
                branch.goals = rest.clone();
                return self.enter(branch, goal.clone(), *base, program.clone(), candidates);
            }
        }
        Ok(())
    }

    /// "The first is entered, the rest kept; with none, or on any failure, go back. After unifying, the body joins the front of the list with the
    /// program of the *call*."
    fn enter(
        &mut self,
        branch: &mut Branch,
        goal: Rc<Goal>,
        base: usize,
        program: Program,
        mut candidates: VecDeque<(Rc<Clause>, usize)>,
    ) -> Result<(), Stop> {
        let (clause, outer_base) = candidates.pop_front().ok_or(Stop::Failure)?;
        if !candidates.is_empty() {
            self.alternatives.push(Alternative::Candidates(branch.clone(), goal.clone(), base, program.clone(), candidates));
        }
        let new = branch.entries.len();
        self.unit(new + clause.variables > 2048, 4)?;
        branch.entries.resize(new + clause.variables, Entry::Open);
        for (own, outer) in &clause.ties {
            branch.entries[new + own] = Entry::Same(outer_base + outer);
        }
        let Goal::Atom(atom) = &*goal else { unreachable!("only atoms have candidates") };
        self.unify(branch, atom, base, &clause.head, new)?;
        if let Some(body) = &clause.body {
            branch.goals = Rc::new(List::First(body.clone(), new, program, branch.goals.clone()));
        }
        Ok(())
    }

    fn unify(&mut self, branch: &mut Branch, atom: &Atom, base: usize, head: &Atom, new: usize) -> Result<(), Stop> {
        let mut pairs: VecDeque<(InHand, InHand)> = VecDeque::new();
        for (a, h) in atom.arguments.iter().zip(&head.arguments) {
            pairs.push_back(((a.clone(), base), (h.clone(), new)));
        }
        while let Some((first, second)) = pairs.pop_front() {
            match (branch.read(&first), branch.read(&second)) {
                (Value::Variable(v), Value::Variable(w)) => {
                    self.unit(false, 5)?;
                    if v != w {
                        branch.entries[v.max(w)] = Entry::Same(v.min(w));
                    }
                }
                (Value::Variable(v), Value::Term(s, a, b)) | (Value::Term(s, a, b), Value::Variable(v)) => {
                    self.unit(false, 5)?;
                    let term = (Rc::new(Term::Symbol(s, a)), b);
                    self.look(branch, v, term.clone())?;
                    branch.entries[v] = Entry::Bound(term);
                }
                (Value::Term(s, a, b), Value::Term(t, c, d)) => {
                    if s != t || a.len() != c.len() {
                        self.unit(false, 5)?;
                        return Err(Stop::Failure);
                    }
                    self.unit(pairs.len() + a.len() > 256, 5)?;
                    for (x, y) in a.into_iter().zip(c).rev() {
                        pairs.push_front(((x, b), (y, d)));
                    }
                }
            }
        }
        Ok(())
    }

    /// "The look takes terms from a list in the same way, read through, starting with the term itself, and stops when the variable is found"
    fn look(&mut self, branch: &Branch, variable: usize, term: InHand) -> Result<(), Stop> {
        let mut terms = VecDeque::from([term]);
        while let Some(taken) = terms.pop_front() {
            match branch.read(&taken) {
                Value::Variable(v) => {
                    self.unit(false, 5)?;
                    if v == variable {
                        return Err(Stop::Failure);
                    }
                }
                Value::Term(_, arguments, base) => {
                    self.unit(terms.len() + arguments.len() > 256, 5)?;
                    for a in arguments.into_iter().rev() {
                        terms.push_front((a, base));
                    }
                }
            }
        }
        Ok(())
    }

    /// "Empty list: an answer. If wanted is reached the run ends; otherwise go back."
    fn answer(&mut self, branch: &Branch, unknowns: usize) -> Result<(), Stop> {
        if self.end.units == self.budget {
            return Err(Stop::Ending(2));
        }
        let written = self.answer_records(branch, unknowns)?;
        for r in written {
            for number in r {
                self.out[self.at..self.at + 2].copy_from_slice(&number.to_le_bytes());
                self.at += 2;
            }
        }
        self.end.units += 1;
        self.end.answers += 1;
        self.end.assumed += branch.assumed as u32;
        if self.end.answers == self.wanted {
            return Err(Stop::Ending(1));
        }
        Err(Stop::Failure)
    }

    /// "Writing starts with all unknowns on the list; a record is written before its arguments go on."
    fn answer_records(&self, branch: &Branch, unknowns: usize) -> Result<Vec<[u16; 4]>, Stop> {
        let number = self.end.answers as u16;
        let mut records = Vec::new();
        let mut open: Vec<usize> = Vec::new();
        let mut terms: VecDeque<InHand> = (0..unknowns).map(|u| (Rc::new(Term::Variable(u)), 0)).collect();
        while let Some(taken) = terms.pop_front() {
            if self.at + 8 * records.len() + 8 > self.out.len() {
                return Err(Stop::Ending(6));
            }
            match branch.read(&taken) {
                Value::Variable(v) => {
                    let place = open.iter().position(|&o| o == v).unwrap_or(open.len());
                    if place == open.len() {
                        open.push(v);
                    }
                    records.push([number, 1, place as u16, 0]);
                }
                Value::Term(symbol, arguments, base) => {
                    records.push([number, 2, symbol, arguments.len() as u16]);
                    if terms.len() + arguments.len() > 256 {
                        return Err(Stop::Ending(5));
                    }
                    for a in arguments.into_iter().rev() {
                        terms.push_front((a, base));
                    }
                }
            }
        }
        Ok(records)
    }
}

impl Branch {
    /// Reads a text in hand through bindings and ties.
    fn read(&self, in_hand: &InHand) -> Value {
        match &*in_hand.0 {
            Term::Symbol(symbol, arguments) => Value::Term(*symbol, arguments.clone(), in_hand.1),
            Term::Variable(offset) => {
                let mut variable = in_hand.1 + offset;
                loop {
                    match &self.entries[variable] {
                        Entry::Open => return Value::Variable(variable),
                        Entry::Same(lower) => variable = *lower,
                        Entry::Bound(term) => return self.read(term),
                    }
                }
            }
        }
    }
}
