//! Trees to be laid out as a book, in the order of their making or in a random one that document 01 also allows.

use crate::random::Dice;

#[derive(Clone)]
pub enum Term {
    Variable(u16),
    Symbol(u16, Vec<Term>),
}

#[derive(Clone)]
pub struct Atom(pub u16, pub Vec<Term>);

#[derive(Clone)]
pub enum Goal {
    Atom(Atom),
    And(Box<Goal>, Box<Goal>),
    Or(Box<Goal>, Box<Goal>),
    Suppose(Vec<Clause>, Box<Goal>),
}

#[derive(Clone)]
pub struct Clause {
    pub variables: u16,
    pub ties: Vec<(u16, u16)>,
    pub head: Atom,
    pub body: Option<Goal>,
}

#[derive(Clone)]
pub struct Question {
    pub clauses: Vec<Clause>,
    pub goal: Goal,
    pub unknowns: u16,
}

pub fn variable(offset: u16) -> Term {
    Term::Variable(offset)
}

pub fn term(symbol: u16, arguments: &[Term]) -> Term {
    Term::Symbol(symbol, arguments.to_vec())
}

pub fn atom(symbol: u16, arguments: &[Term]) -> Goal {
    Goal::Atom(Atom(symbol, arguments.to_vec()))
}

pub fn and(left: Goal, right: Goal) -> Goal {
    Goal::And(Box::new(left), Box::new(right))
}

pub fn or(left: Goal, right: Goal) -> Goal {
    Goal::Or(Box::new(left), Box::new(right))
}

pub fn suppose(clauses: &[Clause], goal: Goal) -> Goal {
    Goal::Suppose(clauses.to_vec(), Box::new(goal))
}

pub fn fact(symbol: u16, arguments: &[Term]) -> Clause {
    Clause { variables: 0, ties: vec![], head: Atom(symbol, arguments.to_vec()), body: None }
}

impl Clause {
    pub fn over(mut self, variables: u16) -> Clause {
        self.variables = variables;
        self
    }

    pub fn tied(mut self, own: u16, outer: u16) -> Clause {
        self.ties.push((own, outer));
        self
    }

    pub fn if_(mut self, body: Goal) -> Clause {
        self.body = Some(body);
        self
    }
}

/// A single record or a whole run; of the fields some point at blocks made before.
#[derive(Default)]
struct Block {
    records: Vec<[u16; 8]>,
    /// Record of this block, field, block pointed at.
    pointers: Vec<(usize, usize, usize)>,
}

#[derive(Default)]
struct Blocks(Vec<Block>);

impl Blocks {
    /// A single record whose listed fields hold these numbers, and the blocks that some point at (an empty run's block is none).
    fn single(&mut self, numbers: &[u16], pointers: &[(usize, Option<usize>)]) -> usize {
        let mut record = [0; 8];
        record[..numbers.len()].copy_from_slice(numbers);
        let pointers = pointers.iter().filter_map(|&(field, to)| to.map(|b| (0, field, b))).collect();
        self.0.push(Block { records: vec![record], pointers });
        self.0.len() - 1
    }

    fn links(&mut self, targets: &[usize]) -> Option<usize> {
        if targets.is_empty() {
            return None;
        }
        let pointers = targets.iter().enumerate().map(|(k, &t)| (k, 1, t)).collect();
        self.0.push(Block { records: vec![[3, 0, 0, 0, 0, 0, 0, 0]; targets.len()], pointers });
        Some(self.0.len() - 1)
    }

    fn arguments(&mut self, terms: &[Term]) -> Option<usize> {
        let targets: Vec<usize> = terms.iter().map(|t| self.term(t)).collect();
        self.links(&targets)
    }

    fn term(&mut self, term: &Term) -> usize {
        match term {
            Term::Variable(offset) => self.single(&[1, *offset], &[]),
            Term::Symbol(symbol, arguments) => {
                let run = self.arguments(arguments);
                self.single(&[2, *symbol, arguments.len() as u16], &[(3, run)])
            }
        }
    }

    fn atom(&mut self, atom: &Atom) -> usize {
        let run = self.arguments(&atom.1);
        self.single(&[4, atom.0, atom.1.len() as u16], &[(3, run)])
    }

    fn clauses(&mut self, clauses: &[Clause]) -> Option<usize> {
        let targets: Vec<usize> = clauses.iter().map(|c| self.clause(c)).collect();
        self.links(&targets)
    }

    fn clause(&mut self, clause: &Clause) -> usize {
        let head = self.atom(&clause.head);
        let body = clause.body.as_ref().map(|b| self.goal(b));
        let ties = if clause.ties.is_empty() {
            None
        } else {
            let records = clause.ties.iter().map(|&(own, outer)| [9, own, outer, 0, 0, 0, 0, 0]).collect();
            self.0.push(Block { records, pointers: vec![] });
            Some(self.0.len() - 1)
        };
        let numbers = [8, clause.variables, 0, clause.ties.len() as u16, 0, body.is_some() as u16];
        self.single(&numbers, &[(2, ties), (4, Some(head)), (6, body)])
    }

    fn goal(&mut self, goal: &Goal) -> usize {
        match goal {
            Goal::Atom(atom) => self.atom(atom),
            Goal::And(left, right) | Goal::Or(left, right) => {
                let kind = if matches!(goal, Goal::And(..)) { 5 } else { 6 };
                let (left, right) = (self.goal(left), self.goal(right));
                self.single(&[kind], &[(1, Some(left)), (2, Some(right))])
            }
            Goal::Suppose(clauses, inner) => {
                let run = self.clauses(clauses);
                let inner = self.goal(inner);
                self.single(&[7, 0, clauses.len() as u16], &[(1, run), (3, Some(inner))])
            }
        }
    }

    /// A random order in which every block comes after the blocks that it points at.
    fn shuffled(&self, dice: &Dice) -> Vec<usize> {
        let mut waiting: Vec<usize> = self.0.iter().map(|b| b.pointers.len()).collect();
        let mut owner = vec![usize::MAX; self.0.len()];
        for (i, block) in self.0.iter().enumerate() {
            for &(_, _, to) in &block.pointers {
                owner[to] = i;
            }
        }
        let mut ready: Vec<usize> = (0..self.0.len()).filter(|&i| waiting[i] == 0).collect();
        let mut order = Vec::new();
        while !ready.is_empty() {
            let block = ready.swap_remove(dice.below(ready.len()));
            order.push(block);
            if owner[block] != usize::MAX {
                waiting[owner[block]] -= 1;
                if waiting[owner[block]] == 0 {
                    ready.push(owner[block]);
                }
            }
        }
        order
    }

    fn bytes(&self, order: &[usize]) -> Vec<u8> {
        let mut first = vec![0; self.0.len()];
        let mut count = 0;
        for &b in order {
            first[b] = count;
            count += self.0[b].records.len();
        }
        let mut bytes = Vec::with_capacity(16 * count);
        for &b in order {
            let mut records = self.0[b].records.clone();
            for &(record, field, to) in &self.0[b].pointers {
                records[record][field] = first[to] as u16;
            }
            bytes.extend(records.iter().flatten().flat_map(|n| n.to_le_bytes()));
        }
        bytes
    }
}

impl Question {
    fn blocks(&self) -> Blocks {
        let mut blocks = Blocks::default();
        let run = blocks.clauses(&self.clauses);
        let goal = blocks.goal(&self.goal);
        blocks.single(&[10, 0, self.clauses.len() as u16, 0, self.unknowns], &[(1, run), (3, Some(goal))]);
        blocks
    }

    /// The book, parts before wholes.
    pub fn book(&self) -> Vec<u8> {
        let blocks = self.blocks();
        let order: Vec<usize> = (0..blocks.0.len()).collect();
        blocks.bytes(&order)
    }

    /// The book with its records in a random order.
    pub fn shuffled_book(&self, dice: &Dice) -> Vec<u8> {
        let blocks = self.blocks();
        let order = blocks.shuffled(dice);
        blocks.bytes(&order)
    }
}
