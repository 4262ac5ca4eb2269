//! The machine: goals taken, clauses entered, alternatives gone back to.

use super::program::Index;
use super::text::{Clause, Goal, Text, PLACES, VARIABLE};
use super::unify::{read, Pairs, Rest, Slots};
use super::NONE;

/// What ends a run before its search is complete.
#[derive(Clone, Copy)]
pub enum Stop {
    Enough = 1,
    Budget = 2,
    Goals = 3,
    Variables = 4,
    List = 5,
    Buffer = 6,
}

const GOALS: u16 = 512;
const VARIABLES: u32 = 2048;

/// A goal in hand: its record, the base of its variables, its program; and the cell of the goals after it.
#[derive(Clone, Copy)]
struct Hand {
    goal: u16,
    base: u16,
    program: u16,
    next: u16,
}

const NO_HAND: Hand = Hand { goal: 0, base: 0, program: 0, next: NONE };

/// Where a branch stands, to be gone back to.
#[derive(Clone, Copy)]
struct Marks {
    trail: u16,
    live: u16,
    cells: u16,
    nodes: u16,
    taken: u16,
}

/// A goal to go back to. With a candidate's link it is an atom and that candidate is entered; without, it is taken.
#[derive(Clone, Copy)]
struct Alternative {
    hand: Hand,
    node: u16,
    link: u16,
    marks: Marks,
}

const NO_ALTERNATIVE: Alternative =
    Alternative { hand: NO_HAND, node: 0, link: NONE, marks: Marks { trail: 0, live: 0, cells: 0, nodes: 1, taken: 0 } };

pub struct Machine {
    /// By variable: 0 open, or the term in hand that it is bound or tied to.
    pub slots: Slots,
    /// Variables bound that are older than an alternative.
    pub trail: [u16; 2048],
    pub trail_count: usize,
    /// Variables below this number are older than the newest alternative.
    pub older: u16,
    /// Budget left.
    pub left: u32,
    pub pairs: [Pairs; 256],
    pub looks: [Rest; 256],
    pub renumbered: [u16; 2048],
    pub open: Vec<u16>,
    live: u32,
    taken: u16,
    cells: [Hand; 512],
    cell_count: usize,
    /// From place 1 on; place 0 is never gone back to, and nothing is older.
    alternatives: [Alternative; 1024],
    kept: usize,
    answers: u32,
    assumed: u32,
    written: usize,
}

impl Default for Machine {
    fn default() -> Machine {
        Machine {
            slots: [0; PLACES],
            trail: [0; 2048],
            trail_count: 0,
            older: 0,
            left: 0,
            pairs: [Pairs::default(); 256],
            looks: [Rest::default(); 256],
            renumbered: [0; 2048],
            open: Vec::with_capacity(2048),
            live: 0,
            taken: 0,
            cells: [NO_HAND; 512],
            cell_count: 0,
            alternatives: [NO_ALTERNATIVE; 1024],
            kept: 0,
            answers: 0,
            assumed: 0,
            written: 0,
        }
    }
}

impl Machine {
    /// Ending, answers, assumed, units.
    pub fn run(&mut self, text: &Text, index: &mut Index, budget: u32, wanted: u32, out: &mut [u8]) -> [u32; 4] {
        self.slots[..text.unknowns as usize].fill(0);
        self.live = text.unknowns as u32;
        (self.trail_count, self.older, self.left, self.taken, self.cell_count, self.kept) = (0, 0, budget, 0, 0, 0);
        (self.answers, self.assumed, self.written) = (0, 0, 0);
        let ending = match self.search(text, index, wanted, out) {
            Ok(()) => 0,
            Err(stop) => stop as u32,
        };
        [ending, self.answers, self.assumed, budget - self.left]
    }

    /// One unit, if the budget has it and its limit is not met.
    #[inline(always)]
    fn unit(&mut self, met: bool, stop: Stop) -> Result<(), Stop> {
        if self.left == 0 {
            return Err(Stop::Budget);
        }
        if met {
            return Err(stop);
        }
        self.left -= 1;
        Ok(())
    }

    #[inline(never)]
    fn search(&mut self, text: &Text, index: &mut Index, wanted: u32, out: &mut [u8]) -> Result<(), Stop> {
        let mut hand = Hand { goal: text.goal, ..NO_HAND };
        loop {
            self.unit(self.taken == GOALS, Stop::Goals)?;
            self.taken += 1;
            let mut goal = text.goals[hand.goal as usize];
            let (mut node, mut link) = match goal.kind {
                5 => {
                    self.cells[self.cell_count & 511] = Hand { goal: goal.b, ..hand };
                    hand = Hand { goal: goal.a, next: self.cell_count as u16, ..hand };
                    self.cell_count += 1;
                    continue;
                }
                6 => {
                    let marks = self.marks(index);
                    self.keep(Alternative { hand: Hand { goal: goal.b, ..hand }, node: 0, link: NONE, marks });
                    hand.goal = goal.a;
                    continue;
                }
                7 => {
                    hand.program = index.suppose(goal.b, hand.base, hand.program);
                    hand.goal = goal.a;
                    continue;
                }
                _ => index.candidate(hand.program, goal.b),
            };
            // Going back, until a candidate unifies with goals after it, or a goal is to be taken.
            loop {
                if self.enter_some(text, index, &mut hand, goal, node, link)? {
                    if self.more(&mut hand) {
                        break;
                    }
                    self.answer(text, index.node_count > 1, wanted, out)?;
                }
                if self.kept == 0 {
                    return Ok(());
                }
                let kept = self.alternatives[self.kept & 1023];
                self.kept -= 1;
                self.older = self.alternatives[self.kept & 1023].marks.live;
                self.undo(kept.marks.trail);
                (self.live, self.cell_count, self.taken) = (kept.marks.live as u32, kept.marks.cells as usize, kept.marks.taken);
                index.node_count = kept.marks.nodes as usize;
                (hand, node, link) = (kept.hand, kept.node, kept.link);
                if link == NONE {
                    break;
                }
                goal = text.goals[hand.goal as usize];
            }
        }
    }

    /// Puts the next goal in hand, if there is one.
    #[inline(always)]
    fn more(&mut self, hand: &mut Hand) -> bool {
        if hand.goal != NONE {
            return true;
        }
        if hand.next == NONE {
            return false;
        }
        *hand = self.cells[hand.next as usize & 511];
        true
    }

    #[inline(always)]
    fn marks(&self, index: &Index) -> Marks {
        Marks {
            trail: self.trail_count as u16,
            live: self.live as u16,
            cells: self.cell_count as u16,
            nodes: index.node_count as u16,
            taken: self.taken,
        }
    }

    #[inline(always)]
    fn keep(&mut self, alternative: Alternative) {
        self.kept += 1;
        self.alternatives[self.kept & 1023] = alternative;
        self.older = alternative.marks.live;
    }

    #[inline(always)]
    fn undo(&mut self, trail: u16) {
        while self.trail_count > trail as usize {
            self.trail_count -= 1;
            self.slots[self.trail[self.trail_count & 2047] as usize] = 0;
        }
    }

    /// Enters candidates for the atom in hand until one unifies, and keeps the rest; its body is then in hand, or `NONE`.
    #[inline(always)]
    fn enter_some(&mut self, text: &Text, index: &mut Index, hand: &mut Hand, atom: Goal, mut node: u16, mut link: u16) -> Result<bool, Stop> {
        let marks = self.marks(index);
        let older = self.older;
        while link != NONE {
            let clause = text.clauses[link as usize];
            let (after_node, after) = if clause.next != NONE { (node, clause.next) } else { index.beyond(node, atom.b) };
            // With a candidate after this one all that is live is older than an alternative.
            self.older = if after == NONE { older } else { marks.live };
            if self.enter(text, index, *hand, atom, node, clause)? {
                if after != NONE {
                    self.keep(Alternative { hand: *hand, node: after_node, link: after, marks });
                }
                hand.goal = clause.body;
                hand.base = marks.live;
                return Ok(true);
            }
            self.undo(marks.trail);
            self.live = marks.live as u32;
            (node, link) = (after_node, after);
        }
        Ok(false)
    }

    /// Enters one clause and unifies its head with the atom in hand.
    #[inline(always)]
    fn enter(&mut self, text: &Text, index: &Index, hand: Hand, atom: Goal, node: u16, clause: Clause) -> Result<bool, Stop> {
        let base = self.live;
        self.unit(base + clause.variables as u32 > VARIABLES, Stop::Variables)?;
        self.live += clause.variables as u32;
        let mut opened = base;
        while opened < self.live {
            // Four at a time; what is past the live ones is opened before it is used.
            self.slots[opened as u16 as usize..][..4].copy_from_slice(&[0; 4]);
            opened += 4;
        }
        if clause.tie_count > 0 {
            let outer_base = index.nodes[node as usize & 1023].base as u32;
            for &(own, outer) in &text.ties[clause.ties as usize..(clause.ties + clause.tie_count) as usize] {
                // What the outer variable is read to now it stays as long as this entry.
                self.slots[base as usize + own as usize] = read(&self.slots, VARIABLE | (outer_base + outer as u32));
            }
        }
        if atom.count == 0 {
            return Ok(true);
        }
        self.unify(text, atom.a, hand.base as u32, clause.arguments, base, atom.count)
    }

    fn answer(&mut self, text: &Text, assumed: bool, wanted: u32, out: &mut [u8]) -> Result<(), Stop> {
        if self.left == 0 {
            return Err(Stop::Budget);
        }
        self.written += self.write(text, self.answers, &mut out[self.written..])?;
        self.left -= 1;
        self.answers += 1;
        self.assumed += assumed as u32;
        if self.answers == wanted {
            return Err(Stop::Enough);
        }
        Ok(())
    }
}
