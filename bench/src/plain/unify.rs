//! Unifying and looking, a unit at a time. A list of pairs or terms is kept as a stack of argument runs of which some are left.

use super::run::{Machine, Stop};
use super::text::{Text, PLACES, RECORD, VARIABLE};

/// What is left of an argument run that waits: from a link up to another, and the base of its variables; and how many terms wait in this run and
/// in all below it on the stack. Place 0 of a stack is no run, and none wait there.
#[derive(Clone, Copy, Default)]
pub struct Rest {
    pub link: u16,
    pub end: u16,
    pub base: u16,
    pub waiting: u16,
}

/// The same of the argument runs of a pair of terms, as many of the second being left as of the first.
#[derive(Clone, Copy, Default)]
pub struct Pairs {
    first: Rest,
    second: u16,
    second_base: u16,
}

/// The most that a list may hold.
pub const LIST: u32 = 256;

/// As long as fewer runs wait than this, with at most seven terms left in each and in the one in hand, no term is too many.
const FEW: usize = 34;

pub type Slots = [u32; PLACES];

/// Reads a term in hand through the bindings.
#[inline(always)]
pub fn read(slots: &Slots, mut term: u32) -> u32 {
    while term & VARIABLE != 0 {
        let to = slots[term as u16 as usize];
        if to == 0 {
            break;
        }
        term = to;
    }
    term
}

/// What a look has to say.
enum Seen {
    Free,
    Found,
    Stopped(Stop),
}

impl Machine {
    #[inline(always)]
    fn bind(&mut self, variable: u32, to: u32) {
        let number = variable as u16;
        self.slots[number as usize] = to;
        if number < self.older {
            self.trail[self.trail_count & 2047] = number;
            self.trail_count += 1;
        }
    }

    /// Unifies the arguments of an atom, from `first` on, and of a head. `Ok(false)` is failure.
    #[inline(never)]
    pub fn unify(&mut self, text: &Text, first: u16, mut first_base: u32, second: u16, mut second_base: u32, count: u16) -> Result<bool, Stop> {
        let (mut first, mut second) = (first as usize, second as usize);
        let mut end = first + count as usize;
        let mut depth = 0;
        let mut left = self.left;
        let result = loop {
            if first == end {
                if depth == 0 {
                    break Ok(true);
                }
                let kept = self.pairs[depth & 255];
                depth -= 1;
                (first, end, first_base) = (kept.first.link as usize, kept.first.end as usize, kept.first.base as u32);
                (second, second_base) = (kept.second as usize, kept.second_base as u32);
            }
            let x = read(&self.slots, text.links[first % PLACES] + first_base);
            let y = read(&self.slots, text.links[second % PLACES] + second_base);
            first += 1;
            second += 1;
            let Some(paid) = left.checked_sub(1) else {
                break Err(Stop::Budget);
            };
            if (x | y) & VARIABLE == 0 {
                let (s, t) = (text.terms[(x / RECORD) as usize], text.terms[(y / RECORD) as usize]);
                if s.symbol != t.symbol {
                    left = paid;
                    break Ok(false);
                }
                let count = s.count();
                if count > 0 {
                    if depth >= FEW && self.pairs[depth & 255].first.waiting as u32 + (end - first) as u32 + count > LIST {
                        break Err(Stop::List);
                    }
                    if first != end {
                        let waiting = self.pairs[depth & 255].first.waiting + (end - first) as u16;
                        let rest = Rest { link: first as u16, end: end as u16, base: first_base as u16, waiting };
                        depth += 1;
                        self.pairs[depth & 255] = Pairs { first: rest, second: second as u16, second_base: second_base as u16 };
                    }
                    (first, first_base) = (s.arguments as usize, x % RECORD);
                    (second, second_base) = (t.arguments as usize, y % RECORD);
                    end = first + count as usize;
                }
                left = paid;
                continue;
            }
            left = paid;
            if x & y & VARIABLE != 0 {
                if x > y {
                    self.bind(x, y);
                } else if y > x {
                    self.bind(y, x);
                }
                continue;
            }
            // As words every variable is above every term.
            let (variable, term) = if x > y { (x, y) } else { (y, x) };
            match look(&self.slots, text, &mut self.looks, &mut left, variable, term) {
                Seen::Free => self.bind(variable, term),
                Seen::Found => break Ok(false),
                Seen::Stopped(stop) => break Err(stop),
            }
        };
        self.left = left;
        result
    }
}

/// Looks for a variable in a term.
#[inline(always)]
fn look(slots: &Slots, text: &Text, rests: &mut [Rest; 256], left: &mut u32, variable: u32, term: u32) -> Seen {
    let t = text.terms[(term / RECORD) as usize];
    let Some(paid) = left.checked_sub(1) else {
        return Seen::Stopped(Stop::Budget);
    };
    *left = paid;
    if t.count() == 0 {
        return Seen::Free;
    }
    look_below(slots, text, rests, left, variable, t.arguments as usize, t.count() as usize, term % RECORD)
}

/// Looks for a variable in the arguments of a term.
#[inline(never)]
#[allow(clippy::too_many_arguments)]
fn look_below(
    slots: &Slots,
    text: &Text,
    rests: &mut [Rest; 256],
    budget: &mut u32,
    variable: u32,
    mut link: usize,
    count: usize,
    mut base: u32,
) -> Seen {
    let mut left = *budget;
    let mut end = link + count;
    let mut depth = 0;
    let seen = loop {
        if link == end {
            if depth == 0 {
                break Seen::Free;
            }
            let kept = rests[depth & 255];
            depth -= 1;
            (link, end, base) = (kept.link as usize, kept.end as usize, kept.base as u32);
        }
        let term = read(slots, text.links[link % PLACES] + base);
        link += 1;
        let Some(paid) = left.checked_sub(1) else {
            break Seen::Stopped(Stop::Budget);
        };
        if term & VARIABLE != 0 {
            left = paid;
            if term == variable {
                break Seen::Found;
            }
            continue;
        }
        let t = text.terms[(term / RECORD) as usize];
        let count = t.count() as usize;
        if count > 0 {
            if depth >= FEW && rests[depth & 255].waiting as usize + (end - link) + count > LIST as usize {
                break Seen::Stopped(Stop::List);
            }
            if link != end {
                let waiting = rests[depth & 255].waiting + (end - link) as u16;
                depth += 1;
                rests[depth & 255] = Rest { link: link as u16, end: end as u16, base: base as u16, waiting };
            }
            (link, base) = (t.arguments as usize, term % RECORD);
            end = link + count;
        }
        left = paid;
    };
    *budget = left;
    seen
}
