//! Programs and their candidates: predicates get numbers, every clause run an index by them, and a memo keeps which
//! supposition of a program is the nearest with clauses of a predicate.

use super::text::{zero, Text, PLACES};
use super::{Record, NONE};

/// A supposition in force: its run, the base of the suppose goal's holder, and the program before it. Node 0 is the question's own run.
#[derive(Clone, Copy, Default)]
pub struct Node {
    pub run: u16,
    pub base: u16,
    pub below: u16,
    /// Given once in a call, so that a memo of a node gone back from is never taken for the new one's.
    stamp: u32,
    /// A bit for every predicate supposed here or below, the number taken modulo 64.
    predicates: u64,
}

#[derive(Clone, Copy, Default)]
struct Memo {
    stamp: u32,
    predicate: u16,
    node: u16,
}

const HASHED: usize = 8192;
const MEMOS: usize = 2048;

pub struct Index {
    /// Predicate numbers by symbol and argument count: open addressing, the symbols one up.
    symbols: Box<[u32; HASHED]>,
    numbers: Box<[u16; HASHED]>,
    symbol_places: Vec<u16>,
    /// By predicate: the first link of the question's run; whether a suppose goal has a clause of it.
    first: Box<[u16; PLACES]>,
    supposed: Box<[bool; PLACES]>,
    count: usize,
    /// First links by supposed run and predicate: open addressing.
    keys: Box<[u32; HASHED]>,
    firsts: Box<[u16; HASHED]>,
    key_places: Vec<u16>,
    runs: usize,
    run_predicates: Box<[u64; 2048]>,
    memos: Box<[Memo; MEMOS]>,
    pub nodes: Box<[Node; 1024]>,
    pub node_count: usize,
    stamps: u32,
}

impl Default for Index {
    fn default() -> Index {
        Index {
            symbols: zero(0),
            numbers: zero(0),
            symbol_places: Vec::with_capacity(4096),
            first: zero(NONE),
            supposed: zero(false),
            count: 0,
            keys: zero(0),
            firsts: zero(0),
            key_places: Vec::with_capacity(4096),
            runs: 0,
            run_predicates: zero(0),
            memos: zero(Memo::default()),
            nodes: zero(Node::default()),
            node_count: 1,
            stamps: 0,
        }
    }
}

fn run_key(run: u16, predicate: u16) -> u32 {
    1 << 31 | (run as u32) << 12 | predicate as u32
}

fn hashed(key: u32) -> usize {
    (key.wrapping_mul(0x9E37_79B1) >> 19) as usize
}

fn memo_place(stamp: u32, predicate: u16) -> usize {
    stamp.wrapping_add((predicate as u32).wrapping_mul(0x9E37)) as usize % MEMOS
}

impl Index {
    pub fn build(&mut self, records: &[Record], text: &mut Text) {
        self.clear();
        for (i, r) in records.iter().enumerate() {
            if let [4, symbol, count, ..] = *r {
                text.goals[i].b = self.predicate((symbol as u32) << 4 | count as u32);
            }
        }
        for (i, r) in records.iter().enumerate() {
            let head = |text: &Text, link: usize| text.goals[records[records[link][1] as usize][4] as usize].b;
            match *r {
                [7, first, count, ..] => {
                    let run = self.runs as u16;
                    self.runs += 1;
                    text.goals[i].b = run;
                    for link in (first..first + count).rev() {
                        let first = self.run_first(run, head(text, link as usize));
                        text.clauses[link as usize].next = std::mem::replace(first, link);
                    }
                }
                [10, first, count, ..] => {
                    for link in (first..first + count).rev() {
                        let p = head(text, link as usize) as usize;
                        text.clauses[link as usize].next = std::mem::replace(&mut self.first[p], link);
                    }
                }
                _ => {}
            }
        }
    }

    /// Clears what the last book used.
    fn clear(&mut self) {
        for at in self.symbol_places.drain(..) {
            self.symbols[at as usize] = 0;
        }
        for at in self.key_places.drain(..) {
            self.keys[at as usize] = 0;
        }
        self.first[..self.count].fill(NONE);
        self.supposed[..self.count].fill(false);
        if self.runs > 0 {
            self.memos.fill(Memo::default());
        }
        self.run_predicates[..self.runs].fill(0);
        self.count = 0;
        self.runs = 0;
        self.node_count = 1;
        self.stamps = 0;
    }

    fn predicate(&mut self, symbol: u32) -> u16 {
        let mut at = hashed(symbol);
        while self.symbols[at] != 0 {
            if self.symbols[at] == symbol + 1 {
                return self.numbers[at];
            }
            at = (at + 1) % HASHED;
        }
        self.symbols[at] = symbol + 1;
        self.symbol_places.push(at as u16);
        self.numbers[at] = self.count as u16;
        self.count += 1;
        self.numbers[at]
    }

    /// Where the first link of a run and predicate stands, or would stand.
    fn run_place(&self, run: u16, predicate: u16) -> usize {
        let key = run_key(run, predicate);
        let mut at = hashed(key);
        while self.keys[at] != 0 && self.keys[at] != key {
            at = (at + 1) % HASHED;
        }
        at
    }

    /// The first link of a run and predicate, to be set while the index is built.
    fn run_first(&mut self, run: u16, predicate: u16) -> &mut u16 {
        self.supposed[predicate as usize] = true;
        self.run_predicates[run as usize] |= 1 << (predicate % 64);
        let at = self.run_place(run, predicate);
        if self.keys[at] == 0 {
            self.keys[at] = run_key(run, predicate);
            self.firsts[at] = NONE;
            self.key_places.push(at as u16);
        }
        &mut self.firsts[at]
    }

    /// Puts a run before a program.
    #[inline(always)]
    pub fn suppose(&mut self, run: u16, base: u16, below: u16) -> u16 {
        self.stamps += 1;
        let predicates = self.nodes[below as usize & 1023].predicates | self.run_predicates[run as usize & 2047];
        let new = self.node_count;
        self.nodes[new & 1023] = Node { run, base, below, stamp: self.stamps, predicates };
        self.node_count += 1;
        new as u16
    }

    /// The first candidate of a program: its node and link, or the link `NONE`.
    #[inline(always)]
    pub fn candidate(&mut self, program: u16, predicate: u16) -> (u16, u16) {
        if program != 0 && self.supposed[predicate as usize] {
            return self.supposed_candidate(program, predicate);
        }
        (0, self.first[predicate as usize])
    }

    /// The candidate after the last one of a node's run.
    #[inline(always)]
    pub fn beyond(&mut self, node: u16, predicate: u16) -> (u16, u16) {
        if node == 0 {
            return (0, NONE);
        }
        self.candidate(self.nodes[node as usize & 1023].below, predicate)
    }

    fn supposed_candidate(&mut self, program: u16, predicate: u16) -> (u16, u16) {
        let bit = 1u64 << (predicate % 64);
        if self.nodes[program as usize].predicates & bit == 0 {
            return (0, self.first[predicate as usize]);
        }
        let mut node = program;
        let link = loop {
            let n = self.nodes[node as usize];
            if n.predicates & bit == 0 {
                node = 0;
                break self.first[predicate as usize];
            }
            if self.run_predicates[n.run as usize] & bit != 0 {
                let at = self.run_place(n.run, predicate);
                if self.keys[at] != 0 {
                    break self.firsts[at];
                }
            }
            let memo = self.memos[memo_place(n.stamp, predicate)];
            node = if memo.stamp == n.stamp && memo.predicate == predicate { memo.node } else { n.below };
        };
        self.remember(program, node, predicate);
        (node, link)
    }

    /// Keeps which node was found for those passed on the way to it.
    fn remember(&mut self, program: u16, node: u16, predicate: u16) {
        let mut from = program;
        while from != node && from != 0 {
            let n = self.nodes[from as usize];
            let memo = &mut self.memos[memo_place(n.stamp, predicate)];
            if memo.stamp == n.stamp && memo.predicate == predicate {
                break;
            }
            *memo = Memo { stamp: n.stamp, predicate, node };
            from = n.below;
        }
    }
}
