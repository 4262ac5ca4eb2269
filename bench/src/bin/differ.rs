//! Runs two engines on random calls and compares reply, every byte and every word.
//!
//! `differ [CALLS] [FIRST SEED]`: the plain engine against the proved one where its archive is linked, else against the reference.
//! `differ reference [CALLS] [FIRST SEED]`: against the reference always.

use std::env;
use std::process::ExitCode;
use std::time::Instant;
use whittermay_bench::calls::{show, Engine, Ran};
use whittermay_bench::{plain, random, reference, Reply};

fn other(by_reference: bool) -> (&'static str, Engine) {
    #[cfg(proved)]
    if !by_reference {
        return ("proved", whittermay_bench::proved::solve);
    }
    let _ = by_reference;
    ("reference", reference::solve)
}

#[derive(Default)]
struct Counts {
    refusals: [u64; 8],
    endings: [u64; 7],
    answers: u64,
    assumed: u64,
    units: u64,
}

impl Counts {
    fn add(&mut self, reply: &Reply) {
        if reply[0] > 0 {
            self.refusals[reply[0] as usize] += 1;
            return;
        }
        self.endings[reply[2] as usize] += 1;
        self.answers += reply[3] as u64;
        self.assumed += reply[4] as u64;
        self.units += reply[5] as u64;
    }

    fn print(&self) {
        let line = |counts: &[u64], first: usize| (first..counts.len()).map(|k| format!(" {k}: {}", counts[k])).collect::<Vec<_>>().join(",");
        println!("refusals{}", line(&self.refusals, 1));
        println!("endings{}", line(&self.endings, 0));
        println!("answers {}, assumed {}, units {}", self.answers, self.assumed, self.units);
    }
}

fn main() -> ExitCode {
    let mut words: Vec<String> = env::args().skip(1).collect();
    let by_reference = words.first().is_some_and(|w| w == "reference");
    if by_reference {
        words.remove(0);
    }
    let number = |k: usize, or: u64| words.get(k).map_or(or, |w| w.parse().expect("a number"));
    let (calls, first) = (number(0, 100_000), number(1, 1));
    let (name, engine) = other(by_reference);
    let (mut one, mut two) = (Ran::default(), Ran::default());
    let mut counts = Counts::default();
    let start = Instant::now();
    for seed in first..first + calls {
        let call = random::call(seed);
        one.again(plain::solve, &call);
        two.again(engine, &call);
        if let Some(difference) = one.difference(&two) {
            println!("plain and {name} differ at seed {seed}: {difference}\n{}", show(&call));
            return ExitCode::FAILURE;
        }
        counts.add(&one.reply);
    }
    println!("plain and {name}: {calls} calls from seed {first}, no difference, {:.1} s", start.elapsed().as_secs_f64());
    counts.print();
    ExitCode::SUCCESS
}
