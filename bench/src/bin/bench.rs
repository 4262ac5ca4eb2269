//! Times the plain and the proved engine in one process on the same calls.
//!
//! `bench [PART OF A ROW'S NAME]` prints the table. For an instruction counter `bench calls N ENGINE ROW` only makes N calls of one engine on one row,
//! `bench names` prints the rows' names and units, and `bench engines` the engines that are linked.

use std::env;
use std::hint::black_box;
use whittermay_bench::calls::Engine;
use whittermay_bench::made::{rows, Row};
use whittermay_bench::{clock, plain, Reply, WORDS};

const BUDGET: u32 = 1_000_000_000;
const WANTED: u32 = 64;
/// What one measurement takes at least, and how many are made of each engine, in turn.
const SECONDS: f64 = 0.1;
const ROUNDS: usize = 21;

struct Buffers {
    workspace: Vec<u32>,
    out: Vec<u8>,
}

fn once(engine: Engine, row: &Row, buffers: &mut Buffers) -> Reply {
    engine(black_box(&row.book), BUDGET, WANTED, &mut buffers.workspace, &mut buffers.out)
}

/// Seconds of processor time for so many calls.
fn timed(engine: Engine, row: &Row, buffers: &mut Buffers, calls: u32) -> f64 {
    let start = clock::seconds();
    for _ in 0..calls {
        black_box(once(engine, row, buffers));
    }
    clock::seconds() - start
}

fn engines() -> Vec<(&'static str, Engine)> {
    vec![
        ("plain", plain::solve),
        #[cfg(proved)]
        ("proved", whittermay_bench::proved::solve),
    ]
}

/// Nanoseconds a call, the best of the rounds, for each engine.
fn measure(row: &Row, buffers: &mut Buffers) -> Vec<f64> {
    let engines = engines();
    let calls: Vec<u32> = engines
        .iter()
        .map(|(_, e)| {
            let mut calls = 1;
            while timed(*e, row, buffers, calls) < SECONDS {
                calls *= 2;
            }
            calls
        })
        .collect();
    let mut best = vec![f64::INFINITY; engines.len()];
    for _ in 0..ROUNDS {
        for (k, (_, e)) in engines.iter().enumerate() {
            let each = timed(*e, row, buffers, calls[k]) / calls[k] as f64;
            best[k] = best[k].min(each * 1e9);
        }
    }
    best
}

fn table(part: &str) {
    let mut buffers = Buffers { workspace: vec![0; WORDS], out: vec![0; 4096] };
    println!(
        "Both buffers are zero before every call, as the call before leaves them; the engines clear what they promise to clear, in their own time."
    );
    println!("Nanoseconds a unit (of a refused book: a call), tests and clearing included.\n");
    println!("| row | units | plain | proved | plain / proved |\n|---|---|---|---|---|");
    for row in rows().iter().filter(|r| r.name.contains(part)) {
        let reply = once(plain::solve, row, &mut buffers);
        for (name, e) in engines() {
            assert_eq!(once(e, row, &mut buffers), reply, "{name} on {}", row.name);
        }
        let units = reply[5];
        let per = |call: f64| call / units.max(1) as f64;
        let best = measure(row, &mut buffers);
        let proved = best.get(1).map_or("-".to_string(), |&b| format!("{:.2}", per(b)));
        let ratio = best.get(1).map_or("-".to_string(), |&b| format!("{:.2}", best[0] / b));
        println!("| {} | {units} | {:.2} | {proved} | {ratio} |", row.name, per(best[0]));
    }
}

fn main() {
    let words: Vec<String> = env::args().skip(1).collect();
    if let [calls, count, engine, row] = &words[..] {
        assert_eq!(calls, "calls");
        let rows = rows();
        let row = rows.iter().find(|r| r.name == row).expect("a row's name");
        let engine = engines().into_iter().find(|(name, _)| name == engine).expect("plain, or proved where it is linked").1;
        let mut buffers = Buffers { workspace: vec![0; WORDS], out: vec![0; 4096] };
        timed(engine, row, &mut buffers, count.parse().expect("a number"));
        return;
    }
    if words == ["names"] {
        let mut buffers = Buffers { workspace: vec![0; WORDS], out: vec![0; 4096] };
        for row in rows() {
            println!("{}\t{}", row.name, once(plain::solve, &row, &mut buffers)[5]);
        }
        return;
    }
    if words == ["engines"] {
        engines().iter().for_each(|(name, _)| println!("{name}"));
        return;
    }
    table(words.first().map_or("", |w| w));
}
