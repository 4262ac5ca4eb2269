//! Random calls: books of every shape, many of them damaged, with varied budgets, wanted and lengths.

mod damage;
mod dice;
mod texts;

pub use dice::Dice;

use crate::calls::Call;
use crate::WORDS;

/// The call of a seed.
pub fn call(seed: u64) -> Call {
    let dice = Dice::new(seed);
    let question = texts::question(&dice);
    let mut book = if dice.one_in(3) { question.book() } else { question.shuffled_book(&dice) };
    let mut call = Call {
        budget: budget(&dice),
        wanted: if dice.one_in(2) { 64 } else { 1 + dice.below(if dice.one_in(2) { 3 } else { 64 }) as u32 },
        words: WORDS,
        out_len: out_len(&dice),
        book: vec![],
    };
    if dice.one_in(3) {
        damage::book(&dice, &mut book);
    }
    call.book = book;
    if dice.one_in(40) {
        damage::room(&dice, &mut call);
    }
    call
}

fn budget(dice: &Dice) -> u32 {
    match dice.below(10) {
        0 => dice.below(8) as u32,
        1..=2 => dice.below(60) as u32,
        3..=4 => dice.below(1000) as u32,
        _ => 1000 + dice.below(9000) as u32,
    }
}

fn out_len(dice: &Dice) -> usize {
    8 * match dice.below(8) {
        0 => 0,
        1..=2 => dice.below(6),
        3 => dice.below(100),
        4 => 8192,
        _ => 512,
    }
}
