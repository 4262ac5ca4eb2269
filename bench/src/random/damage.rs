//! Damage: to a book, aimed at one of the tests 2 to 7, and to what else a call takes, for test 1.

use super::Dice;
use crate::calls::Call;

pub fn room(dice: &Dice, call: &mut Call) {
    match dice.below(6) {
        0 => call.wanted = 0,
        1 => call.wanted = dice.of(&[65, 66, 1 << 16, u32::MAX]),
        2 => call.words = dice.of(&[0, 1, 16_383, 16_385, 32_768]),
        3 => call.out_len = dice.of(&[65_544, 65_537, 70_000]),
        _ => call.out_len += 1 + dice.below(7),
    }
}

pub fn book(dice: &Dice, book: &mut Vec<u8>) {
    for _ in 0..1 + dice.below(2) {
        let records = book.len() / 16;
        if records == 0 {
            return;
        }
        match dice.below(16) {
            0 => length(dice, book),
            1 => set(book, dice.below(records), 0, dice.below(12) as u16),
            2 => any_field(dice, book, records),
            3 => {
                let i = dice.below(records);
                let field = 1 + dice.below(7);
                let near = get(book, i, field).wrapping_add(dice.of(&[1, 1, 2, u16::MAX, u16::MAX - 1]));
                set(book, i, field, near);
            }
            4 => {
                let (i, j) = (dice.below(records), dice.below(records));
                for k in 0..16 {
                    book.swap(16 * i + k, 16 * j + k);
                }
            }
            5 => move_run(dice, book, records),
            6..=9 => pointer(dice, book, records),
            _ => scope(dice, book, records),
        }
    }
}

fn get(book: &[u8], record: usize, field: usize) -> u16 {
    let at = 16 * record + 2 * field;
    u16::from_le_bytes([book[at], book[at + 1]])
}

fn set(book: &mut [u8], record: usize, field: usize, value: u16) {
    let at = 16 * record + 2 * field;
    book[at..at + 2].copy_from_slice(&value.to_le_bytes());
}

fn length(dice: &Dice, book: &mut Vec<u8>) {
    match dice.below(5) {
        0 => book.clear(),
        1 => book.truncate(dice.below(book.len())),
        2 => book.resize(dice.of(&[65_552, 65_537, 70_000]), 0),
        3 => drop(book.drain(..16)),
        _ => {
            // Pointers past the repeated record are then off by one.
            let at = 16 * dice.below(book.len() / 16);
            let again: Vec<u8> = book[at..at + 16].to_vec();
            book.splice(at..at, again);
        }
    }
}

fn any_field(dice: &Dice, book: &mut [u8], records: usize) {
    let value = match dice.below(4) {
        0 => dice.next() as u16,
        1 => dice.below(records + 2) as u16,
        2 => dice.of(&[8, 9, 63, 64, 65, 1024, 1025, 65_535]),
        _ => dice.below(4) as u16,
    };
    set(book, dice.below(records), 1 + dice.below(7), value);
}

/// The fields of a kind that point, a run's first included.
fn pointing(kind: u16) -> &'static [usize] {
    match kind {
        2 | 4 => &[3],
        3 => &[1],
        5 | 6 => &[1, 2],
        7 | 10 => &[1, 3],
        8 => &[2, 4, 6],
        _ => &[],
    }
}

/// A pointer that points at some other lower record, of the same kind now and then.
fn pointer(dice: &Dice, book: &mut [u8], records: usize) {
    for _ in 0..20 {
        let i = dice.below(records);
        let fields = pointing(get(book, i, 0));
        if i == 0 || fields.is_empty() {
            continue;
        }
        let field = dice.of(fields);
        let old = get(book, i, field) as usize;
        let new = dice.below(i);
        let alike = old < records && get(book, old, 0) == get(book, new, 0);
        if alike || dice.one_in(4) {
            set(book, i, field, new as u16);
            return;
        }
    }
}

/// A run that begins a record off.
fn move_run(dice: &Dice, book: &mut [u8], records: usize) {
    for _ in 0..20 {
        let i = dice.below(records);
        let (first, count) = match get(book, i, 0) {
            2 | 4 => (3, 2),
            7 | 10 => (1, 2),
            8 => (2, 3),
            _ => continue,
        };
        if get(book, i, count) > 0 {
            let field = if dice.one_in(2) { first } else { count };
            let change = if dice.one_in(2) { 1 } else { u16::MAX };
            set(book, i, field, get(book, i, field).wrapping_add(change));
            return;
        }
    }
}

/// An offset too high or a holder with too few variables.
fn scope(dice: &Dice, book: &mut [u8], records: usize) {
    for _ in 0..20 {
        let i = dice.below(records);
        let field = match get(book, i, 0) {
            1 | 8 => 1,
            9 => 1 + dice.below(2),
            10 => 4,
            _ => continue,
        };
        let old = get(book, i, field);
        let new = match get(book, i, 0) {
            1 | 9 => dice.of(&[old + 1, old + 2, old.wrapping_sub(1), 63, 64, 65, 1000, 0, 1]),
            _ => dice.of(&[old.saturating_sub(1), old / 2, 0]),
        };
        set(book, i, field, new);
        return;
    }
}
