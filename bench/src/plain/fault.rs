//! Tests 3 to 7 of document 01.

use super::Record;

/// The number of the first test that fails, and the lowest record at fault.
pub fn first(records: &[Record], marks: &mut Vec<u16>) -> Option<(u32, usize)> {
    marks.clear();
    marks.resize(records.len(), 0);
    by_record(records, marks)
        .or_else(|| marks[..records.len() - 1].iter().position(|&times| times != 1).map(|i| (6, i)))
        .or_else(|| out_of_scope(records, marks).map(|i| (7, i)))
}

/// Tests 3 to 5 in one pass, upward: a fault of test 4 or 5 waits for the end, since a later record may fail an earlier test. Where all
/// hold, every record's mark is the number of times that it is pointed at.
fn by_record(records: &[Record], times: &mut [u16]) -> Option<(u32, usize)> {
    let last = records.len() - 1;
    let mut fault = None;
    for (i, r) in records.iter().enumerate() {
        if (r[0] == 10) != (i == last) || r[0].wrapping_sub(1) >= 10 {
            return Some((3, i));
        }
        let fails = match fault {
            Some((4, _)) => 0,
            _ => fault_of(&records[..i], r, times),
        };
        if fails == 4 || fails == 5 && fault.is_none() {
            fault = Some((fails, i));
        }
    }
    fault
}

/// The first of the tests 4 and 5 that a record fails, or 0; counts what it points at.
fn fault_of(below: &[Record], r: &Record, times: &mut [u16]) -> u32 {
    let zero = |from: usize| r[from..].iter().fold(0, |all, p| all | p) == 0;
    let upper_zero = || zero(4);
    let lower = |p: u16| (p as usize) < below.len();
    let run_lower = |first: u16, count: u16| first as usize + count as usize <= below.len() && (count > 0 || first == 0);
    let (fields, targets) = match r[0] {
        1 => (r[2] | r[3] == 0 && upper_zero(), true),
        2 | 4 => {
            let fields = r[2] <= 8 && run_lower(r[3], r[2]) && upper_zero();
            (fields, fields && links_hold(below, r[3], r[2], times, |kind| kind <= 2))
        }
        3 => {
            let fields = lower(r[1]) && r[2] | r[3] == 0 && upper_zero();
            if fields {
                times[r[1] as usize] += 1;
            }
            (fields, true)
        }
        5 | 6 => {
            let fields = lower(r[1]) && lower(r[2]) && r[3] == 0 && upper_zero();
            (fields, fields && goal_holds(below, r[1], times) && goal_holds(below, r[2], times))
        }
        7 => {
            let fields = r[2] != 0 && r[2] <= 64 && run_lower(r[1], r[2]) && lower(r[3]) && upper_zero();
            (fields, fields && links_hold(below, r[1], r[2], times, |kind| kind == 8) && goal_holds(below, r[3], times))
        }
        8 => {
            let body = if r[5] == 0 { r[6] == 0 } else { r[5] == 1 && lower(r[6]) };
            let fields = r[1] <= 64 && r[3] <= 64 && run_lower(r[2], r[3]) && lower(r[4]) && body && r[7] == 0;
            (fields, fields && clause_holds(below, r, times))
        }
        9 => (r[3] == 0 && upper_zero(), true),
        _ => {
            let fields = r[2] <= 1024 && run_lower(r[1], r[2]) && lower(r[3]) && r[4] <= 64 && zero(5);
            (fields, fields && links_hold(below, r[1], r[2], times, |kind| kind == 8) && goal_holds(below, r[3], times))
        }
    };
    if !fields {
        4
    } else if !targets {
        5
    } else {
        0
    }
}

fn run(records: &[Record], first: u16, count: u16) -> &[Record] {
    &records[first as usize..first as usize + count as usize]
}

#[inline(always)]
fn links_hold(below: &[Record], first: u16, count: u16, times: &mut [u16], wanted: impl Fn(u16) -> bool) -> bool {
    run(below, first, count).iter().zip(&mut times[first as usize..]).all(|(link, times)| {
        *times += 1;
        link[0] == 3 && wanted(below[link[1] as usize][0])
    })
}

#[inline(always)]
fn goal_holds(below: &[Record], goal: u16, times: &mut [u16]) -> bool {
    times[goal as usize] += 1;
    (4..=7).contains(&below[goal as usize][0])
}

fn clause_holds(below: &[Record], r: &Record, times: &mut [u16]) -> bool {
    let ties = run(below, r[2], r[3]).iter().zip(&mut times[r[2] as usize..]).all(|(tie, times)| {
        *times += 1;
        tie[0] == 9
    });
    times[r[4] as usize] += 1;
    ties && below[r[4] as usize][0] == 4 && (r[5] == 0 || goal_holds(below, r[6], times))
}

/// Marks a clause of the question's own run, beside the number of its outer holder.
const OWN: u16 = 0x8000;

/// Scope, from the question down: every record is met after the one record that points at it, which has left the holder's number for it.
fn out_of_scope(records: &[Record], holder: &mut [u16]) -> Option<usize> {
    let last = records.len() - 1;
    let mut lowest = usize::MAX;
    holder[last] = last as u16;
    for (i, r) in records.iter().enumerate().rev() {
        let h = holder[i];
        match *r {
            [1, offset, ..] if offset >= variables(&records[h as usize]) => lowest = lowest.min(i),
            [2 | 4, _, count, first, ..] => pass(records, holder, first, count, h),
            [5 | 6, left, right, ..] => {
                holder[left as usize] = h;
                holder[right as usize] = h;
            }
            [7, first, count, goal, ..] => {
                pass(records, holder, first, count, h);
                holder[goal as usize] = h;
            }
            [8, _, _, ties, head, flag, body, _] => {
                holder[head as usize] = i as u16;
                if flag == 1 {
                    holder[body as usize] = i as u16;
                }
                if ties > 0 {
                    let outer = if h & OWN == 0 { Some(variables(&records[h as usize])) } else { None };
                    let at = tie_fault(records, r, outer).unwrap_or(if outer.is_none() { i } else { usize::MAX });
                    lowest = lowest.min(at);
                }
            }
            [10, first, count, goal, ..] => {
                pass(records, holder, first, count, h | OWN);
                holder[goal as usize] = h;
            }
            _ => {}
        }
    }
    (lowest <= last).then_some(lowest)
}

/// A holder's N.
fn variables(holder: &Record) -> u16 {
    if holder[0] == 8 {
        holder[1]
    } else {
        holder[4]
    }
}

/// Leaves the holder for what the links of a run point at.
fn pass(records: &[Record], holder: &mut [u16], first: u16, count: u16, h: u16) {
    for link in run(records, first, count) {
        holder[link[1] as usize] = h;
    }
}

/// The lowest tie of a clause at fault; with no outer bound nothing of the outer side is tested.
fn tie_fault(records: &[Record], clause: &Record, outer: Option<u16>) -> Option<usize> {
    let (mut owns, mut outers) = (0u64, 0u64);
    for (k, tie) in run(records, clause[2], clause[3]).iter().enumerate() {
        let outside = outer.is_some_and(|n| tie[2] >= n);
        if tie[1] >= clause[1] || outside || owns >> tie[1] & 1 == 1 || outer.is_some() && outers >> tie[2] & 1 == 1 {
            return Some(clause[2] as usize + k);
        }
        owns |= 1 << tie[1];
        if outer.is_some() {
            outers |= 1 << tie[2];
        }
    }
    None
}
