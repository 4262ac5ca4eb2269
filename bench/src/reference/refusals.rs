//! Tests 3 to 7, each in the words of document 01's table.

type Records = [[u16; 8]];

/// "Tests run in this order, each over the whole book before the next; the reply names the lowest failing record"
pub fn refusal(records: &Records) -> Option<(u32, usize)> {
    let tests: [(u32, fn(&Records, usize) -> bool); 3] = [(3, bad_kind), (4, bad_field), (5, bad_target)];
    for (number, fails) in tests {
        for i in 0..records.len() {
            if fails(records, i) {
                return Some((number, i));
            }
        }
    }
    if let Some(i) = no_tree(records) {
        return Some((6, i));
    }
    let mut faults = Vec::new();
    let last = records[records.len() - 1];
    for link in last[1]..last[1] + last[2] {
        clause_scope(records, records[link as usize][1], None, &mut faults);
    }
    goal_scope(records, last[3], last[4], &mut faults);
    faults.into_iter().min().map(|record| (7, record as usize))
}

/// "kind not 1 to 10; last record not 10; 10 elsewhere"
fn bad_kind(records: &Records, i: usize) -> bool {
    let kind = records[i][0];
    kind < 1 || kind > 10 || (kind == 10) != (i == records.len() - 1)
}

/// What a field of a record may hold.
enum Field {
    Any,
    UpTo(u16),
    Flag,
    Pointer,
    /// A run's first record; its count is in the field named.
    First(usize),
    Body,
}

/// The listed fields of a kind, p1 first.
fn listed(kind: u16) -> &'static [Field] {
    use Field::*;
    match kind {
        1 => &[Any],
        2 | 4 => &[Any, UpTo(8), First(2)],
        3 => &[Pointer],
        5 | 6 => &[Pointer, Pointer],
        7 => &[First(2), UpTo(64), Pointer],
        8 => &[UpTo(64), First(3), UpTo(64), Pointer, Flag, Body],
        9 => &[Any, Any],
        _ => &[First(2), UpTo(1024), Pointer, UpTo(64)],
    }
}

/// "a value outside its range, an unlisted field not 0, or a pointer or run not wholly below its own record"
fn bad_field(records: &Records, i: usize) -> bool {
    let r = records[i];
    let fields = listed(r[0]);
    for p in 1..8 {
        let value = r[p] as usize;
        let bad = match fields.get(p - 1) {
            None => value != 0,
            Some(Field::Any) => false,
            Some(Field::UpTo(most)) => value > *most as usize,
            Some(Field::Flag) => value > 1,
            Some(Field::Pointer) => value >= i,
            Some(Field::First(count)) => match r[*count] as usize {
                0 => value != 0,
                count => value + count > i,
            },
            Some(Field::Body) => match r[5] {
                0 => value != 0,
                _ => value >= i,
            },
        };
        if bad {
            return true;
        }
    }
    r[0] == 7 && r[2] == 0
}

fn is_goal(records: &Records, i: u16) -> bool {
    (4..=7).contains(&records[i as usize][0])
}

/// Whether a run's records are links to records of the kinds named.
fn links_to(records: &Records, first: u16, count: u16, kinds: &[u16]) -> bool {
    (0..count).all(|k| {
        let link = records[(first + k) as usize];
        link[0] == 3 && kinds.contains(&records[link[1] as usize][0])
    })
}

/// "wrong kind pointed at: arguments are links to 1 or 2, clause runs are links to 8 (both reported at the run's owner), heads are 4, goals 4 to 7, ties 9"
fn bad_target(records: &Records, i: usize) -> bool {
    let r = records[i];
    let right = match r[0] {
        2 | 4 => links_to(records, r[3], r[2], &[1, 2]),
        5 | 6 => is_goal(records, r[1]) && is_goal(records, r[2]),
        7 => links_to(records, r[1], r[2], &[8]) && is_goal(records, r[3]),
        8 => {
            let ties = (0..r[3]).all(|k| records[(r[2] + k) as usize][0] == 9);
            ties && records[r[4] as usize][0] == 4 && (r[5] == 0 || is_goal(records, r[6]))
        }
        10 => links_to(records, r[1], r[2], &[8]) && is_goal(records, r[3]),
        _ => true,
    };
    !right
}

/// All that a record points at, runs included.
fn pointed(r: &[u16; 8]) -> Vec<u16> {
    let run = |first: u16, count: u16| (0..count).map(move |k| first + k);
    match r[0] {
        2 | 4 => run(r[3], r[2]).collect(),
        3 => vec![r[1]],
        5 | 6 => vec![r[1], r[2]],
        7 | 10 => run(r[1], r[2]).chain([r[3]]).collect(),
        8 if r[5] == 1 => run(r[2], r[3]).chain([r[4], r[6]]).collect(),
        8 => run(r[2], r[3]).chain([r[4]]).collect(),
        _ => vec![],
    }
}

/// "a record other than the last is not pointed at exactly once, runs included"
fn no_tree(records: &Records) -> Option<usize> {
    let mut all: Vec<u16> = records.iter().flat_map(pointed).collect();
    all.sort();
    let once = |i: usize| all.partition_point(|&p| p as usize <= i) - all.partition_point(|&p| (p as usize) < i) == 1;
    (0..records.len() - 1).find(|&i| !once(i))
}

fn argument_scope(records: &Records, first: u16, count: u16, n: u16, faults: &mut Vec<u16>) {
    for link in first..first + count {
        let i = records[link as usize][1];
        let r = records[i as usize];
        match r[0] {
            1 if r[1] >= n => faults.push(i),
            2 => argument_scope(records, r[3], r[2], n, faults),
            _ => {}
        }
    }
}

/// A goal in the text of a holder with n variables.
fn goal_scope(records: &Records, i: u16, n: u16, faults: &mut Vec<u16>) {
    let r = records[i as usize];
    match r[0] {
        4 => argument_scope(records, r[3], r[2], n, faults),
        5 | 6 => {
            goal_scope(records, r[1], n, faults);
            goal_scope(records, r[2], n, faults);
        }
        _ => {
            for link in r[1]..r[1] + r[2] {
                clause_scope(records, records[link as usize][1], Some(n), faults);
            }
            goal_scope(records, r[3], n, faults);
        }
    }
}

/// A clause; `outer` is the N of its suppose goal's holder, none for the question's own run.
fn clause_scope(records: &Records, i: u16, outer: Option<u16>, faults: &mut Vec<u16>) {
    let r = records[i as usize];
    let ties = r[2]..r[2] + r[3];
    for t in ties.clone() {
        let [_, own, out, ..] = records[t as usize];
        let mut earlier = (r[2]..t).map(|e| records[e as usize]);
        let own_repeated = earlier.clone().any(|e| e[1] == own);
        let outer_fault = match outer {
            Some(n) => out >= n || earlier.any(|e| e[2] == out),
            None => false,
        };
        if own >= r[1] || own_repeated || outer_fault {
            faults.push(t);
        }
    }
    if outer.is_none() && r[3] > 0 {
        faults.push(i);
    }
    goal_scope(records, r[4], r[1], faults);
    if r[5] == 1 {
        goal_scope(records, r[6], r[1], faults);
    }
}
