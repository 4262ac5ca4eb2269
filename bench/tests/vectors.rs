//! Every vector, by both plain engines: reply, every byte, every word.

use whittermay_bench::calls::{Call, Engine, Ran, BYTE_BEFORE, WORD_BEFORE};
use whittermay_bench::{plain, reference, Reply, WORDS};

struct Vector {
    call: Call,
    reply: Reply,
    used: Vec<u8>,
}

fn vectors() -> Vec<Vector> {
    let bytes = include_bytes!("../data/base.bin");
    let (mut at, mut all) = (0, Vec::new());
    while at < bytes.len() {
        let n: Vec<u32> = bytes[at..at + 40].chunks(4).map(|b| u32::from_le_bytes(b.try_into().unwrap())).collect();
        let (book, used) = (at + 40, at + 40 + n[0] as usize);
        at = used + n[9] as usize;
        let reply = if n[4] == 0 { [n[5], n[6], 0, 0, 0, 0] } else { [0, 0, n[5], n[6], n[7], n[8]] };
        let call = Call { book: bytes[book..used].to_vec(), budget: n[2], wanted: n[1], words: WORDS, out_len: n[3] as usize };
        all.push(Vector { call, reply, used: bytes[used..at].to_vec() });
    }
    all
}

fn check(engine: Engine) {
    let mut ran = Ran::default();
    let all = vectors();
    assert_eq!(all.len(), 1134);
    for (i, v) in all.iter().enumerate() {
        ran.again(engine, &v.call);
        assert_eq!(ran.reply, v.reply, "reply of vector {i}");
        let refused = v.reply[0] != 0;
        let rest = if refused { BYTE_BEFORE } else { 0 };
        assert_eq!(ran.out[..v.used.len()], v.used, "bytes of vector {i}");
        assert!(ran.out[v.used.len()..].iter().all(|&b| b == rest), "rest of the bytes of vector {i}");
        let word = if v.reply[0] == 1 { WORD_BEFORE } else { 0 };
        assert!(ran.workspace.iter().all(|&w| w == word), "words of vector {i}");
    }
}

#[test]
fn plain_gives_every_vector() {
    check(plain::solve);
}

#[test]
fn reference_gives_every_vector() {
    check(reference::solve);
}

#[cfg(proved)]
#[test]
fn proved_gives_every_vector() {
    check(whittermay_bench::proved::solve);
}
