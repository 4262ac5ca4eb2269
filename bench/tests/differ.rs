//! The plain engine against the reference on a few thousand random calls; `differ` does many more.

use whittermay_bench::calls::{show, Ran};
use whittermay_bench::{plain, random, reference};

#[test]
fn plain_and_reference_agree() {
    let (mut one, mut two) = (Ran::default(), Ran::default());
    for seed in 0..3_000 {
        let call = random::call(seed);
        one.again(plain::solve, &call);
        two.again(reference::solve, &call);
        if let Some(difference) = one.difference(&two) {
            panic!("seed {seed}: {difference}\n{}", show(&call));
        }
    }
}
