//! Document 01 twice more, apart from the proved engine: `plain`, written for speed, and `reference`, written to be read beside the document;
//! random books to compare them on; and the books of the benchmarks.

pub mod calls;
pub mod clock;
pub mod layout;
pub mod made;
pub mod plain;
#[cfg(proved)]
pub mod proved;
pub mod random;
pub mod reference;

/// Words of the workspace that a call must bring.
pub const WORDS: usize = 16_384;

/// Refusal number or 0, record, ending, answers, assumed, units.
pub type Reply = [u32; 6];
