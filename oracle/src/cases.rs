//! The files that are compared: the systematic ones, then random ones.

use crate::drawn;
use crate::random::Random;
use crate::systematic;

/// One input, and what it is about.
pub struct Case {
    pub about: String,
    pub bytes: Vec<u8>,
}

impl Case {
    pub fn new(about: impl Into<String>, bytes: Vec<u8>) -> Case {
        Case { about: about.into(), bytes }
    }
}

/// All cases of a seed, with `count` random ones.
pub fn all(seed: u64, count: usize) -> Vec<Case> {
    let mut random = Random::new(seed);
    let mut cases = systematic::cases(&mut random);
    for i in 1..=count {
        let bytes = drawn::file(&mut random);
        cases.push(Case::new(format!("random file {i}"), bytes));
    }
    cases
}
