//! What several tests use.
#![allow(
    dead_code,
    clippy::arithmetic_side_effects,
    clippy::indexing_slicing,
    clippy::unwrap_used
)]

use lidrumak::{root_attach, Answer, Outcome, Outcomes, Reply, Store, TransferError};

/// The outcomes of a bench start.
pub const SAMPLE: &[u8] = include_bytes!("../../../samples/bench_start.outcomes");

/// Splitmix64.
pub struct Random(pub u64);

impl Random {
    pub fn number(&mut self) -> u64 {
        self.0 = self.0.wrapping_add(0x9e37_79b9_7f4a_7c15);
        let mut mixed = self.0;
        mixed = (mixed ^ (mixed >> 30)).wrapping_mul(0xbf58_476d_1ce4_e5b9);
        mixed = (mixed ^ (mixed >> 27)).wrapping_mul(0x94d0_49bb_1331_11eb);
        mixed ^ (mixed >> 31)
    }

    pub fn below(&mut self, bound: usize) -> usize {
        (self.number() % bound as u64) as usize
    }

    /// So many bytes below a bound of 1 to 256.
    pub fn bytes(&mut self, length: usize, bound: usize) -> Vec<u8> {
        (0..length).map(|_| self.below(bound) as u8).collect()
    }
}

/// The store, the log and the reply of the bench start.
pub fn bench_start() -> (Box<Store>, Vec<u8>, Reply) {
    let mut store = Box::new(Store::new());
    let mut log = vec![0; 4096];
    let old = Store::EMPTY;
    let reply = root_attach(old.as_bytes(), store.as_bytes_mut(), SAMPLE, &mut log, 0);
    (store, log, reply)
}

/// Outcomes that succeed and bring these data.
pub fn gives(data: &[&[u8]]) -> Vec<u8> {
    let mut buffer = vec![0; 65_536];
    let mut outcomes = Outcomes::new(&mut buffer);
    for data in data {
        outcomes.push(Outcome::done(data)).unwrap();
    }
    outcomes.as_bytes().to_vec()
}

/// One outcome.
pub fn outcome(submit: Answer, error: TransferError) -> Vec<u8> {
    let mut buffer = [0; 4];
    let mut outcomes = Outcomes::new(&mut buffer);
    let outcome = Outcome {
        submit,
        error,
        data: &[],
    };
    outcomes.push(outcome).unwrap();
    outcomes.as_bytes().to_vec()
}
