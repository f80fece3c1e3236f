//! Times from many rounds, in each of which every contestant has its turn.

use crate::cases::Case;
use crate::contestants::{batch, Lent, BATCH, CONTESTANTS};

/// Nanoseconds of one call: 10th percentile, median, 90th percentile.
#[derive(Clone, Copy)]
pub struct Spread {
    pub low: f64,
    pub median: f64,
    pub high: f64,
}

/// One case: the spread of each contestant, in the order of `CONTESTANTS`.
pub type Row = [Spread; CONTESTANTS.len()];

/// The first tenth of the rounds warms up, and is not counted.
pub fn measure(cases: &[(Case, u64)], rounds: usize) -> Vec<Row> {
    let mut times = vec![[const { Vec::<f64>::new() }; CONTESTANTS.len()]; cases.len()];
    let mut lent = Lent::new(0);
    for round in 0..rounds + rounds / 10 {
        for ((case, _), times) in cases.iter().zip(&mut times) {
            for (at, contestant) in CONTESTANTS.into_iter().enumerate() {
                let time = batch(contestant, case, &mut lent);
                if round >= rounds / 10 {
                    times[at].push(time.as_nanos() as f64 / BATCH as f64);
                }
            }
        }
    }
    times.into_iter().map(|times| times.map(spread)).collect()
}

fn spread(mut times: Vec<f64>) -> Spread {
    times.sort_by(f64::total_cmp);
    let at = |share: usize| times[(times.len() - 1) * share / 100];
    Spread {
        low: at(10),
        median: at(50),
        high: at(90),
    }
}
