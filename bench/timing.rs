//! How long a call takes.
use std::hint::black_box;
use std::time::Instant;

/// How many times each is timed, of which the best counts.
const ROUNDS: usize = 7;

/// The least seconds that a call takes, of rounds of at least a millisecond each.
pub fn seconds(work: impl Fn() -> u64) -> f64 {
    let start = Instant::now();
    black_box(work());
    let calls = (1e-3 / start.elapsed().as_secs_f64()).ceil().clamp(1.0, 1e5) as usize;
    let mut least = f64::MAX;
    for _ in 0..ROUNDS {
        let start = Instant::now();
        for _ in 0..calls {
            black_box(work());
        }
        least = least.min(start.elapsed().as_secs_f64() / calls as f64);
    }
    least
}
