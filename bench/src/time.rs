//! The times of calls: the least of some rounds, since other work on the machine only adds to it. The rounds of the calls
//! that are compared take turns, so that what slows the machine for a while slows each of them.

use std::time::Instant;

/// Nanoseconds a call, over `calls` calls a round.
fn round(calls: usize, call: &mut dyn FnMut(usize)) -> f64 {
    let start = Instant::now();
    (0..calls).for_each(call);
    start.elapsed().as_nanos() as f64 / calls as f64
}

/// The least time of each over so many rounds, so many calls of it a round.
pub fn nanoseconds<const N: usize>(
    rounds: usize,
    mut timed: [(usize, &mut dyn FnMut(usize)); N],
) -> [f64; N] {
    let mut least = [f64::INFINITY; N];
    for _ in 0..rounds {
        for (time, (calls, call)) in least.iter_mut().zip(&mut timed) {
            *time = time.min(round(*calls, *call));
        }
    }
    least
}
