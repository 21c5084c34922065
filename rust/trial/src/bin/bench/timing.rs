//! Two sides timed in turn.

use std::time::Instant;

/// How often a process times each side; the median counts. A run takes a millisecond or less, so that most
/// are not interrupted by other work of the machine.
const RUNS: usize = 301;

/// The nanoseconds for one input, each side timed in turn so that both meet the machine in the same state.
pub fn race(
    inputs: usize,
    passes: usize,
    mut ours: impl FnMut(),
    mut theirs: impl FnMut(),
) -> (f64, f64) {
    let time = |pass: &mut dyn FnMut()| {
        let began = Instant::now();
        for _ in 0..passes {
            pass();
        }
        began.elapsed().as_nanos() as f64 / (inputs * passes) as f64
    };
    let (mut a, mut b) = (Vec::new(), Vec::new());
    time(&mut ours);
    time(&mut theirs);
    for _ in 0..RUNS {
        a.push(time(&mut ours));
        b.push(time(&mut theirs));
    }
    (median(&mut a), median(&mut b))
}

pub fn median(figures: &mut [f64]) -> f64 {
    figures.sort_by(f64::total_cmp);
    figures[figures.len() / 2]
}
