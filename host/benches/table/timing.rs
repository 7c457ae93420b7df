//! Timing by turns: all variants of a call run in every round, so that what
//! else the machine does falls on all of them alike.

use std::time::{Duration, Instant};

/// Each variant runs at least this long in all, in at least so many rounds.
const IN_ALL: Duration = Duration::from_millis(200);
const ROUNDS: usize = 31;
/// A round runs each variant again and again for about this long.
const ROUND: Duration = Duration::from_millis(2);

/// Times N variants of a call by turns; gives the median nanoseconds of each.
pub fn by_turns<const N: usize>(mut run: impl FnMut(usize)) -> [f64; N] {
    let mut batch = [0; N];
    for (which, size) in batch.iter_mut().enumerate() {
        once(&mut run, which, 1);
        let single = once(&mut run, which, 3) / 3;
        *size = (ROUND.as_nanos() / single.as_nanos().max(1)).max(1) as u32;
    }
    let mut seen = [(); N].map(|_| Vec::new());
    let mut spent = [Duration::ZERO; N];
    for round in 0.. {
        if round >= ROUNDS && spent.iter().all(|&time| time >= IN_ALL) {
            break;
        }
        for turn in 0..N {
            let which = if round % 2 == 0 { turn } else { N - 1 - turn };
            let time = once(&mut run, which, batch[which]);
            spent[which] += time;
            seen[which].push(time.as_nanos() as f64 / f64::from(batch[which]));
        }
    }
    seen.map(median)
}

/// The time of one variant, run a number of times.
fn once(run: &mut impl FnMut(usize), which: usize, times: u32) -> Duration {
    let start = Instant::now();
    for _ in 0..times {
        run(which);
    }
    start.elapsed()
}

fn median(mut times: Vec<f64>) -> f64 {
    times.sort_by(f64::total_cmp);
    times[times.len() / 2]
}
