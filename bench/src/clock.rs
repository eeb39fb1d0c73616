//! Contenders on the same inputs: whether they agree, and their times in turn.

use std::hint::black_box;
use std::time::Instant;

/// The number of inputs of each case.
pub const INPUTS: usize = 8;

/// Nanoseconds of one call, the least and the median over the rounds.
#[derive(Clone, Copy)]
pub struct Times {
    pub least: f64,
    pub median: f64,
}

impl Times {
    /// The times of one of so many calls that were timed as one.
    pub fn over(&self, calls: usize) -> Times {
        Times { least: self.least / calls as f64, median: self.median / calls as f64 }
    }
}

/// Panics unless all contenders make the same of each of the first inputs, each time in a copy of the blank output.
pub fn agree<O: Clone + PartialEq>(contenders: &mut [impl FnMut(usize, &mut O)], inputs: usize, blank: &O, name: &str) {
    for i in 0..inputs {
        let outputs = contenders.iter_mut().map(|run| {
            let mut output = blank.clone();
            run(i, &mut output);
            output
        });
        let outputs: Vec<O> = outputs.collect();
        assert!(outputs.iter().all(|output| *output == outputs[0]), "{name}: the contenders differ on input {i}");
    }
}

/// The nanoseconds of one call, over a batch of calls on the inputs in turn.
fn batch<O>(run: &mut impl FnMut(usize, &mut O), first: usize, calls: usize, output: &mut O) -> f64 {
    let start = Instant::now();
    for i in first..first + calls {
        run(black_box(i % INPUTS), black_box(output));
    }
    start.elapsed().as_nanos() as f64 / calls as f64
}

/// Times the contenders in turn, round by round, for 3 seconds and at least 15 rounds.
pub fn race<O: Clone>(contenders: &mut [impl FnMut(usize, &mut O)], blank: &O) -> Vec<Times> {
    race_for(contenders, blank, 3e9, 15)
}

/// Times the contenders in turn, round by round, for so many nanoseconds and at least so many rounds. The calls of a batch take
/// the first contender 0.2 ms or more.
pub fn race_for<O: Clone>(
    contenders: &mut [impl FnMut(usize, &mut O)],
    blank: &O,
    nanoseconds: f64,
    least: usize,
) -> Vec<Times> {
    let mut output = blank.clone();
    let mut calls = 1;
    while calls as f64 * batch(&mut contenders[0], 0, calls, &mut output) < 2e5 {
        calls *= 2;
    }
    let once = contenders.iter_mut().map(|run| batch(run, 0, calls, &mut output));
    let round = once.sum::<f64>() * calls as f64;
    let rounds = ((nanoseconds / round) as usize).max(least);
    let mut times = vec![Vec::new(); contenders.len()];
    for k in 0..rounds {
        for (times, run) in times.iter_mut().zip(contenders.iter_mut()) {
            times.push(batch(run, k * calls, calls, &mut output));
        }
    }
    let ends = times.into_iter().map(|mut times| {
        times.sort_by(f64::total_cmp);
        Times { least: times[0], median: times[times.len() / 2] }
    });
    ends.collect()
}
