//! Times of the same work done by several sides, taken in turns, and what is said of them.

use std::hint::black_box;
use std::time::Instant;

/// How often every sample is timed.
pub const ROUNDS: usize = 7;

/// One side's work on one sample: its nanoseconds and its answer.
pub struct Timed {
    pub nanoseconds: f64,
    pub answer: Vec<u32>,
}

/// A side: it does the work of the sample of this number, and times it.
pub type Side<'a> = &'a mut dyn FnMut(usize) -> Timed;

/// What one side took, over all samples in nanoseconds, and what it answered to each.
pub struct Taken {
    pub median: f64,
    pub ninety_ninth: f64,
    pub worst: f64,
    pub answers: Vec<Vec<u32>>,
}

/// The nanoseconds that this work takes, and what it answers.
pub fn clock<T>(work: impl FnOnce() -> T) -> (f64, T) {
    let start = Instant::now();
    let answer = black_box(work());
    (start.elapsed().as_nanos() as f64, answer)
}

/// The nanoseconds that an empty piece of work takes: what the clock adds to each time.
pub fn clock_cost() -> f64 {
    median((0..1_001).map(|_| clock(|| ()).0).collect())
}

/// One side's work on each of these problems in a row, in nanoseconds per problem.
pub fn batch<P>(problems: &[P], solve: impl Fn(&P) -> u32) -> Timed {
    let mut answer = vec![0; problems.len()];
    let (nanoseconds, ()) = clock(|| {
        for (number, problem) in answer.iter_mut().zip(problems) {
            *number = solve(problem);
        }
    });
    Timed {
        nanoseconds: nanoseconds / problems.len() as f64,
        answer,
    }
}

/// Times all sides sample by sample, so that they see the same state of the machine. Whose turn is
/// first changes from sample to sample and from round to round. The time of a sample is the median of
/// its rounds: a moment in which the machine did something else does not count.
pub fn in_turns(samples: usize, sides: &mut [Side]) -> Vec<Taken> {
    let mut times = vec![vec![Vec::new(); samples]; sides.len()];
    let mut answers = vec![vec![Vec::new(); samples]; sides.len()];
    for turn in 0..ROUNDS * samples * sides.len() {
        let (visit, place) = (turn / sides.len(), turn % sides.len());
        let (round, sample) = (visit / samples, visit % samples);
        let side = (place + sample + round) % sides.len();
        let timed = sides[side](sample);
        times[side][sample].push(timed.nanoseconds);
        answers[side][sample] = timed.answer;
    }
    times.into_iter().zip(answers).map(taken).collect()
}

fn taken((times, answers): (Vec<Vec<f64>>, Vec<Vec<u32>>)) -> Taken {
    let mut of_samples: Vec<f64> = times.into_iter().map(median).collect();
    sort(&mut of_samples);
    let last = of_samples.len() - 1;
    Taken {
        median: of_samples[last / 2],
        ninety_ninth: of_samples[last * 99 / 100],
        worst: of_samples[last],
        answers,
    }
}

fn median(mut times: Vec<f64>) -> f64 {
    sort(&mut times);
    times[times.len() / 2]
}

fn sort(times: &mut [f64]) {
    times.sort_by(f64::total_cmp);
}

/// Both sides must have answered the same to every sample.
pub fn same_answers(what: &str, one: &Taken, other: &Taken) -> Result<(), String> {
    let mut pairs = one.answers.iter().zip(&other.answers).enumerate();
    match pairs.find(|(_, (one, other))| one != other) {
        None => Ok(()),
        Some((sample, (one, other))) => {
            Err(format!("{what}, sample {sample}: {one:?} and {other:?}"))
        }
    }
}
