//! Several sides of one measurement, timed in turn: batches of about a millisecond, short enough that some of them are
//! not interrupted on a busy machine.
use std::time::Instant;

const BATCH: f64 = 0.001;

/// Nanoseconds for one call: the least and the middle of the rounds.
#[derive(Clone, Copy)]
pub struct Times {
    pub least: f64,
    pub middle: f64,
}

impl Times {
    pub fn noise(&self) -> f64 {
        (self.middle - self.least) / self.least
    }
}

pub struct Side<'a> {
    run: Box<dyn FnMut(usize) + 'a>,
    /// how many calls one run makes
    calls: usize,
    batch: usize,
    rounds: Vec<f64>,
}

pub fn side<'a>(f: impl FnMut() + 'a) -> Side<'a> {
    side_of(1, f)
}

/// Where f makes many calls.
pub fn side_of<'a>(calls: usize, mut f: impl FnMut() + 'a) -> Side<'a> {
    let run = move |n: usize| {
        for _ in 0..n {
            f();
        }
    };
    Side { run: Box::new(run), calls, batch: 1, rounds: Vec::new() }
}

impl Side<'_> {
    /// Works it so often, untimed.
    pub fn spin(mut self, n: usize) {
        (self.run)(n);
    }
    fn seconds(&mut self, n: usize) -> f64 {
        let start = Instant::now();
        (self.run)(n);
        start.elapsed().as_secs_f64()
    }
    /// Sets how many runs make a batch. Each length is tried three times, since one try may be interrupted.
    fn calibrate(&mut self) {
        let mut n = 1;
        let least = loop {
            let least = (0..3).map(|_| self.seconds(n)).fold(f64::INFINITY, f64::min);
            if least > BATCH / 4.0 {
                break least;
            }
            n *= 2;
        };
        self.batch = ((BATCH / least * n as f64) as usize).max(1);
    }
    fn round(&mut self) {
        let n = self.batch;
        let seconds = self.seconds(n);
        self.rounds.push(seconds * 1e9 / (n * self.calls) as f64);
    }
    fn times(&mut self) -> Times {
        self.rounds.sort_by(f64::total_cmp);
        Times { least: self.rounds[0], middle: self.rounds[self.rounds.len() / 2] }
    }
}

/// Times the sides in turn, each once in every round.
pub fn race(rounds: usize, mut sides: Vec<Side>) -> Vec<Times> {
    sides.iter_mut().for_each(Side::calibrate);
    for _ in 0..rounds {
        sides.iter_mut().for_each(Side::round);
    }
    sides.iter_mut().map(Side::times).collect()
}
