//! How one job is timed, beside others that do the same.

use std::time::{Duration, Instant};

use crate::keys::Key;
use crate::work::{Work, Written};

pub type Job<K> = fn(&mut Work<K>);

/// Tables up to this many items stay in the caches.
const SMALL: usize = 100_000;

/// A timed run of a small table repeats its job until it takes about so long.
const LEAST_TIME: Duration = Duration::from_micros(200);

/// One job, by each who does it.
pub struct Measure<K: Key> {
    /// The ways in which this library does it. Each makes a line of the table.
    pub ways: Vec<(&'static str, Job<K>)>,
    pub original: Option<Job<K>>,
    /// By the original where it is called as this library is: with a table that was opened once, and with bytes that
    /// each call opens without a check, and with one.
    pub called: Option<[Job<K>; 3]>,
    /// By either map.
    pub maps: Option<[Job<K>; 2]>,
    written: Written,
    /// Looks at what each has answered.
    check: fn(&Work<K>),
}

impl<K: Key> Measure<K> {
    pub fn new(written: Written) -> Measure<K> {
        Measure {
            ways: Vec::new(),
            original: None,
            called: None,
            maps: None,
            written,
            check: |_| (),
        }
    }

    pub fn way(mut self, name: &'static str, job: Job<K>) -> Measure<K> {
        self.ways.push((name, job));
        self
    }

    pub fn beside(self, original: Option<Job<K>>, maps: Option<[Job<K>; 2]>) -> Measure<K> {
        Measure {
            original,
            maps,
            ..self
        }
    }

    pub fn beside_calls(self, called: Option<[Job<K>; 3]>) -> Measure<K> {
        Measure { called, ..self }
    }

    pub fn checked(self, check: fn(&Work<K>)) -> Measure<K> {
        Measure { check, ..self }
    }

    /// The ways, then the original, then its calls, then the maps.
    fn jobs(&self) -> Vec<Job<K>> {
        let ways = self.ways.iter().map(|(_, job)| *job);
        let maps = self.maps.into_iter().flatten();
        let called = self.called.into_iter().flatten();
        ways.chain(self.original)
            .chain(called)
            .chain(maps)
            .collect()
    }

    /// Times all jobs; `begins` is as that of `times`.
    pub fn take(&self, rounds: usize, begins: usize, work: &mut Work<K>) -> Taken {
        let mut times = times(&self.jobs(), rounds, begins, work).into_iter();
        let ways = times.by_ref().take(self.ways.len()).collect();
        let original = self.original.and_then(|_| times.next());
        let called = [(); 3].map(|()| self.called.and_then(|_| times.next()));
        let maps = [times.next(), times.next()];
        Taken {
            ways,
            original: original.unwrap_or_default(),
            called: called.map(Option::unwrap_or_default),
            maps: maps.map(Option::unwrap_or_default),
        }
    }
}

/// What each took in each round, in nanoseconds. Nothing of who did not run.
pub struct Taken {
    pub ways: Vec<Vec<f64>>,
    pub original: Vec<f64>,
    pub called: [Vec<f64>; 3],
    pub maps: [Vec<f64>; 2],
}

/// Runs every job once and looks at what it writes: that of all ways and of the original must be
/// equal.
pub fn check_answers<K: Key>(measure: &Measure<K>, work: &mut Work<K>) {
    let tables =
        measure.ways.len() + measure.original.iter().len() + 3 * measure.called.iter().len();
    let mut first = None;
    for (place, job) in measure.jobs().into_iter().enumerate() {
        work.scrub(measure.written);
        job(work);
        (measure.check)(work);
        if place < tables {
            let written = work.copy(measure.written);
            assert!(*first.get_or_insert_with(|| written.clone()) == written);
        }
    }
}

fn time<K: Key>(job: Job<K>, repeats: usize, work: &mut Work<K>) -> Duration {
    let start = Instant::now();
    for _ in 0..repeats {
        job(work);
    }
    start.elapsed()
}

/// How often the job has to be done to take long enough. That of a large table does at once.
fn repeats_needed<K: Key>(job: Job<K>, work: &mut Work<K>) -> usize {
    let mut repeats = 1;
    while work.keys.len() <= SMALL && time(job, repeats, work) < LEAST_TIME {
        repeats *= 2;
    }
    repeats
}

/// The time of each job in each round, in nanoseconds. In each round every job has its turn, and
/// another one begins: in the first round the job of number `begins`, counted round the end.
pub fn times<K: Key>(
    jobs: &[Job<K>],
    rounds: usize,
    begins: usize,
    work: &mut Work<K>,
) -> Vec<Vec<f64>> {
    let count = jobs.len();
    let repeats: Vec<usize> = jobs.iter().map(|job| repeats_needed(*job, work)).collect();
    let mut times = vec![Vec::new(); count];
    for turn in 0..rounds * count {
        let (round, place) = (turn / count, turn % count);
        let column = (begins + round + place) % count;
        times[column].push(time_of_turn(jobs[column], repeats[column], work));
    }
    times
}

/// A job of a small table runs once untimed before, so that it does not pay for caches that another
/// left cold.
fn time_of_turn<K: Key>(job: Job<K>, repeats: usize, work: &mut Work<K>) -> f64 {
    if work.keys.len() <= SMALL {
        job(work);
    }
    time(job, repeats, work).as_nanos() as f64 / repeats as f64
}

pub fn best(times: &[f64]) -> f64 {
    times.iter().copied().fold(f64::INFINITY, f64::min)
}

/// The middle one; of an even number of times the mean of the middle two.
pub fn median(times: &[f64]) -> f64 {
    let mut sorted = times.to_vec();
    sorted.sort_unstable_by(f64::total_cmp);
    let (low, high) = ((sorted.len() - 1) / 2, sorted.len() / 2);
    (sorted[low] + sorted[high]) / 2.0
}
