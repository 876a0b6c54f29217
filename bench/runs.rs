//! Asks for the runs, each in a process of its own, and gathers what they tell.

use std::env::current_exe;
use std::io::{stderr, IsTerminal};
use std::process::{Command, Stdio};

use crate::measure::best;
use crate::run::Plan;

/// How many runs there are of each table and placement.
const RUNS: usize = 5;

/// The program as it is linked, and the same with all its code moved, which is beside it.
pub const PLACEMENTS: [&str; 2] = ["as linked", "moved"];
const MOVED: &str = "bench_moved";

/// What was printed of one line at one placement: the times of each run.
#[derive(Default)]
pub struct Placed {
    pub ours: Vec<Vec<f64>>,
    pub original: Vec<Vec<f64>>,
    /// The original's calls: with a table that is kept, and with bytes that are opened without and with a check.
    pub called: [Vec<Vec<f64>>; 3],
    pub maps: [Vec<f64>; 2],
}

impl Placed {
    /// The ratio of the best times of each run to those of another contender.
    pub fn ratios(&self, others: &[Vec<f64>]) -> Vec<f64> {
        let runs = self.ours.iter().zip(others);
        let runs = runs.filter(|(_, other)| !other.is_empty());
        runs.map(|(ours, other)| best(ours) / best(other)).collect()
    }
}

#[derive(Default)]
pub struct Line {
    pub name: String,
    pub placed: [Placed; PLACEMENTS.len()],
}

/// All that was printed of tables of one size.
#[derive(Default)]
pub struct Told {
    pub lines: Vec<Line>,
    /// Where in a line of 64 bytes the code begins, of this library and of the original.
    pub places: [Vec<usize>; PLACEMENTS.len()],
}

impl Told {
    fn add(&mut self, placement: usize, text: &str) {
        let (places, lines) = text.split_once('\n').expect("a run tells its places");
        self.places[placement] = numbers(places);
        for line in lines.lines() {
            let (name, times) = line.split_once(';').expect("a line has a name");
            let times: Vec<Vec<f64>> = times.split(';').map(numbers).collect();
            let times = times.try_into().expect("a line has seven lists of times");
            self.add_line(placement, name, times);
        }
    }

    fn add_line(&mut self, placement: usize, name: &str, times: [Vec<f64>; 7]) {
        if !self.lines.iter().any(|line| line.name == name) {
            let name = name.to_string();
            self.lines.push(Line {
                name,
                ..Line::default()
            });
        }
        let line = self.lines.iter_mut().find(|line| line.name == name);
        let placed = &mut line.expect("it was added").placed[placement];
        let [ours, original, kept, unchecked, checked, own, table] = times;
        placed.ours.push(ours);
        placed.original.push(original);
        let called = placed.called.iter_mut().zip([kept, unchecked, checked]);
        called.for_each(|(runs, run)| runs.push(run));
        placed.maps[0].extend(own);
        placed.maps[1].extend(table);
    }

    /// The other program is to have its code elsewhere.
    fn check_places(&self) {
        let [linked, moved] = &self.places;
        let mut places = linked.iter().zip(moved);
        assert!(places.all(|(linked, moved)| linked != moved));
    }
}

fn numbers<N: std::str::FromStr>(text: &str) -> Vec<N> {
    let numbers = text.split_whitespace().map(|word| word.parse().ok());
    numbers.map(|number| number.expect("a number")).collect()
}

/// Tables of one size.
pub struct Size {
    pub power_of_ten: u32,
    pub rounds: usize,
    /// Both, or the first alone.
    pub placements: usize,
}

/// All runs of one size. They alternate, and the placements between them.
pub fn ask(what: &str, size: &Size) -> Told {
    let mut told = Told::default();
    for number in 0..RUNS {
        show_progress(what, size, number);
        for placement in 0..size.placements {
            let plan = Plan {
                what: what.to_string(),
                items: 10_usize.pow(size.power_of_ten),
                rounds: size.rounds,
                number,
            };
            told.add(placement, &told_by(placement, &plan));
        }
    }
    told.check_places();
    told
}

/// What the run prints. It ends this program where it fails.
fn told_by(placement: usize, plan: &Plan) -> String {
    let linked = current_exe().expect("this program has a path");
    let program = [linked.clone(), linked.with_file_name(MOVED)][placement].clone();
    let mut command = Command::new(program);
    command
        .arg("run")
        .args(plan.words())
        .stderr(Stdio::inherit());
    let output = command.output().expect("a run is begun");
    assert!(output.status.success(), "a run has failed");
    String::from_utf8(output.stdout).expect("a run tells text")
}

/// In a line that the next output overwrites, and on a screen alone.
fn show_progress(what: &str, size: &Size, number: usize) {
    if stderr().is_terminal() {
        let power = size.power_of_ten;
        eprint!("{what}, 10^{power} items, run {} of {RUNS}\r", number + 1);
    }
}
