//! One run: all measures of one kind of table with so many items, in a process of its own. It prints
//! their times to the process that asked for it.

use std::hint::black_box;

use crate::keys::Key;
use crate::measure::{check_answers, Measure};
use crate::measures::{measure_builds, measure_order, measure_tables, Contest};
#[cfg(original)]
use crate::original;
use crate::work::Work;

/// Which run it is.
pub struct Plan {
    /// `u64` or `b16`; `order` for the line of an order of inserts alone.
    pub what: String,
    pub items: usize,
    pub rounds: usize,
    /// Runs are counted from 0.
    pub number: usize,
}

impl Plan {
    pub fn words(&self) -> [String; 4] {
        let numbers = [self.items, self.rounds, self.number];
        let [items, rounds, number] = numbers.map(|number| number.to_string());
        [self.what.clone(), items, rounds, number]
    }

    fn read(words: &[String]) -> Plan {
        let number = |place: usize| words[place].parse().expect("a number is told");
        Plan {
            what: words[0].clone(),
            items: number(1),
            rounds: number(2),
            number: number(3),
        }
    }

    /// The first run looks at all answers, and it alone has the maps.
    fn is_first(&self) -> bool {
        self.number == 0
    }
}

/// The largest block whose return has malloc keep what is given back, up to twice its size. In a
/// fresh process each large block is mapped, and its first use of each page goes to the system.
const LARGEST_KEPT: usize = 31 << 20;

pub struct Run<K: Key> {
    plan: Plan,
    pub work: Work<K>,
}

impl<K: Contest> Run<K> {
    fn begin(plan: Plan) -> Run<K> {
        let mut work = Work::new(plan.items);
        if plan.is_first() {
            work.make_maps();
        }
        #[cfg(original)]
        assert_eq!(work.table.len(), original::bytes_needed::<K>(plan.items));
        drop(black_box(vec![0_u8; LARGEST_KEPT]));
        tell_places::<K>();
        Run { plan, work }
    }

    /// Tells a line for each way: its name, and the times of the way, the original, its calls and the maps.
    pub fn measure(&mut self, mut measure: Measure<K>) {
        if self.plan.is_first() {
            check_answers(&measure, &mut self.work);
        } else {
            measure.maps = None;
        }
        let taken = measure.take(self.plan.rounds, self.plan.number, &mut self.work);
        let ([kept, unchecked, checked], [own, table]) = (&taken.called, &taken.maps);
        for ((name, _), way) in measure.ways.iter().zip(&taken.ways) {
            let times = [way, &taken.original, kept, unchecked, checked, own, table];
            println!("{name};{}", times.map(|times| self.told(times)).join(";"));
        }
    }

    /// Nanoseconds for each item.
    fn told(&self, times: &[f64]) -> String {
        let items = self.plan.items as f64;
        let each = times.iter().map(|time| format!("{:.4}", time / items));
        each.collect::<Vec<String>>().join(" ")
    }
}

/// Tells where in a line of 64 bytes the code of the library begins, and that of the original.
fn tell_places<K: Contest>() {
    let ours = K::PLACE as usize % 64;
    #[cfg(original)]
    println!("{ours} {}", original::get::<K> as *const () as usize % 64);
    #[cfg(not(original))]
    println!("{ours}");
}

/// Makes the run that the words name.
pub fn answer(words: &[String]) {
    let plan = Plan::read(words);
    match plan.what.as_str() {
        "u64" => {
            let mut run = Run::begin(plan);
            measure_tables(&mut run);
            measure_builds(&mut run);
        }
        "b16" => measure_tables(&mut Run::<[u8; 16]>::begin(plan)),
        "order" => measure_order(&mut Run::begin(plan)),
        what => panic!("no run is called {what}"),
    }
}
