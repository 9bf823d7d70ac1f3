//! What the calls cost, in nanoseconds per call, for the library and for the reference.
//!
//! Each row is a batch of calls on one state. The state is put back before each batch, outside
//! the measured time. A run goes through all rows several times, and within a row the batches
//! of the two sides alternate, so that all of them meet the same machine. What is measured is
//! processor time. The numbers are medians over the batches; a ratio is the median of the
//! ratios of neighbouring batches. Before and after each batch of the library, calls that end with
//! the test of the memory are measured on the very same memory: what the test costs goes by where
//! the memory lies, too. The client's side, which has no memory, has rows of its own beside plain
//! Rust. The first argument says when and where it is measured; the page goes to
//! the file that the second one names, if there is one.

mod cases;
mod client;
mod clock;
mod plain;
mod report;
mod sides;

use cases::{cases, Case};
use sides::{Due, Sides, State};
use std::time::Instant;

/// How often a run goes through all rows.
const ROUNDS: usize = 33;
/// Batches of each side in a round, of which the first is not measured.
const BATCHES: usize = 5;

/// The numbers of keys in the store.
const KEYS: [usize; 3] = [10, 100, 1024];

/// The median cost of a call in nanoseconds, the median of what it costs the library beyond the
/// test of the memory, and the median of the library's cost as a multiple of the reference's.
#[derive(Clone, Copy)]
struct Cost {
    library: f64,
    own: f64,
    reference: f64,
    ratio: f64,
}

/// A case on a store of one size, and the nanoseconds per call of its batches so far.
struct Measured {
    state: State,
    batch: Vec<Due>,
    library: Vec<f64>,
    own: Vec<f64>,
    reference: Vec<f64>,
}

impl Measured {
    fn new(case: &Case, keys: usize) -> Measured {
        let (state, batch) = (case.state)(keys);
        Sides::of(&state).agree(&batch, case.name);
        Measured {
            state,
            batch,
            library: Vec::new(),
            own: Vec::new(),
            reference: Vec::new(),
        }
    }

    fn round(&mut self, case: &Case) {
        let mut sides = Sides::of(&self.state);
        let calls = (self.batch.len() / case.calls_per_unit) as f64;
        let tests = cases::tests();
        for turn in 0..BATCHES {
            sides.restore(&self.state);
            let start = clock::now();
            let wrong = sides.run_library(&tests);
            let begin = clock::now();
            let wrong = wrong + sides.run_library(&self.batch);
            let middle = clock::now();
            let wrong = wrong + sides.run_library(&tests);
            let tested = clock::now();
            let wrong = wrong + sides.run_reference(&self.batch);
            let end = clock::now();
            let (library, reference) = ((middle - begin) / calls, (end - tested) / calls);
            let test = (begin - start + tested - middle) / (2 * tests.len()) as f64;
            assert_eq!(wrong, 0, "{}: other answers than before", case.name);
            if turn > 0 {
                self.library.push(library);
                self.own.push(library - case.calls_per_unit as f64 * test);
                self.reference.push(reference);
            }
        }
    }

    fn cost(&self) -> Cost {
        let pairs = self.library.iter().zip(&self.reference);
        Cost {
            library: median(self.library.iter().copied()),
            own: median(self.own.iter().copied()),
            reference: median(self.reference.iter().copied()),
            ratio: median(pairs.map(|(library, reference)| library / reference)),
        }
    }
}

fn median(numbers: impl Iterator<Item = f64>) -> f64 {
    let mut numbers: Vec<f64> = numbers.collect();
    numbers.sort_by(f64::total_cmp);
    numbers[numbers.len() / 2]
}

fn main() {
    let begin = Instant::now();
    let cases = cases();
    let mut all: Vec<[Measured; 3]> = cases
        .iter()
        .map(|case| KEYS.map(|keys| Measured::new(case, keys)))
        .collect();
    let mut client_rows = client::rows();
    client_rows.iter().for_each(client::Row::agree);
    for _ in 0..ROUNDS {
        for (case, row) in cases.iter().zip(&mut all) {
            row.iter_mut().for_each(|measured| measured.round(case));
        }
        client_rows.iter_mut().for_each(client::Row::round);
    }
    let costs = all.iter().map(|row| row.each_ref().map(Measured::cost));
    let rows: Vec<(Case, [Cost; 3])> = cases.into_iter().zip(costs).collect();
    for (case, costs) in &rows {
        println!("{}", report::line(case, costs));
    }
    for row in &client_rows {
        println!("{}", report::client_line(row.name, row.cost()));
    }
    println!("measured in {:.1} s", begin.elapsed().as_secs_f64());
    let mut arguments = std::env::args_os().skip(1);
    let measured = arguments
        .next()
        .unwrap_or_else(|| "at an unknown time".into());
    println!("{}", measured.to_string_lossy());
    if let Some(path) = arguments.next() {
        let page = report::page(&rows, &client_rows, &measured.to_string_lossy());
        std::fs::write(&path, page).expect("the report is written");
        println!("written to {}", path.to_string_lossy());
    }
}

/// A table of one row, for tests.
#[cfg(test)]
fn one_row() -> Vec<(Case, [Cost; 3])> {
    let cost = Cost {
        library: 1234.0,
        own: 1000.0,
        reference: 617.0,
        ratio: 2.0,
    };
    cases()
        .into_iter()
        .take(1)
        .map(|case| (case, [cost; 3]))
        .collect()
}
