//! Times both sides on the same inputs from one driver.

use std::hint::black_box;
use std::time::{Duration, Instant};

/// So many inputs that no processor learns which way the branches on them go; of 4,096 it does.
pub const INPUTS: usize = 1 << 17;
/// The shortest time that one measurement of a side takes.
const LEAST: Duration = Duration::from_millis(2);

/// An entry point, and the nanoseconds that a call takes on either side.
pub struct Row {
    pub name: String,
    pub rattle: f64,
    pub rust: f64,
}

impl Row {
    /// The Rattle's time over the Rust's.
    pub fn ratio(&self) -> f64 {
        self.rattle / self.rust
    }

    /// The lesser time of each side, of two runs.
    pub fn least(&mut self, other: &Row) {
        self.rattle = self.rattle.min(other.rattle);
        self.rust = self.rust.min(other.rust);
    }
}

/// Times rows: all, or the one of a name.
pub struct Bench {
    pub only: Option<String>,
    /// In no round at all, rows have their names and no times.
    pub rounds: u64,
    pub rows: Vec<Row>,
}

impl Default for Bench {
    fn default() -> Bench {
        Bench {
            only: None,
            rounds: 25,
            rows: Vec::new(),
        }
    }
}

impl Bench {
    /// Each time is the least of all rounds. The sides take turns, and each round swaps which goes first.
    pub fn row<I, A, B>(
        &mut self,
        name: &str,
        inputs: &[I],
        rattle: impl FnMut(&I) -> A,
        rust: impl FnMut(&I) -> B,
    ) {
        self.row_of_forms(name, (inputs, rattle), (inputs, rust));
    }

    /// The same where each side has its own form of the same inputs.
    pub fn row_of_forms<I, J, A, B>(
        &mut self,
        name: &str,
        (ours, mut rattle): (&[I], impl FnMut(&I) -> A),
        (theirs, mut rust): (&[J], impl FnMut(&J) -> B),
    ) {
        assert_eq!(ours.len(), theirs.len(), "inputs of {name}");
        self.measure(
            name,
            ours.len(),
            |repeats| time(repeats, ours, &mut rattle),
            |repeats| time(repeats, theirs, &mut rust),
        );
    }

    /// The same for a Rust function that takes its input by value and consumes it: the copies are
    /// made while no clock runs.
    pub fn row_by_value<I: Clone, A, B>(
        &mut self,
        name: &str,
        inputs: &[I],
        mut rattle: impl FnMut(&I) -> A,
        mut rust: impl FnMut(I) -> B,
    ) {
        self.measure(
            name,
            inputs.len(),
            |repeats| time(repeats, inputs, &mut rattle),
            |repeats| time_by_value(repeats, inputs, &mut rust),
        );
    }

    /// The same where both sides change their input: each is given copies of its form, which are made
    /// and dropped while no clock runs.
    pub fn row_of_copies<I: Clone, J: Clone, A, B>(
        &mut self,
        name: &str,
        (ours, mut rattle): (&[I], impl FnMut(&mut I) -> A),
        (theirs, mut rust): (&[J], impl FnMut(&mut J) -> B),
    ) {
        assert_eq!(ours.len(), theirs.len(), "inputs of {name}");
        self.measure(
            name,
            ours.len(),
            |repeats| time_of_copies(repeats, ours, &mut rattle),
            |repeats| time_of_copies(repeats, theirs, &mut rust),
        );
    }

    /// The same where a call changes what the next one is made on. A side is that, what sets it back
    /// before each pass over the inputs while no clock runs, and the call.
    pub fn row_of_runs<I, S, T, A, B>(
        &mut self,
        name: &str,
        inputs: &[I],
        (ours, mut set_ours, mut rattle): (&mut S, impl FnMut(&mut S), impl FnMut(&mut S, &I) -> A),
        (theirs, mut set_theirs, mut rust): (
            &mut T,
            impl FnMut(&mut T),
            impl FnMut(&mut T, &I) -> B,
        ),
    ) {
        self.measure(
            name,
            inputs.len(),
            |repeats| time_of_runs(repeats, inputs, ours, &mut set_ours, &mut rattle),
            |repeats| time_of_runs(repeats, inputs, theirs, &mut set_theirs, &mut rust),
        );
    }

    /// Each side answers how long a number of passes over the inputs takes.
    fn measure(
        &mut self,
        name: &str,
        inputs: usize,
        mut rattle: impl FnMut(u64) -> Duration,
        mut rust: impl FnMut(u64) -> Duration,
    ) {
        if self.only.as_deref().is_some_and(|only| only != name) {
            return;
        }
        let mut row = Row {
            name: name.to_string(),
            rattle: f64::INFINITY,
            rust: f64::INFINITY,
        };
        if self.rounds > 0 {
            let (ours, theirs) = (enough(&mut rattle), enough(&mut rust));
            let mut time_rattle = || per_call(ours, inputs, rattle(ours));
            let mut time_rust = || per_call(theirs, inputs, rust(theirs));
            for round in 0..self.rounds {
                if round % 2 == 0 {
                    row.rattle = row.rattle.min(time_rattle());
                }
                row.rust = row.rust.min(time_rust());
                if round % 2 == 1 {
                    row.rattle = row.rattle.min(time_rattle());
                }
            }
        }
        self.rows.push(row);
    }
}

/// So many passes that they take the shortest time of a measurement.
fn enough(side: &mut impl FnMut(u64) -> Duration) -> u64 {
    let mut repeats = 1;
    while side(repeats) < LEAST {
        repeats *= 2;
    }
    repeats
}

/// Nanoseconds.
fn per_call(repeats: u64, inputs: usize, took: Duration) -> f64 {
    took.as_nanos() as f64 / (repeats as f64 * inputs as f64)
}

/// The pattern of a function's arguments as one input.
macro_rules! input {
    ($arg:ident) => {
        $arg
    };
    ($($arg:ident),*) => {
        ($($arg),*)
    };
}

macro_rules! any_type {
    ($arg:ident) => {
        _
    };
}

/// A row of a function that has one type and the same name in the modules `rattle` and `rust`. Both sides
/// are pointers of this type, so that the same machine code calls them.
macro_rules! row {
    ($bench:ident, $inputs:expr, $name:ident $args:tt) => {
        $crate::bench::row!($bench, $inputs, stringify!($name), $name $args)
    };
    // The other function is the Rust's own. It has a type of its own, so the loop is another one; but a
    // function of the Rattle's type around it would make the Rust pay for two calls.
    ($bench:ident, $inputs:expr, $name:ident($($arg:ident),*), $rust:path) => {{
        let ours: extern "C" fn($($crate::bench::any_type!($arg)),*) -> _ = rattle::$name;
        let theirs: fn($($crate::bench::any_type!($arg)),*) -> _ = $rust;
        let (ours, theirs) = std::hint::black_box((ours, theirs));
        $bench.row(
            stringify!($name),
            $inputs,
            move |&$crate::bench::input!($($arg),*): &_| ours($($arg),*),
            move |&$crate::bench::input!($($arg),*): &_| theirs($($arg),*),
        );
    }};
    ($bench:ident, $inputs:expr, $row:expr, $name:ident($($arg:ident),*)) => {{
        let side = |function: extern "C" fn($($crate::bench::any_type!($arg)),*) -> _| {
            let function = std::hint::black_box(function);
            move |&$crate::bench::input!($($arg),*): &_| function($($arg),*)
        };
        $bench.row($row, $inputs, side(rattle::$name), side(rust::$name));
    }};
}

pub(crate) use {any_type, input, row};

/// Not inlined: two sides of one type share this loop, and so its place in memory.
#[inline(never)]
fn time<I, A>(repeats: u64, inputs: &[I], function: &mut impl FnMut(&I) -> A) -> Duration {
    let start = Instant::now();
    for _ in 0..repeats {
        for input in black_box(inputs) {
            black_box(function(input));
        }
    }
    start.elapsed()
}

#[inline(never)]
fn time_by_value<I: Clone, A>(
    repeats: u64,
    inputs: &[I],
    function: &mut impl FnMut(I) -> A,
) -> Duration {
    let mut elapsed = Duration::ZERO;
    for _ in 0..repeats {
        let mut copies = black_box(inputs).to_vec();
        let start = Instant::now();
        for copy in copies.drain(..) {
            black_box(function(copy));
        }
        elapsed += start.elapsed();
    }
    elapsed
}

#[inline(never)]
fn time_of_copies<I: Clone, A>(
    repeats: u64,
    inputs: &[I],
    function: &mut impl FnMut(&mut I) -> A,
) -> Duration {
    let mut elapsed = Duration::ZERO;
    for _ in 0..repeats {
        let mut copies = black_box(inputs).to_vec();
        let start = Instant::now();
        for copy in &mut copies {
            black_box(function(copy));
        }
        elapsed += start.elapsed();
    }
    elapsed
}

#[inline(never)]
fn time_of_runs<I, S, A>(
    repeats: u64,
    inputs: &[I],
    of: &mut S,
    set_back: &mut impl FnMut(&mut S),
    function: &mut impl FnMut(&mut S, &I) -> A,
) -> Duration {
    let mut elapsed = Duration::ZERO;
    for _ in 0..repeats {
        set_back(of);
        let start = Instant::now();
        for input in black_box(inputs) {
            black_box(function(of, input));
        }
        elapsed += start.elapsed();
    }
    elapsed
}

#[cfg(test)]
mod tests {
    use super::*;
    use crate::parts::PARTS;

    const HEADER: &str = include_str!("../../../include/juleyomu.h");

    /// Functions with rows of other names.
    const OTHER_NAMES: [(&str, &str); 24] = [
        ("wide_divide", "wide_divide_96_by_32"),
        ("min_rate_for_capacity", "min_rate_for_capacity_401"),
        ("percentile_sat", "percentile_sat_1000"),
        ("lower_median", "lower_median_126"),
        ("log_quantile", "log_quantile_200"),
        ("windows_new", "windows_new_11_targets"),
        ("windows_push_back", "push_back_11_targets"),
        ("windows_push_front", "push_front_11_targets"),
        ("windows_pop_back", "pop_back_11_targets"),
        ("windows_pop_front", "pop_front_11_targets"),
        ("windows_rebuild", "rebuild_31000"),
        ("windows_rate_sat_kvb", "rate_sat_kvb_many_in_band"),
        ("history_new", "history_new_11_targets"),
        ("history_get", "get"),
        ("history_insert", "insert_and_evict"),
        ("history_insert_if_absent", "insert_if_absent_behind"),
        ("history_truncate_above", "truncate_above"),
        ("history_rates", "rates_fresh_11_targets"),
        ("history_entries", "entries_31000"),
        ("history_recent_hashes", "recent_hashes"),
        ("enforce_monotone_desc", "enforce_monotone_desc_64"),
        (
            "hold_defined_then_monotone",
            "hold_defined_then_monotone_64",
        ),
        ("published_depth_rates", "published_depth_rates_11"),
        ("fee_at_target_sat_kvb", "fee_at_target_sat_kvb_11"),
    ];

    /// The names of the header before which `juleyomu_` stands and after which a parenthesis opens.
    fn exported() -> Vec<&'static str> {
        let after = HEADER.split("juleyomu_").skip(1);
        let is_part = |c: char| c.is_ascii_alphanumeric() || c == '_';
        let name = |text: &'static str| {
            let (name, rest) = text.split_at(text.find(|c| !is_part(c))?);
            rest.starts_with('(').then_some(name)
        };
        after.filter_map(name).collect()
    }

    #[test]
    fn every_exported_function_has_a_row() {
        let mut bench = Bench {
            rounds: 0,
            ..Bench::default()
        };
        for part in PARTS {
            part.bench(&mut bench);
        }
        let mut names: Vec<&str> = bench.rows.iter().map(|row| row.name.as_str()).collect();
        let row_of = |function: &'static str| {
            let other = OTHER_NAMES.iter().find(|(of, _)| *of == function);
            other.map_or(function, |(_, row)| *row)
        };
        let functions = exported();
        assert_eq!(functions.len(), 72);
        for function in functions {
            assert!(names.contains(&row_of(function)), "{function} has no row");
        }
        let all = names.len();
        names.sort_unstable();
        names.dedup();
        assert_eq!(names.len(), all, "two rows have one name");
    }
}
