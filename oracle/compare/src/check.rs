//! Runs functions on both sides and counts where they differ.

use crate::progress::Progress;
use crate::rng::Rng;
use crate::words::{self, Input, Word, Words};

/// One function on every side. `Input` may be a whole sequence of calls, and the answer all that the
/// calls returned and left.
pub struct Function<I, A> {
    pub name: &'static str,
    pub rattle: fn(&I) -> A,
    /// The Rust with the stand-ins: the oracle.
    pub patched: fn(&I) -> A,
    /// Inputs that this refuses are not compared.
    pub domain: fn(&I) -> bool,
    pub upstream: Option<Upstream<I, A>>,
}

/// The Rust as published. Differences with it are listed apart, by region of the input.
pub struct Upstream<I, A> {
    pub answer: fn(&I) -> A,
    pub region: fn(&I) -> &'static str,
    /// Whether a difference fails the run.
    pub fails: bool,
}

// Only pointers to functions, whatever the inputs and answers are.
impl<I, A> Copy for Function<I, A> {}
impl<I, A> Copy for Upstream<I, A> {}

impl<I, A> Clone for Function<I, A> {
    fn clone(&self) -> Self {
        *self
    }
}

impl<I, A> Clone for Upstream<I, A> {
    fn clone(&self) -> Self {
        *self
    }
}

impl<I: Input, A: Words + 'static> Function<I, A> {
    pub const fn new(name: &'static str, rattle: fn(&I) -> A, patched: fn(&I) -> A) -> Self {
        Function {
            name,
            rattle,
            patched,
            domain: |_| true,
            upstream: None,
        }
    }

    pub const fn within(self, domain: fn(&I) -> bool) -> Self {
        Function { domain, ..self }
    }

    /// For a function that a stand-in concerns: differences are expected, and listed by region.
    pub const fn upstream(self, answer: fn(&I) -> A, region: fn(&I) -> &'static str) -> Self {
        let upstream = Some(Upstream {
            answer,
            region,
            fails: false,
        });
        Function { upstream, ..self }
    }

    /// For a function that no stand-in concerns: a difference fails the run.
    pub const fn same_upstream(self, answer: fn(&I) -> A) -> Self {
        let upstream = Some(Upstream {
            answer,
            region: |_| "no stand-in",
            fails: true,
        });
        Function { upstream, ..self }
    }

    fn differs(&self, rust: fn(&I) -> A, input: &I) -> bool {
        (self.domain)(input) && !words::same(&(self.rattle)(input).words(), &rust(input).words())
    }

    /// A smaller input that still shows a difference, as far as single steps lead.
    fn shrunk(&self, rust: fn(&I) -> A, mut input: I) -> I {
        const STEPS: usize = 10_000;
        for _ in 0..STEPS {
            let size = words::size(&input.words());
            let next = input.smaller().into_iter().find(|candidate| {
                words::size(&candidate.words()) < size && self.differs(rust, candidate)
            });
            match next {
                Some(next) => input = next,
                None => break,
            }
        }
        input
    }

    /// Keeps the smallest input with a difference that was found so far.
    fn keep_smallest(&self, kept: &mut Option<Difference>, rust: fn(&I) -> A, input: &I) {
        let size = kept.as_ref().map(|kept| words::size(&kept.input));
        if size.is_some_and(|size| size <= words::size(&input.words())) {
            return;
        }
        let input = self.shrunk(rust, input.clone());
        *kept = Some(Difference {
            input: input.words(),
            rattle: (self.rattle)(&input).words(),
            rust: rust(&input).words(),
        });
    }
}

/// What `--cases` and `--seed` ask for.
pub struct Plan {
    pub seed: u64,
    pub cases: u64,
}

impl Plan {
    /// The size of the largest random job, and the default of `--cases`.
    pub const DEFAULT_CASES: u64 = 10_000_000;
    pub const DEFAULT_SEED: u64 = 1;

    /// How many random inputs a job takes that takes `default` of them by default.
    pub fn scaled(&self, default: u64) -> u64 {
        let scaled = u128::from(default) * u128::from(self.cases);
        (scaled / u128::from(Self::DEFAULT_CASES)) as u64
    }
}

type Work = Box<dyn FnOnce(&mut Tally, &mut Progress, Rng)>;

/// A function and the inputs that it is to be compared on.
pub struct Job {
    function: &'static str,
    count: u64,
    work: Work,
}

impl Job {
    /// The given inputs.
    pub fn over<I, A, L>(function: Function<I, A>, inputs: L) -> Job
    where
        I: Input,
        A: Words + 'static,
        L: IntoIterator<Item = I>,
        L::IntoIter: ExactSizeIterator + 'static,
    {
        let inputs = inputs.into_iter();
        Job {
            function: function.name,
            count: inputs.len() as u64,
            work: Box::new(move |tally, progress, _| tally.compare(&function, inputs, progress)),
        }
    }

    /// `count` random inputs.
    pub fn random<I, A>(function: Function<I, A>, count: u64, draw: fn(&mut Rng) -> I) -> Job
    where
        I: Input,
        A: Words + 'static,
    {
        Job {
            function: function.name,
            count,
            work: Box::new(move |tally, progress, mut rng| {
                let inputs = (0..count).map(|_| draw(&mut rng));
                tally.compare(&function, inputs, progress);
            }),
        }
    }
}

/// What was seen of one function.
struct Tally {
    function: &'static str,
    cases: u64,
    differences: u64,
    smallest: Option<Difference>,
    regions: Vec<Region>,
}

/// An input with two different answers.
struct Difference {
    input: Vec<Word>,
    rattle: Vec<Word>,
    rust: Vec<Word>,
}

/// What was seen against the Rust as published in one region of the input.
struct Region {
    name: &'static str,
    fails: bool,
    cases: u64,
    differences: u64,
    /// Differences that have no distance: a NaN on one side, or lists of different lengths.
    apart: u64,
    largest: Option<(u64, Difference)>,
    /// Kept only where a difference fails the run.
    smallest: Option<Difference>,
}

impl Tally {
    fn new(function: &'static str) -> Tally {
        Tally {
            function,
            cases: 0,
            differences: 0,
            smallest: None,
            regions: Vec::new(),
        }
    }

    fn compare<I: Input, A: Words + 'static>(
        &mut self,
        function: &Function<I, A>,
        inputs: impl Iterator<Item = I>,
        progress: &mut Progress,
    ) {
        let (mut rattle, mut rust) = (Vec::new(), Vec::new());
        for input in inputs {
            progress.step();
            if !(function.domain)(&input) {
                continue;
            }
            self.cases += 1;
            rattle.clear();
            (function.rattle)(&input).write(&mut rattle);
            rust.clear();
            (function.patched)(&input).write(&mut rust);
            if !words::same(&rattle, &rust) {
                self.differences += 1;
                function.keep_smallest(&mut self.smallest, function.patched, &input);
            }
            if let Some(upstream) = &function.upstream {
                rust.clear();
                (upstream.answer)(&input).write(&mut rust);
                let region = self.region((upstream.region)(&input), upstream.fails);
                if !region.agrees(&input, &rattle, &rust) && upstream.fails {
                    function.keep_smallest(&mut region.smallest, upstream.answer, &input);
                }
            }
        }
    }

    fn region(&mut self, name: &'static str, fails: bool) -> &mut Region {
        let found = self.regions.iter().position(|region| region.name == name);
        let place = found.unwrap_or_else(|| {
            self.regions.push(Region {
                name,
                fails,
                cases: 0,
                differences: 0,
                apart: 0,
                largest: None,
                smallest: None,
            });
            self.regions.len() - 1
        });
        &mut self.regions[place]
    }
}

impl Region {
    /// Counts a case, and says whether the answers are the same.
    fn agrees<I: Input>(&mut self, input: &I, rattle: &[Word], rust: &[Word]) -> bool {
        self.cases += 1;
        if words::same(rattle, rust) {
            return true;
        }
        self.differences += 1;
        let Some(distance) = words::distance(rattle, rust) else {
            self.apart += 1;
            return false;
        };
        if self
            .largest
            .as_ref()
            .is_none_or(|(most, _)| *most < distance)
        {
            let difference = Difference {
                input: input.words(),
                rattle: rattle.to_vec(),
                rust: rust.to_vec(),
            };
            self.largest = Some((distance, difference));
        }
        false
    }
}

impl Difference {
    fn print(&self, rust: &str) {
        println!("    input    {}", words::show(&self.input));
        println!("    rattle   {}", words::show(&self.rattle));
        println!("    {rust:<8} {}", words::show(&self.rust));
    }
}

/// Cases and differences of a part.
#[derive(Clone, Copy, Default)]
pub struct Count {
    pub cases: u64,
    pub differences: u64,
}

impl std::ops::AddAssign for Count {
    fn add_assign(&mut self, other: Count) {
        self.cases += other.cases;
        self.differences += other.differences;
    }
}

impl std::fmt::Display for Count {
    fn fmt(&self, f: &mut std::fmt::Formatter<'_>) -> std::fmt::Result {
        write!(f, "{} cases, {} differences", self.cases, self.differences)
    }
}

/// Runs the jobs of a part and prints what was seen.
pub fn run(part: &str, jobs: Vec<Job>, seed: u64) -> Count {
    let mut progress = Progress::new(part, jobs.iter().map(|job| job.count).sum());
    let mut tallies: Vec<Tally> = Vec::new();
    for (number, job) in jobs.into_iter().enumerate() {
        progress.enter(job.function);
        let rng = Rng::new(seed, &format!("{part} {} {number}", job.function));
        let found = tallies.iter().position(|t| t.function == job.function);
        let place = found.unwrap_or_else(|| {
            tallies.push(Tally::new(job.function));
            tallies.len() - 1
        });
        (job.work)(&mut tallies[place], &mut progress, rng);
    }
    progress.finish();
    print_differences(part, &tallies)
}

/// The cases, and the differences that fail the run: those with the patched Rust, and those with the
/// published one where no stand-in is concerned. A case that differs from both counts twice.
fn print_differences(part: &str, tallies: &[Tally]) -> Count {
    let mut failing = Count::default();
    let mut upstream = Count::default();
    for tally in tallies {
        failing.cases += tally.cases;
        failing.differences += tally.differences;
        for region in &tally.regions {
            upstream.cases += region.cases;
            upstream.differences += region.differences;
            failing.differences += if region.fails { region.differences } else { 0 };
        }
    }
    println!("{part}: {failing}");
    for tally in tallies {
        if let Some(smallest) = &tally.smallest {
            let Tally {
                function,
                differences,
                ..
            } = tally;
            println!("  {function}: {differences} differences, at its smallest input:");
            smallest.print("patched");
        }
    }
    if upstream.cases > 0 {
        println!("{part} against upstream: {upstream}");
        for tally in tallies {
            for region in &tally.regions {
                region.print(tally.function);
            }
        }
    }
    failing
}

impl Region {
    fn print(&self, function: &str) {
        let Region {
            name,
            cases,
            differences,
            apart,
            ..
        } = self;
        print!("  {function}, {name}: {cases} cases, {differences} differences");
        if *apart > 0 {
            print!(", {apart} of them not comparable");
        }
        if let Some(smallest) = &self.smallest {
            println!(", at its smallest input:");
            smallest.print("upstream");
            return;
        }
        let Some((distance, difference)) = &self.largest else {
            println!();
            return;
        };
        let floats = difference
            .rust
            .iter()
            .any(|word| matches!(word, Word::Float(_)));
        let unit = if floats { " ulp" } else { "" };
        println!(", at most {distance}{unit}, as at");
        difference.print("upstream");
    }
}

#[cfg(test)]
mod tests {
    use super::*;

    /// Differs where a list has two elements from 100 up.
    const BROKEN: Function<Vec<u64>, u64> = Function::new(
        "broken",
        |list| list.iter().filter(|n| **n >= 100).count().min(2) as u64,
        |list| list.iter().filter(|n| **n >= 100).count().min(1) as u64,
    );

    fn tally(function: Function<Vec<u64>, u64>) -> Tally {
        let mut tally = Tally::new(function.name);
        let inputs = (0..50).map(|n| (n..2 * n).map(|n| 7 * n).collect());
        tally.compare(&function, inputs, &mut Progress::new("test", 50));
        tally
    }

    #[test]
    fn a_difference_is_shrunk() {
        let tally = tally(BROKEN);
        assert_eq!(tally.cases, 50);
        let smallest = tally.smallest.expect("a difference");
        assert!(words::same(&smallest.input, &vec![100_u64, 100].words()));
        assert!(words::same(&smallest.rattle, &2_u64.words()));
        assert!(words::same(&smallest.rust, &1_u64.words()));
    }

    #[test]
    fn inputs_outside_the_domain_are_not_compared() {
        let tally = tally(BROKEN.within(|list| list.len() < 2));
        assert_eq!((tally.cases, tally.differences), (2, 0));
    }

    #[test]
    fn upstream_is_counted_by_region() {
        let region = |list: &Vec<u64>| if list.len() < 10 { "short" } else { "long" };
        let tally = tally(
            Function {
                rattle: BROKEN.patched,
                ..BROKEN
            }
            .upstream(BROKEN.rattle, region),
        );
        assert_eq!(tally.differences, 0);
        let [short, long] = &tally.regions[..] else {
            panic!("two regions");
        };
        assert_eq!((short.cases, long.cases), (10, 40));
        assert_eq!(long.differences, 40);
        assert_eq!(
            long.largest.as_ref().map(|(distance, _)| *distance),
            Some(1)
        );
    }

    #[test]
    fn upstream_fails_the_run_where_no_stand_in_is_concerned() {
        let function = Function {
            rattle: BROKEN.patched,
            ..BROKEN
        };
        let listed = tally(function.upstream(BROKEN.rattle, |_| "all"));
        assert!(listed.regions[0].smallest.is_none());
        assert_eq!(print_differences("listed", &[listed]).differences, 0);
        let failing = tally(function.same_upstream(BROKEN.rattle));
        let smallest = failing.regions[0].smallest.as_ref().expect("a difference");
        assert!(words::same(&smallest.input, &vec![100_u64, 100].words()));
        assert!(words::same(&smallest.rattle, &1_u64.words()));
        assert!(words::same(&smallest.rust, &2_u64.words()));
        assert_eq!(print_differences("failing", &[failing]).differences, 41);
    }

    #[test]
    fn a_case_that_differs_from_both_counts_twice() {
        let tally = tally(BROKEN.same_upstream(BROKEN.patched));
        assert_eq!(tally.differences, 41);
        assert_eq!(print_differences("both", &[tally]).differences, 82);
    }

    #[test]
    fn random_jobs_scale_with_cases() {
        let plan = |cases| Plan { seed: 1, cases };
        assert_eq!(plan(Plan::DEFAULT_CASES).scaled(1_000), 1_000);
        assert_eq!(plan(0).scaled(1_000), 0);
        assert_eq!(plan(u64::MAX).scaled(Plan::DEFAULT_CASES), u64::MAX);
    }
}
