//! A run: cases drawn from a seed, each call compared, until there are enough inputs.

use crate::call::{Call, Lent};
use crate::compare;
use crate::coverage::Coverage;
use crate::generate;
use crate::library::Library;
use crate::random::Random;
use std::fmt::{self, Display, Formatter};
use std::time::{Duration, Instant};

/// What a run tells.
pub struct Report {
    pub seed: u64,
    pub cases: u64,
    /// How many calls of the library were compared.
    pub inputs: u64,
    pub time: Duration,
    pub coverage: Coverage,
}

impl Report {
    /// Both runs as one, by the seed of the first.
    pub fn joined(mut self, other: Report) -> Report {
        self.cases += other.cases;
        self.inputs += other.inputs;
        self.time = self.time.max(other.time);
        self.coverage.join(other.coverage);
        self
    }
}

/// The run as a case sees it.
pub struct Run<'l> {
    library: &'l mut dyn Library,
    seed: u64,
    case: u64,
    inputs: u64,
    coverage: Coverage,
    start: Instant,
}

/// Names the case wherever a panic comes from: the wrapper has some of its own.
struct NameIfItPanics(u64, u64);

impl Drop for NameIfItPanics {
    fn drop(&mut self) {
        if std::thread::panicking() {
            eprintln!("draw it again with --seed {} --case {}", self.0, self.1);
        }
    }
}

impl<'l> Run<'l> {
    pub fn new(library: &'l mut dyn Library, seed: u64) -> Run<'l> {
        Run {
            library,
            seed,
            case: 0,
            inputs: 0,
            coverage: Coverage::default(),
            start: Instant::now(),
        }
    }

    /// Draws one case. It depends on the seed and its number alone.
    pub fn draw(&mut self, case: u64) {
        self.case = case;
        let named = self.library.is_the_archive();
        let _name = named.then(|| NameIfItPanics(self.seed, case));
        generate::case(self, &mut Random::new(self.seed, case));
    }

    /// Makes one call, compares all that it did with what it has to do, and returns its code.
    pub fn check(&mut self, call: &Call, lent: &mut Lent) -> u32 {
        let expected = compare::expect(call, lent);
        let before = lent.clone();
        let copy = compare::copy_of_inputs(call);
        let code = self.library.call(call, lent);
        self.inputs += 1;
        self.coverage.note(call.function(), expected.outcome);
        let grounds = compare::grounds::of(call, &before);
        self.coverage.note_grounds(call.function(), &grounds);
        let difference = compare::difference(call, &copy, &expected, &before, code, lent);
        if let Some(difference) = difference {
            self.fail(&difference);
        }
        if let Some(difference) = self.library.typed_difference(call, &before) {
            self.fail(&format!("{call}lent:\n{before}{difference}"));
        }
        code
    }

    /// Notes an outcome of several calls together.
    pub fn note(&mut self, what: &'static str, outcome: &'static str) {
        self.coverage.note(what, outcome);
    }

    /// Ends the run with what is needed to see the case again.
    pub fn fail(&self, what: &str) -> ! {
        panic!("seed {}, case {}: {what}", self.seed, self.case);
    }

    pub fn report(self, cases: u64) -> Report {
        Report {
            seed: self.seed,
            cases,
            inputs: self.inputs,
            time: self.start.elapsed(),
            coverage: self.coverage,
        }
    }
}

/// Draws cases until `inputs` calls have been compared.
pub fn run_with(library: &mut dyn Library, seed: u64, inputs: u64) -> Report {
    let mut run = Run::new(library, seed);
    let mut case = 0;
    while run.inputs < inputs {
        run.draw(case);
        case += 1;
    }
    run.report(case)
}

impl Display for Report {
    fn fmt(&self, formatter: &mut Formatter) -> fmt::Result {
        let (seed, inputs, cases) = (self.seed, self.inputs, self.cases);
        let seconds = self.time.as_secs_f64();
        write!(formatter, "{}", self.coverage)?;
        writeln!(
            formatter,
            "seed {seed}: {inputs} inputs in {cases} cases, {seconds:.1} seconds"
        )
    }
}
