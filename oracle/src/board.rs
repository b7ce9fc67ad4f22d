//! The table of a run: each exported call, with whom it was compared, and how its cases came out.

use crate::hold::Outcome;
use crate::report;

/// The numbers that refuse a call, up to 11, and 0 for an accepted one.
pub const REFUSALS: usize = 12;

/// With whom a call is compared.
pub const CRATE: &str = "crate";
pub const LIBOPUS: &str = "libopus";
pub const REWRITE: &str = "rewrite";
/// With what is promised of a call, by a plain test.
pub const PROMISE: &str = "promise";

/// How the cases of one call came out.
#[derive(Clone, Default)]
pub struct Score {
    answers: [u64; REFUSALS],
    differences: u64,
    first: Option<String>,
}

impl Score {
    /// A case that the other side answers with this refusal or 0; where it is the first that differs, the
    /// report is kept.
    pub fn count(&mut self, refusal: u32, same: bool, report: impl FnOnce() -> String) {
        self.answers[refusal as usize] += 1;
        if !same {
            self.differences += 1;
            self.first.get_or_insert_with(report);
        }
    }

    /// A case of calls that are all accepted.
    pub fn outcome(&mut self, outcome: Outcome) {
        let report = outcome.err();
        self.count(0, report.is_none(), || report.unwrap_or_default());
    }

    /// How many cases were answered with this refusal or 0.
    pub fn answered(&self, refusal: usize) -> u64 {
        self.answers[refusal]
    }

    pub fn cases(&self) -> u64 {
        self.answers.iter().sum()
    }

    /// Cases, accepted, refused and differences.
    fn numbers(&self) -> [u64; 4] {
        let (cases, accepted) = (self.cases(), self.answers[0]);
        [cases, accepted, cases - accepted, self.differences]
    }

    pub fn first(&self) -> Option<&str> {
        self.first.as_deref()
    }
}

struct Row {
    call: &'static str,
    with: &'static str,
    score: Score,
}

#[derive(Default)]
pub struct Board {
    rows: Vec<Row>,
    faults: Vec<String>,
    /// Nothing is said of what the cases were.
    quiet: bool,
    /// The cases are too few for every way to be among them.
    lenient: bool,
}

const HEADER: &str = include_str!("../../include/tignarops.h");

impl Board {
    /// Of enough cases for every way to be among them, or of fewer.
    pub fn new(enough: bool) -> Self {
        Board {
            lenient: !enough,
            ..Board::default()
        }
    }

    /// Says nothing of what the cases were.
    pub fn quiet() -> Self {
        Board {
            quiet: true,
            ..Board::default()
        }
    }

    /// Beside the rows of the same call.
    pub fn row(&mut self, call: &'static str, with: &'static str, score: &Score) {
        let score = score.clone();
        let last = self.rows.iter().rposition(|row| row.call == call);
        let place = last.map_or(self.rows.len(), |last| last + 1);
        self.rows.insert(place, Row { call, with, score });
    }

    /// What the cases were.
    pub fn note(&self, line: String) {
        if !self.quiet {
            println!("{line}");
        }
    }

    /// An error is a fault besides the differences, and fails the run.
    pub fn check(&mut self, what: &str, outcome: Outcome) {
        if let Err(fault) = outcome {
            self.faults.push(format!("{what}: {fault}"));
        }
    }

    /// The ways and answers that no case had, or too few; a fault where there were enough cases.
    pub fn covered(&mut self, what: &str, missing: impl Iterator<Item = String>) {
        match report::complete(missing) {
            Err(missing) if self.lenient => println!("{what}: so few cases; {missing}"),
            outcome => self.check(what, outcome),
        }
    }

    /// That the header declares no call without a row.
    pub fn every_exported(&mut self) {
        let before = HEADER.split('(').map(|text| text.rsplit([' ', '\n']));
        let exported = before.filter_map(|mut words| words.next());
        let exported: Vec<&str> = exported.filter(|word| word.starts_with("tg_")).collect();
        let compared = |call: &&str| self.rows.iter().any(|row| row.call == *call);
        let missing = exported.into_iter().filter(|call| !compared(call));
        let outcome = report::complete(missing.map(str::to_string));
        self.check("include/tignarops.h", outcome);
    }

    fn all(&self) -> [u64; 4] {
        let scores = self.rows.iter().map(|row| row.score.numbers());
        scores.fold([0; 4], |sums, row| {
            std::array::from_fn(|i| sums[i] + row[i])
        })
    }

    /// The table, below it the first difference of each row, and the faults.
    pub fn show(&self) {
        let head = ["cases", "accepted", "refused", "differences"];
        line("call", "with", head.map(str::to_string));
        for row in &self.rows {
            let numbers = row.score.numbers().map(|n| n.to_string());
            line(row.call, row.with, numbers);
        }
        line("all", "", self.all().map(|n| n.to_string()));
        for row in &self.rows {
            if let Some(first) = row.score.first() {
                println!(
                    "{}, {}: the first that differs\n{first}",
                    row.call, row.with
                );
            }
        }
        for fault in &self.faults {
            println!("{fault}");
        }
    }

    /// How many cases there were; an error where one differs or something else is wrong.
    pub fn verdict(&self) -> Result<u64, String> {
        match (self.all(), self.faults.len()) {
            ([cases, _, _, 0], 0) => Ok(cases),
            ([cases, _, _, differences], faults) => Err(format!(
                "FAILED: of {cases} cases {differences} differ; other faults: {faults}"
            )),
        }
    }
}

fn line(call: &str, with: &str, numbers: [String; 4]) {
    let numbers = numbers.map(|number| format!("{number:>13}"));
    println!("{call:<18} {with:<14}{}", numbers.concat());
}
