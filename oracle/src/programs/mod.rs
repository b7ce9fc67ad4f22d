//! The two programs, frame_lister and nlsf_stabiliser: what each prints for an input, in document 01's
//! words over the crate's answers (in whole numbers where a store of its stabiliser leaves 16 bits), and
//! the list of inputs that crates/programs_cases replays.

mod lister;
mod sections;
mod stabiliser;

use crate::hold::Outcome;
use crate::record::{Files, Records};
use crate::report;
use crate::rng::Rng;
use lister::Lister;
use stabiliser::Stabiliser;
use std::collections::{BTreeMap, BTreeSet};

/// One of the two programs, and what its inputs were.
trait Program: Default {
    const NAME: &'static str;
    /// Its number in the records.
    const CALL: u8;
    /// The numbers of document 01's table that can refuse an input.
    const REFUSALS: &'static [u32];

    /// Puts its inputs on the list.
    fn inputs(list: &mut List<Self>, rng: &mut Rng) -> Outcome;
    /// What it prints, or the number that refuses the input.
    fn answer(&mut self, input: &[u8]) -> Result<String, u32>;
    /// That the accepted inputs took every way.
    fn complete(&self) -> Outcome;
}

/// The list, the same every time.
pub fn files() -> Result<Files, String> {
    let (mut records, mut rng) = (Records::default(), Rng::new(0));
    let calls = [
        list::<Lister>(&mut records, &mut rng)?,
        list::<Stabiliser>(&mut records, &mut rng)?,
    ];
    Ok(Files::new(records, &calls))
}

/// The program's name, and how many inputs it has.
fn list<P: Program>(records: &mut Records, rng: &mut Rng) -> Result<(&'static str, u64), String> {
    let mut list = List {
        records,
        program: P::default(),
        inputs: 0,
        causes: BTreeMap::new(),
    };
    P::inputs(&mut list, rng)?;
    list.complete().map_err(|e| format!("{}: {e}", P::NAME))?;
    Ok((P::NAME, list.inputs))
}

struct List<'a, P> {
    records: &'a mut Records,
    program: P,
    inputs: u64,
    /// Of each number why it refused.
    causes: BTreeMap<u32, BTreeSet<&'static str>>,
}

impl<P: Program> List<'_, P> {
    fn accepted(&mut self, input: &[u8]) -> Outcome {
        self.put(0, "nothing", input)
    }

    fn refused(&mut self, number: u32, cause: &'static str, input: &[u8]) -> Outcome {
        self.causes.entry(number).or_default().insert(cause);
        self.put(number, cause, input)
    }

    /// Writes the input down with what is printed, where this number refuses it, 0 for none.
    fn put(&mut self, number: u32, cause: &str, input: &[u8]) -> Outcome {
        let answer = self.program.answer(input);
        let found = answer.as_ref().err().copied().unwrap_or(0);
        if found != number {
            let hex = report::hex(input);
            return Err(format!(
                "{}: REFUSED with {found}, not with {number} for {cause}: {} bytes: {hex}",
                P::NAME,
                input.len()
            ));
        }
        // "A refusal prints only `refused N`."
        let text = answer.unwrap_or_else(|number| format!("refused {number}\n"));
        self.records.printed(P::CALL, input, &text);
        self.inputs += 1;
        Ok(())
    }

    /// That each number refused for more than one cause, and that every way was taken.
    fn complete(&self) -> Outcome {
        let causes = |number| self.causes.get(number).map_or(0, BTreeSet::len);
        let few = P::REFUSALS.iter().filter(|number| causes(number) < 2);
        report::complete(few.map(|number| format!("refused with {number} for two causes")))?;
        self.program.complete()
    }
}

/// Goes on where no number refuses.
fn accepted(refusal: u32) -> Result<(), u32> {
    match refusal {
        0 => Ok(()),
        number => Err(number),
    }
}

// ---- what both print

/// A word and numbers.
fn line<T: Copy + Into<i32>>(word: &str, numbers: &[T]) -> String {
    let numbers = numbers.iter().map(|&number| format!(" {}", number.into()));
    word.to_string() + &numbers.collect::<String>() + "\n"
}

/// A word, how many numbers follow, and the numbers.
fn counted<T: Copy + Into<i32>>(word: &str, numbers: &[T]) -> String {
    line(&format!("{word} {}", numbers.len()), numbers)
}
