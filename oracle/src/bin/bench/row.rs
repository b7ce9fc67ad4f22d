//! A row of the tables: the same work done by each side.

use crate::size::Size;
use std::ops::Range;

/// Does the inputs of these places, and answers a number by which the sides are held to agree.
pub type Work = Box<dyn FnMut(Range<usize>) -> u64>;

pub struct Row {
    /// The table that it belongs to.
    pub group: &'static str,
    pub name: String,
    pub inputs: usize,
    /// How many symbols, frames, vectors or packets an input is.
    pub units: usize,
    pub works: Works,
}

/// In the order of `side::SIDES`; none of a side that has no such call.
pub type Works = Vec<Option<Work>>;

/// A call on each input, of which the side has a copy of its own.
pub fn on_each<T: Clone + 'static>(
    inputs: &[T],
    mut call: impl FnMut(&mut T) -> u32 + 'static,
) -> Work {
    let mut inputs = inputs.to_vec();
    Box::new(move |places| {
        let inputs = inputs[places].iter_mut();
        inputs.map(|input| u64::from(call(input))).sum()
    })
}

/// The inputs of each size.
pub type BySize<T> = Vec<(Size, Vec<T>)>;

/// A part of a frame, and the work on it of each side.
pub type Part<T> = (&'static str, fn(&[T], Size) -> Works);

/// A row for each part at each size.
pub fn by_size<T>(group: &'static str, sizes: &BySize<T>, parts: &[Part<T>]) -> Vec<Row> {
    let row = |(part, works): &Part<T>, (size, inputs): &(Size, Vec<T>)| Row {
        group,
        name: format!("{part}, {}", size.name()),
        inputs: inputs.len(),
        units: 1,
        works: works(inputs, *size),
    };
    let part = |part| sizes.iter().map(move |size| row(part, size));
    parts.iter().flat_map(part).collect()
}

impl Row {
    /// Refuses sides that do different work.
    pub fn agree(&mut self) {
        let all = 0..self.inputs;
        let works = self.works.iter_mut().flatten();
        let answers = works.map(|work| work(all.clone()));
        let answers: Vec<u64> = answers.collect();
        let same = answers.iter().all(|answer| *answer == answers[0]);
        assert!(same, "{}, {}: {answers:?}", self.group, self.name);
    }
}
