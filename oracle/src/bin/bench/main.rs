//! Our calls' time and instructions beside the crate's and libopus's: `bench FOLDER` measures, and
//! writes the page and its drawings there. Nothing here passes or fails.

mod bars;
mod chart;
mod counting;
#[cfg(libopus)]
mod encoder;
mod frames;
mod growth;
mod handed;
#[cfg(libopus)]
mod libopus;
mod measured;
mod ours;
#[cfg(libopus)]
mod packets;
mod page;
mod plot;
#[cfg(libopus)]
mod repacketizer;
mod row;
mod side;
mod size;
mod spectra;
mod speech;
mod symbols;
mod timing;
mod unopus;
mod written;

use frames::Frame;
use growth::{growth, Growth};
use oracle::rng::Rng;
use ours::Ours;
use page::Results;
use row::{BySize, Row};
use size::Size;
use speech::Said;
use std::path::Path;
use std::{env, fs};

/// Every row of the tables, with the same inputs in each run.
fn rows() -> Vec<Row> {
    let rng = &mut Rng::new(1);
    let mut rows = symbols::rows(rng);
    let mut said = each_size(|size| many(|| speech::said(rng, size)));
    let spoken = |(size, said): &mut (Size, Vec<Said>)| {
        let frames = said.iter_mut().map(|said| said.frame::<Ours>(*size));
        (*size, frames.collect())
    };
    let spoken = said.iter_mut().map(spoken).collect();
    rows.extend(frames::rows("Frames as of speech, read", &spoken));
    rows.extend(written::rows("Frames as of speech, written", &said));
    #[cfg(libopus)]
    rows.extend(frames::rows(
        "Frames of libopus's encoder, read",
        &each_size(|size| encoder::frames(rng, size)),
    ));
    rows.extend(frames::rows(
        "Frames of random bytes, read",
        &each_size(|size| many(|| Frame::random(rng, size))),
    ));
    rows.extend(spectra::rows(rng));
    #[cfg(libopus)]
    rows.extend(packets::rows(rng));
    rows
}

fn each_size<T>(mut inputs: impl FnMut(Size) -> Vec<T>) -> BySize<T> {
    Size::all().map(|size| (size, inputs(size))).collect()
}

fn many<T>(one: impl FnMut() -> T) -> Vec<T> {
    std::iter::repeat_with(one).take(frames::FRAMES).collect()
}

fn main() {
    let words: Vec<String> = env::args().skip(1).collect();
    let mut rows = rows();
    let listed = rows.len();
    let Growth {
        rows: grown,
        symbols,
        longest,
    } = growth(&mut Rng::new(2));
    rows.extend(grown);
    rows.push(handed::row());
    match words.iter().map(String::as_str).collect::<Vec<_>>()[..] {
        [counting::WORD] => counting::run(&mut rows),
        [folder] => {
            let mut rows = measured::measure(&mut rows, timing::rounds());
            let handed = rows.pop().expect("the row that was put last");
            let results = Results {
                handed,
                growth: symbols.into_iter().zip(rows.split_off(listed)).collect(),
                rows,
                longest,
            };
            write(Path::new(folder), &results);
        }
        _ => panic!("usage: bench FOLDER"),
    }
}

fn write(folder: &Path, results: &Results) {
    let files = [
        ("BENCH.md", results.page()),
        ("BENCH.svg", bars::bars(&results.rows)),
        ("BENCH-GROWTH.svg", plot::plot(&results.panels())),
    ];
    for (name, text) in files {
        fs::write(folder.join(name), text).unwrap_or_else(|error| panic!("{name}: {error}"));
    }
    print!("{}", results.page());
}
