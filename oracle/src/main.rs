//! Holds our calls and tables to the crate's and to libopus's, stabilising to whole numbers where a store
//! of theirs leaves 16 bits, what it and decoding leave to the promise that every gap is kept, the calls on
//! whole packets to a plain rewrite and to libopus's, and what our writer writes to reading back: what the
//! cases were, then a table with a row for each exported call and for the crate, the promise, the rewrite
//! and libopus, below it the first difference of each row, then the recorded answers. A difference is
//! counted and stops nothing; status 1 where there is one, or where a way was never compared, or not as
//! often as it must be.
//!
//! CASES is how many cases at random each exported call has with the crate or the rewrite, five times as
//! many where a vector's gaps are tested, ten times where a whole packet is read; with libopus it has as
//! many less those that document 01 refuses. Cases at limits, along packets of every length, on a grid of
//! small vectors and on broken states come besides, whatever it is.
//! SEED picks the cases. ORACLE_CASES and ORACLE_SEED stand in for them. `record` writes the recorded
//! answers anew; `overflow`, built for debugging, holds that no accepted call overflows in the crate.

use oracle::board::Board;
use oracle::hold::{Extent, Plans};
use oracle::reader::Reading;
use oracle::record::{self, Files};
use oracle::spectra::{self, Spectra};
use oracle::writer::Writing;
use oracle::{frames, hold, packets, programs, roundtrip, tables, types};
use std::path::{Path, PathBuf};
use std::process::ExitCode;
use std::{env, fs};

/// Cases of each call; with fewer, a way that is never compared, or seldom, is said and fails nothing.
const CASES: u64 = 200_000;

/// As many, built for debugging.
const OVERFLOW_CASES: u64 = 30_000;

fn main() -> ExitCode {
    let words: Vec<String> = env::args().skip(1).collect();
    let outcome = match words.iter().map(String::as_str).collect::<Vec<_>>()[..] {
        ["overflow"] => overflow(),
        ["record"] => write_records(),
        [] => compare(None, None),
        [cases] => compare(Some(cases), None),
        [cases, seed] => compare(Some(cases), Some(seed)),
        _ => Err("usage: oracle [CASES [SEED] | overflow | record]".to_string()),
    };
    match outcome {
        Ok(()) => ExitCode::SUCCESS,
        Err(message) => {
            println!("{message}");
            ExitCode::FAILURE
        }
    }
}

fn compare(cases: Option<&str>, seed: Option<&str>) -> Result<(), String> {
    let extent = Extent {
        cases: number(cases, "ORACLE_CASES", CASES)?,
        share: 1,
        seed: number(seed, "ORACLE_SEED", 1)?,
    };
    let mut board = Board::new(extent.cases >= CASES);
    println!("{} cases of each call, seed {}", extent.cases, extent.seed);
    if !cfg!(libopus) {
        println!("no libopus.a; comparison with libopus left out");
    }
    tables::hold_all(&mut board);
    to_both::<Reading>(&extent, &mut board);
    to_both::<Writing>(&extent, &mut board);
    to_both::<Spectra>(&extent, &mut board);
    spectra::always::hold(&extent, &mut board);
    types::hold(&extent, &mut board);
    frames::hold(&extent, &mut board);
    roundtrip::hold(&extent, &mut board);
    packets::hold(&extent, &mut board);
    board.every_exported();
    board.show();
    let outcomes = [read_records(), board.verdict().map(|_| ())];
    let faults: Vec<String> = outcomes.into_iter().filter_map(Result::err).collect();
    match faults.is_empty() {
        true => Ok(()),
        false => Err(faults.join("\n")),
    }
}

fn to_both<K: Plans>(extent: &Extent, board: &mut Board) {
    hold::to_the_crate::<K>(extent, board);
    #[cfg(libopus)]
    hold::to_libopus::<K>(
        &Extent {
            share: 4,
            ..*extent
        },
        board,
    );
}

fn overflow() -> Result<(), String> {
    if !cfg!(debug_assertions) {
        return Err("overflow: built without overflow checks".to_string());
    }
    let extent = Extent {
        cases: OVERFLOW_CASES,
        share: 16,
        seed: number(None, "ORACLE_SEED", 1)?,
    };
    let mut board = Board::quiet();
    hold::to_the_crate::<Reading>(&extent, &mut board);
    hold::to_the_crate::<Writing>(&extent, &mut board);
    hold::to_the_crate::<Spectra>(&extent, &mut board);
    frames::calls_to_the_crate(&extent, &mut board);
    let cases = board.verdict().inspect_err(|_| board.show())?;
    println!("overflow: of {cases} cases, built with overflow checks, none overflows in the crate");
    Ok(())
}

/// The word, else what the variable says, else the default.
fn number(word: Option<&str>, variable: &str, default: u64) -> Result<u64, String> {
    let said = word.map(str::to_string).or_else(|| env::var(variable).ok());
    let number = said.map_or(Ok(default), |said| said.parse());
    number.map_err(|e| format!("{variable}: {e}"))
}

// ---- the recorded answers

/// A program that replays a list, by the name of its folder.
type List = (&'static str, fn() -> Result<Files, String>);

const LISTS: [List; 5] = [
    ("reader_cases", record::files::<Reading>),
    ("writer_cases", record::files::<Writing>),
    ("spectra_cases", record::files::<Spectra>),
    ("frames_cases", frames::files),
    ("programs_cases", programs::files),
];

fn folder(name: &str) -> PathBuf {
    let crates = Path::new(env!("CARGO_MANIFEST_DIR")).join("../crates");
    crates.join(name)
}

fn write_records() -> Result<(), String> {
    for (program, files) in LISTS {
        let files = files().map_err(|e| format!("record: {program}: {e}"))?;
        let write = |name, bytes: &[u8]| {
            fs::write(folder(program).join(name), bytes)
                .map_err(|e| format!("record: {program}/{name}: {e}"))
        };
        write("stdin", &files.stdin)?;
        write("stdout", files.stdout.as_bytes())?;
    }
    Ok(())
}

/// That the files in the tree are what the crate answers today.
fn read_records() -> Result<(), String> {
    for (program, files) in LISTS {
        let files = files().map_err(|e| format!("record: {program}: {e}"))?;
        same(program, "stdin", &files.stdin)?;
        same(program, "stdout", files.stdout.as_bytes())?;
        let all = files.stdout.lines().last().unwrap_or_default();
        println!("record: crates/{program} has the crate's answers of today: {all}");
    }
    Ok(())
}

fn same(program: &str, name: &str, bytes: &[u8]) -> Result<(), String> {
    match fs::read(folder(program).join(name)) {
        Ok(found) if found == bytes => Ok(()),
        Ok(found) => {
            let place = found.iter().zip(bytes).take_while(|(a, b)| a == b).count();
            Err(format!(
                "record: {program}/{name} DIFFERS from what is recorded today, from byte {place} on"
            ))
        }
        Err(e) => Err(format!("record: {program}/{name}: {e}")),
    }
}
