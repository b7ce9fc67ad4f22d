//! Holds our tables to the crate's and to libopus's.

#[cfg(libopus)]
use crate::board::LIBOPUS;
use crate::board::{Board, Score, CRATE};
use crate::ours::{table_entry, END, TABLES};
use crate::row::{compare, Row};
use crate::unopus;

/// How many of the tables, the last ones, are no inverse rows.
const BOOK_TABLES: usize = 10;

const NAME: &str = "tg_table_entry";

/// Of these the two that ours works out.
const WEIGHTS: &str = "weights of books";

pub fn hold_all(board: &mut Board) {
    let names = hold(CRATE, unopus::rows, board);
    let of_books = names.iter().filter(|name| name.starts_with(unopus::BOOKS));
    let of_books = of_books.count();
    board.note(format!(
        "{NAME}, {CRATE}: {} inverse rows; of {}: {} inverse rows and {BOOK_TABLES} tables",
        names.len() - of_books,
        unopus::BOOKS,
        of_books - BOOK_TABLES,
    ));
    #[cfg(libopus)]
    against_libopus(board);
    board.check("probabilities", probabilities());
    board.check("ends", ends());
}

/// What the oracle's side of the writers of frames leans on: else some symbol would have to be refused.
fn probabilities() -> Result<(), String> {
    let rows = unopus::inverse_rows();
    let empty = |row: &&Vec<u8>| row.windows(2).any(|pair| pair[0] == pair[1]);
    match rows.iter().find(empty) {
        Some(row) => Err(format!("NO PROBABILITY for a symbol of {row:?}")),
        None => Ok(()),
    }
}

#[cfg(libopus)]
fn against_libopus(board: &mut Board) {
    use crate::libopus;
    let names = hold(LIBOPUS, libopus::rows, board);
    board.note(format!(
        "{NAME}, {LIBOPUS}: {} inverse rows, {BOOK_TABLES} tables of books; the books' steps",
        names.len() - BOOK_TABLES
    ));
    let steps = (unopus::steps(), libopus::steps());
    let outcome = match steps.0[0].1 == steps.1[0].1 {
        true => Ok(()),
        false => Err(format!("DIFFER from libopus: {steps:?}")),
    };
    board.check("books", outcome);
}

/// Holds each table of ours to the rows of a source, and answers the names of those rows.
fn hold(with: &'static str, rows: fn(u32) -> Vec<Row>, board: &mut Board) -> Vec<String> {
    let (mut names, mut held, mut weights) = (Vec::new(), Score::default(), Score::default());
    for table in 0..TABLES {
        let rows = rows(table);
        let entry = |place| table_entry(table, place);
        let score = match rows[0].0.ends_with("weights") {
            true => &mut weights,
            false => &mut held,
        };
        compare(score, &format!("table {table}"), entry, &rows);
        names.extend(rows.into_iter().map(|(name, _)| name));
    }
    board.row(NAME, with, &held);
    board.row(WEIGHTS, with, &weights);
    names
}

/// That the tables end where the rows do is a part of holding them; here it is the far places.
fn ends() -> Result<(), String> {
    let far = (0..TABLES).map(|table| (table, usize::MAX));
    let unknown = [(TABLES, 0), (u32::MAX, 0)];
    for (table, place) in far.chain(unknown) {
        let entry = table_entry(table, place);
        if entry != END {
            return Err(format!(
                "NOT ENDED: table {table}, place {place} has {entry}, not {END}"
            ));
        }
    }
    Ok(())
}
