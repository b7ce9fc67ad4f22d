//! The crate's rows, in the order of `tg_table_entry`.

use crate::row::{ordered_rows, Book};
use crate::silk::structs::silk_NLSF_CB_struct;
use crate::silk::tables_LTP::*;
use crate::silk::tables_NLSF_CB_NB_MB::silk_NLSF_CB_NB_MB;
use crate::silk::tables_NLSF_CB_WB::silk_NLSF_CB_WB;
use crate::silk::tables_gain::*;
use crate::silk::tables_other::*;
use crate::silk::tables_pitch_lag::*;
use crate::silk::tables_pulses_per_block::*;

/// Begins the names of the rows that are not from the crate's text.
pub const BOOKS: &str = "nlsf-codebooks.txt";

macro_rules! lent {
    ($table:ident) => {
        &$table
    };
}

ordered_rows!(lent);

/// The entries of every inverse row.
pub fn inverse_rows() -> Vec<Vec<u8>> {
    let rows = (0..3).flat_map(rows).map(|(_, entries)| entries);
    rows.map(|entries| entries.iter().map(|&entry| entry as u8).collect())
        .collect()
}

fn books() -> [Book; 2] {
    [("NB_MB", &silk_NLSF_CB_NB_MB), ("WB", &silk_NLSF_CB_WB)].map(
        |(name, book): (_, &silk_NLSF_CB_struct)| Book {
            name: format!("{BOOKS} {name}"),
            step: book.quantStepSize_Q16,
            vectors: book.CB1_NLSF_Q8,
            weights: book.CB1_Wght_Q9,
            selectors: book.ec_sel,
            predictors: book.pred_Q8,
            gaps: book.deltaMin_Q15,
            first: book.CB1_iCDF,
            residuals: book.ec_iCDF,
        },
    )
}
