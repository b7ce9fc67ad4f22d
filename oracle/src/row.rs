//! Rows of numbers, and holding a table to them.

use crate::board::Score;
use crate::ours::END;

/// A row's name, for messages, and its numbers.
pub type Row = (String, Vec<u32>);

pub fn one<T: Copy + Into<i32>>(name: &str, numbers: &[T]) -> Vec<Row> {
    let numbers = numbers.iter().map(|&n| n.into() as u32).collect();
    vec![(name.to_string(), numbers)]
}

pub fn each(name: &str, rows: impl IntoIterator<Item = impl AsRef<[u8]>>) -> Vec<Row> {
    rows.into_iter()
        .enumerate()
        .flat_map(|(i, row)| one(&format!("{name}[{i}]"), row.as_ref()))
        .collect()
}

/// The rows of shell table n: that of p pulses, 1 to 16, has p + 1 entries.
pub fn shell(n: u32, table: &[u8; 152], offsets: &[u8; 17]) -> Vec<Row> {
    (1..=16)
        .flat_map(|p| {
            let start = usize::from(offsets[p]);
            one(
                &format!("silk_shell_code_table{n} of {p} pulses"),
                &table[start..=start + p],
            )
        })
        .collect()
}

/// The rows of signs: a sign is one of two, and the table keeps the first entry of each row.
pub fn signs(table: &[u8; 42]) -> Vec<Row> {
    each("silk_sign_iCDF", table.map(|first| [first, 0]))
}

/// Names the tables of inverse rows, in the order of `tg_table_entry`, for a source whose macro `$lent`
/// lends a table by its name.
macro_rules! inverse_rows {
    ($lent:ident, $($shape:ident $table:ident)*) => {
        [$($crate::row::$shape(stringify!($table), $lent!($table)),)*].concat()
    };
}
pub(crate) use inverse_rows;

/// The rows of a source in the order of `tg_table_entry`: `books()` are its two books.
macro_rules! ordered_rows {
    ($lent:ident) => {
        pub fn rows(table: u32) -> Vec<$crate::row::Row> {
            let [nb_mb, wb] = books();
            match table {
                0 => $crate::row::inverse_rows!($lent, each silk_LBRR_flags_iCDF_ptr),
                1 => index_rows(&nb_mb, &wb),
                2 => pulse_rows(),
                3..=7 => nb_mb.table(table - 3),
                _ => wb.table(table - 8),
            }
        }

        fn index_rows(nb_mb: &$crate::row::Book, wb: &$crate::row::Book) -> Vec<$crate::row::Row> {
            [
                $crate::row::inverse_rows!($lent,
                    one silk_type_offset_no_VAD_iCDF
                    one silk_type_offset_VAD_iCDF
                    each silk_gain_iCDF
                    one silk_delta_gain_iCDF
                ),
                nb_mb.first_rows(),
                wb.first_rows(),
                nb_mb.residual_rows(),
                wb.residual_rows(),
                $crate::row::inverse_rows!($lent,
                    one silk_NLSF_EXT_iCDF
                    one silk_NLSF_interpolation_factor_iCDF
                    one silk_pitch_lag_iCDF
                    one silk_pitch_delta_iCDF
                    one silk_pitch_contour_10_ms_NB_iCDF
                    one silk_pitch_contour_NB_iCDF
                    one silk_pitch_contour_10_ms_iCDF
                    one silk_pitch_contour_iCDF
                    one silk_LTP_per_index_iCDF
                    each silk_LTP_gain_iCDF_ptrs
                    one silk_LTPscale_iCDF
                    one silk_uniform3_iCDF
                    one silk_uniform4_iCDF
                    one silk_uniform5_iCDF
                    one silk_uniform6_iCDF
                    one silk_uniform8_iCDF
                ),
            ]
            .concat()
        }

        fn pulse_rows() -> Vec<$crate::row::Row> {
            let shell = |n, table| $crate::row::shell(n, table, $lent!(silk_shell_code_table_offsets));
            [
                $crate::row::inverse_rows!($lent,
                    each silk_rate_levels_iCDF
                    each silk_pulses_per_block_iCDF
                ),
                $crate::row::one(
                    "silk_pulses_per_block_iCDF[9] from 1",
                    &$lent!(silk_pulses_per_block_iCDF)[9][1..],
                ),
                shell(0, $lent!(silk_shell_code_table0)),
                shell(1, $lent!(silk_shell_code_table1)),
                shell(2, $lent!(silk_shell_code_table2)),
                shell(3, $lent!(silk_shell_code_table3)),
                $crate::row::inverse_rows!($lent, one silk_lsb_iCDF),
                $crate::row::signs($lent!(silk_sign_iCDF)),
            ]
            .concat()
        }

        /// The Q16 steps of the two books, which no table of ours has.
        pub fn steps() -> Vec<$crate::row::Row> {
            $crate::row::one("steps of the books", &books().map(|book| book.step))
        }
    };
}
pub(crate) use ordered_rows;

/// A spectrum book: what it is called in messages, and its tables.
pub struct Book {
    pub name: String,
    pub step: i16,
    pub vectors: &'static [u8],
    pub weights: &'static [i16],
    pub selectors: &'static [u8],
    pub predictors: &'static [u8],
    pub gaps: &'static [i16],
    pub first: &'static [u8],
    pub residuals: &'static [u8],
}

impl Book {
    fn called(&self, table: &str) -> String {
        format!("{} {table}", self.name)
    }

    /// The inverse rows of the first index.
    pub fn first_rows(&self) -> Vec<Row> {
        each(&self.called("first index"), self.first.chunks(32))
    }

    /// The inverse rows of the residuals.
    pub fn residual_rows(&self) -> Vec<Row> {
        each(&self.called("residuals"), self.residuals.chunks(9))
    }

    /// One of the five tables that are no inverse rows.
    pub fn table(&self, number: u32) -> Vec<Row> {
        match number {
            0 => one(&self.called("vectors"), self.vectors),
            1 => one(&self.called("weights"), self.weights),
            2 => one(&self.called("selectors"), self.selectors),
            3 => one(&self.called("predictors"), self.predictors),
            _ => one(&self.called("gaps"), self.gaps),
        }
    }
}

/// Holds a table to rows laid one after another, and to ending where they end.
pub fn compare(score: &mut Score, table: &str, entry: impl Fn(usize) -> u32, rows: &[Row]) {
    let row = |(name, numbers): &'_ Row| -> Vec<(String, usize, u32)> {
        let numbers = numbers.iter().enumerate();
        numbers
            .map(|(i, &number)| (name.clone(), i, number))
            .collect()
    };
    let end = ("the end".to_string(), 0, END);
    let expected = rows.iter().flat_map(row).chain([end]).enumerate();
    for (place, (name, i, number)) in expected {
        let found = entry(place);
        score.count(0, found == number, || {
            format!("DIFFER: {table}, place {place} has {found}, {name} at {i} has {number}")
        });
    }
}
