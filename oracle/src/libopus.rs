//! libopus's rows, in the order of `tg_table_entry`, out of the static library's internal constants.

use crate::row::{self, ordered_rows};

/// silk_NLSF_CB_struct, with what its pointers point to.
#[repr(C)]
pub struct Book<const N: usize, const P: usize, const S: usize, const G: usize> {
    pub vectors: i16,
    pub order: i16,
    pub step_q16: i16,
    pub inverse_step_q6: i16,
    pub cb1: &'static [u8; N],
    pub weights: &'static [i16; N],
    pub cb1_icdf: &'static [u8; 64],
    pub predictors: &'static [u8; P],
    pub selectors: &'static [u8; S],
    pub ec_icdf: &'static [u8; 72],
    pub ec_rates: &'static [u8; 72],
    pub gaps: &'static [i16; G],
}

impl<const N: usize, const P: usize, const S: usize, const G: usize> Book<N, P, S, G> {
    fn tables(&self, name: &str) -> row::Book {
        row::Book {
            name: name.to_string(),
            step: self.step_q16,
            vectors: self.cb1,
            weights: self.weights,
            selectors: self.selectors,
            predictors: self.predictors,
            gaps: self.gaps,
            first: self.cb1_icdf,
            residuals: self.ec_icdf,
        }
    }
}

/// Pointers to two rows.
#[repr(C)]
pub struct Two(&'static [u8; 3], &'static [u8; 7]);

impl Two {
    fn rows(&self) -> [&'static [u8]; 2] {
        [self.0, self.1]
    }
}

/// Pointers to three rows.
#[repr(C)]
pub struct Three(&'static [u8; 8], &'static [u8; 16], &'static [u8; 32]);

impl Three {
    fn rows(&self) -> [&'static [u8]; 3] {
        [self.0, self.1, self.2]
    }
}

/// Declares constants of libopus, each with a function of its name that lends it.
macro_rules! constants {
    ($($name:ident: $shape:ty;)*) => {
        mod raw {
            use super::*;
            extern "C" {
                $(pub static $name: $shape;)*
            }
        }
        $(
            #[allow(non_snake_case)]
            pub fn $name() -> &'static $shape {
                // SAFETY: a constant of this shape in the C source; nothing writes it.
                unsafe { &raw::$name }
            }
        )*
    };
}

constants! {
    silk_LBRR_flags_iCDF_ptr: Two;
    silk_type_offset_no_VAD_iCDF: [u8; 2];
    silk_type_offset_VAD_iCDF: [u8; 4];
    silk_gain_iCDF: [[u8; 8]; 3];
    silk_delta_gain_iCDF: [u8; 41];
    silk_NLSF_CB_NB_MB: Book<320, 18, 160, 11>;
    silk_NLSF_CB_WB: Book<512, 30, 256, 17>;
    silk_NLSF_EXT_iCDF: [u8; 7];
    silk_NLSF_interpolation_factor_iCDF: [u8; 5];
    silk_pitch_lag_iCDF: [u8; 32];
    silk_pitch_delta_iCDF: [u8; 21];
    silk_pitch_contour_10_ms_NB_iCDF: [u8; 3];
    silk_pitch_contour_NB_iCDF: [u8; 11];
    silk_pitch_contour_10_ms_iCDF: [u8; 12];
    silk_pitch_contour_iCDF: [u8; 34];
    silk_LTP_per_index_iCDF: [u8; 3];
    silk_LTP_gain_iCDF_ptrs: Three;
    silk_LTPscale_iCDF: [u8; 3];
    silk_uniform3_iCDF: [u8; 3];
    silk_uniform4_iCDF: [u8; 4];
    silk_uniform5_iCDF: [u8; 5];
    silk_uniform6_iCDF: [u8; 6];
    silk_uniform8_iCDF: [u8; 8];
    silk_rate_levels_iCDF: [[u8; 9]; 2];
    silk_pulses_per_block_iCDF: [[u8; 18]; 10];
    silk_shell_code_table0: [u8; 152];
    silk_shell_code_table1: [u8; 152];
    silk_shell_code_table2: [u8; 152];
    silk_shell_code_table3: [u8; 152];
    silk_shell_code_table_offsets: [u8; 17];
    silk_lsb_iCDF: [u8; 2];
    silk_sign_iCDF: [u8; 42];
}

macro_rules! lent {
    (silk_LBRR_flags_iCDF_ptr) => {
        silk_LBRR_flags_iCDF_ptr().rows()
    };
    (silk_LTP_gain_iCDF_ptrs) => {
        silk_LTP_gain_iCDF_ptrs().rows()
    };
    ($table:ident) => {
        $table()
    };
}

ordered_rows!(lent);

fn books() -> [row::Book; 2] {
    [
        silk_NLSF_CB_NB_MB().tables("silk_NLSF_CB_NB_MB"),
        silk_NLSF_CB_WB().tables("silk_NLSF_CB_WB"),
    ]
}
