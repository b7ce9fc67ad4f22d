//! The side indices of a frame.

mod crate_writer;
mod fields;
mod read;
mod record_ways;
mod write;

use super::{Change, Given, Size};
use crate::rng::Rng;
use crate::silk::structs::{silk_NLSF_CB_struct, SideInfoIndices};
use crate::silk::tables_NLSF_CB_NB_MB::silk_NLSF_CB_NB_MB;
use crate::silk::tables_NLSF_CB_WB::silk_NLSF_CB_WB;
use crate::silk::tables_other::{silk_uniform4_iCDF, silk_uniform6_iCDF, silk_uniform8_iCDF};
use crate::silk::tables_pitch_lag::{
    silk_pitch_contour_10_ms_NB_iCDF, silk_pitch_contour_10_ms_iCDF, silk_pitch_contour_NB_iCDF,
    silk_pitch_contour_iCDF,
};
use std::mem::transmute;

pub use crate_writer::by_the_crate;
pub use fields::{Range, FIELDS, LAG};
pub use read::{set, IndicesRead, Read};
pub use write::{IndicesWritten, Write};

/// The indices as include/tignarops.h, the crate and libopus lay them out.
#[repr(C)]
#[derive(Clone, Copy, Debug, Default, PartialEq, Eq)]
pub struct Record {
    pub gains: [i8; 4],
    pub ltp: [i8; 4],
    pub nlsf: [i8; 17],
    pub lag: i16,
    pub contour: i8,
    pub signal_type: i8,
    pub offset_type: i8,
    pub interp: i8,
    pub period: i8,
    pub ltp_scale: i8,
    pub seed: i8,
}

impl Record {
    pub fn any(rng: &mut Rng) -> Self {
        let mut some = || rng.word() as i8;
        Record {
            gains: [(); 4].map(|()| some()),
            ltp: [(); 4].map(|()| some()),
            nlsf: [(); 17].map(|()| some()),
            lag: i16::from(some()) << 8 | i16::from(some()),
            contour: some(),
            signal_type: some(),
            offset_type: some(),
            interp: some(),
            period: some(),
            ltp_scale: some(),
            seed: some(),
        }
    }

    // SAFETY of both: numbers, laid out alike.

    fn of_the_crate(indices: SideInfoIndices) -> Self {
        unsafe { transmute(indices) }
    }

    fn for_the_crate(self) -> SideInfoIndices {
        unsafe { transmute(self) }
    }
}

/// What is kept for the next frame.
#[derive(Clone, Copy, Debug, Default, PartialEq, Eq)]
pub struct Kept {
    pub prev_type: u32,
    pub prev_lag: i16,
}

/// What a call on side indices is given.
#[derive(Clone, Debug)]
pub struct Call {
    pub size: Size,
    pub active: u32,
    pub mode: u32,
    pub record: Record,
    pub kept: Kept,
}

impl Given for Call {
    fn all() -> Vec<Call> {
        let mut all = Vec::new();
        for size in Size::all() {
            for (active, mode) in [(0, 0), (0, 1), (0, 2), (1, 0), (1, 1), (1, 2)] {
                all.extend((0..3).map(|prev_type| Call {
                    size,
                    active,
                    mode,
                    record: Record::default(),
                    kept: Kept {
                        prev_type,
                        prev_lag: 0,
                    },
                }));
            }
        }
        all
    }

    fn numbers(&self) -> [u32; 5] {
        let (size, kept) = (self.size, self.kept);
        [
            size.khz,
            size.subframes,
            self.active,
            self.mode,
            kept.prev_type,
        ]
    }

    fn size(&mut self) -> &mut Size {
        &mut self.size
    }

    fn outside() -> Vec<Change<Call>> {
        let changes: [fn(&mut Call); 6] = [
            |c| c.active = 2,
            |c| c.active = u32::MAX,
            |c| c.mode = 3,
            |c| c.mode = u32::MAX,
            |c| c.kept.prev_type = 3,
            |c| c.kept.prev_type = u32::MAX,
        ];
        changes.map(|change| Box::new(change) as _).into()
    }
}

impl Call {
    fn any_prev_lag(&mut self, rng: &mut Rng) {
        let from_an_end = rng.between(0, 7) as i16;
        self.kept.prev_lag = match rng.between(0, 3) {
            0 => i16::MIN + from_an_end,
            1 => i16::MAX - from_an_end,
            2 => rng.between(0, 16 * self.size.khz - 1) as i16,
            _ => rng.word() as i16,
        };
    }

    /// Whether the lag is coded relative to the one before, or after a symbol that says it is not.
    pub fn delta_is_due(&self) -> bool {
        self.mode == 2 && self.kept.prev_type == 2
    }

    // ---- the crate's rows for the frame

    fn low_bits(&self) -> &'static [u8] {
        match self.size.khz {
            8 => &silk_uniform4_iCDF,
            12 => &silk_uniform6_iCDF,
            _ => &silk_uniform8_iCDF,
        }
    }

    fn contours(&self) -> &'static [u8] {
        match (self.size.khz, self.size.subframes) {
            (8, 2) => &silk_pitch_contour_10_ms_NB_iCDF,
            (8, _) => &silk_pitch_contour_NB_iCDF,
            (_, 2) => &silk_pitch_contour_10_ms_iCDF,
            _ => &silk_pitch_contour_iCDF,
        }
    }

    fn book(&self) -> &'static silk_NLSF_CB_struct {
        match self.size.khz {
            16 => &silk_NLSF_CB_WB,
            _ => &silk_NLSF_CB_NB_MB,
        }
    }
}
