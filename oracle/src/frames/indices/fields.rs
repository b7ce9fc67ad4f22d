//! The fields of a record one after the other, and which values document 01's writer accepts of them.

use super::{Call, Record};
use crate::domain::order;
use crate::rng::Rng;
use crate::silk::tables_LTP::{silk_LTP_gain_iCDF_ptrs, silk_LTP_per_index_iCDF};
use crate::silk::tables_gain::{silk_delta_gain_iCDF, silk_gain_iCDF};
use crate::silk::tables_other::{
    silk_LTPscale_iCDF, silk_NLSF_interpolation_factor_iCDF, silk_uniform4_iCDF, silk_uniform8_iCDF,
};
use std::array::from_fn;
use std::ops::RangeInclusive;

/// How many fields a record has.
pub const FIELDS: usize = 33;

// Their places; of arrays, that of the first entry.
const GAINS: usize = 0;
const LTP: usize = 4;
const NLSF: usize = 8;
pub const LAG: usize = 25;
const CONTOUR: usize = 26;
const SIGNAL_TYPE: usize = 27;
const OFFSET_TYPE: usize = 28;
const INTERP: usize = 29;
const PERIOD: usize = 30;
const LTP_SCALE: usize = 31;
const SEED: usize = 32;

/// The values of a field that the frame reads: those that a symbol gives it, or the one that is fixed.
pub type Range = Option<RangeInclusive<i16>>;

impl Record {
    pub fn fields(&self) -> [i16; FIELDS] {
        let first = self.gains.iter().chain(&self.ltp).chain(&self.nlsf);
        let last = [
            self.contour,
            self.signal_type,
            self.offset_type,
            self.interp,
            self.period,
            self.ltp_scale,
            self.seed,
        ];
        let first = first.map(|&field| field.into()).chain([self.lag]);
        let mut all = first.chain(last.map(i16::from));
        from_fn(|_| all.next().unwrap())
    }

    fn of_fields(fields: [i16; FIELDS]) -> Self {
        let small = fields.map(|field| field as i8);
        Record {
            gains: from_fn(|i| small[GAINS + i]),
            ltp: from_fn(|i| small[LTP + i]),
            nlsf: from_fn(|i| small[NLSF + i]),
            lag: fields[LAG],
            contour: small[CONTOUR],
            signal_type: small[SIGNAL_TYPE],
            offset_type: small[OFFSET_TYPE],
            interp: small[INTERP],
            period: small[PERIOD],
            ltp_scale: small[LTP_SCALE],
            seed: small[SEED],
        }
    }

    pub fn with(&self, place: usize, value: i16) -> Self {
        let mut fields = self.fields();
        fields[place] = value;
        Record::of_fields(fields)
    }

    /// This record where the frame reads a field, the other one elsewhere.
    pub fn over(&self, ranges: &[Range; FIELDS], other: &Record) -> Self {
        let (fields, others) = (self.fields(), other.fields());
        Record::of_fields(from_fn(|place| match ranges[place] {
            Some(_) => fields[place],
            None => others[place],
        }))
    }
}

/// The numbers of a row's symbols. Each has a probability, which `tables::hold_all` checks.
fn symbols(row: &[u8]) -> Range {
    Some(0..=row.len() as i16 - 1)
}

impl Call {
    /// Of each field what the frame reads, by its type and period: RFC 6716 section 4.2.7 and
    /// document 01, "Side indices".
    pub fn ranges(&self) -> [Range; FIELDS] {
        let voiced = self.record.signal_type == 2;
        let (subframes, order) = (self.size.subframes as usize, order(self.size.khz));
        from_fn(|place| match place {
            GAINS if self.mode != 2 => {
                let (high, low) = (silk_gain_iCDF[0].len(), silk_uniform8_iCDF.len());
                Some(0..=(high * low) as i16 - 1)
            }
            GAINS..=3 if place - GAINS < subframes => symbols(&silk_delta_gain_iCDF),
            LTP..=7 if voiced && place - LTP < subframes => symbols(self.filters()),
            NLSF => symbols(&self.book().CB1_iCDF[..32]),
            NLSF..=24 if place - NLSF <= order => Some(-10..=10),
            LAG if voiced => Some(0..=16 * self.size.khz as i16 - 1),
            CONTOUR if voiced => symbols(self.contours()),
            SIGNAL_TYPE if self.active == 1 => Some(1..=2),
            SIGNAL_TYPE => Some(0..=0),
            OFFSET_TYPE => Some(0..=1),
            INTERP if subframes == 4 => symbols(&silk_NLSF_interpolation_factor_iCDF),
            INTERP => Some(4..=4),
            PERIOD if voiced => symbols(&silk_LTP_per_index_iCDF),
            LTP_SCALE if voiced && self.mode == 0 => symbols(&silk_LTPscale_iCDF),
            LTP_SCALE if voiced => Some(0..=0),
            SEED => symbols(&silk_uniform4_iCDF),
            _ => None,
        })
    }

    /// The row of the filters; of a period that has none, any.
    fn filters(&self) -> &'static [u8] {
        let [first, ..] = silk_LTP_gain_iCDF_ptrs;
        let row = silk_LTP_gain_iCDF_ptrs.get(self.record.period as usize);
        row.copied().unwrap_or(first)
    }

    pub fn can_be_written(&self) -> bool {
        let fields = self.record.fields().into_iter();
        let mut fields = fields.zip(self.ranges());
        fields.all(|(field, range)| match range {
            Some(range) => range.contains(&field),
            None => true,
        })
    }

    /// The record with each field that the frame reads at these values by the ends of its range.
    pub fn with_each(&self, values: fn(i16, i16) -> Vec<i16>) -> Vec<Record> {
        let ranges = self.ranges().into_iter().enumerate();
        let ranges = ranges.filter_map(|(place, range)| Some((place, range?.into_inner())));
        let values = ranges.flat_map(|(place, (least, most))| {
            let values = values(least, most).into_iter();
            values.map(move |value| (place, value))
        });
        values
            .map(|(place, value)| self.record.with(place, value))
            .collect()
    }

    /// Sets every field that the frame reads to a value that can be written.
    pub fn fit(&mut self, rng: &mut Rng) {
        self.set_each(|range| {
            let past = rng.or_end(0, (range.end() - range.start()) as u32);
            range.start() + past as i16
        });
    }

    /// Sets every field that the frame reads to what is chosen by its range.
    pub fn set_each(&mut self, mut choose: impl FnMut(RangeInclusive<i16>) -> i16) {
        // By these two the frame reads others.
        let first = [SIGNAL_TYPE, PERIOD];
        let others = (0..FIELDS).filter(|place| !first.contains(place));
        for place in first.into_iter().chain(others) {
            if let Some(range) = self.ranges()[place].clone() {
                self.record = self.record.with(place, choose(range));
            }
        }
    }
}
