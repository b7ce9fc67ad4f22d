//! Reading side indices.

use super::record_ways::{record_ways, WAYS};
use super::{Call, Kept, Record};
use crate::compare::Answer;
use crate::domain::{indices_refusal, order};
#[cfg(libopus)]
use crate::frames::{libopus, InLibopus};
use crate::frames::{Frame, Left};
use crate::ours;
use crate::reader::Reading;
use crate::rng::Rng;
use crate::silk::decode_indices::silk_decode_indices;
use crate::silk::structs::silk_decoder_state;
use crate::state::Reader;
use crate::ways::ways;
use std::mem::MaybeUninit;

/// include/tignarops.h
#[repr(C)]
pub struct IndicesRead {
    pub refusal: u32,
    pub state: Reader,
    pub record: Record,
    pub prev_type: u32,
    pub prev_lag: i16,
}

/// Reading side indices, as a call on a frame.
pub struct Read;

ways! { Way, OWN_WAYS:
    Absolute "lag absolute",
    Relative "relative",
    RelativeZero "absolute after symbol 0",
    Wrapped "lag wrapped upward",
    WrappedDown "downward",
}

impl Frame for Read {
    type Coder = Reading;
    type Given = Call;
    type Held = (Record, Kept);

    const NAME: &'static str = "tg_decode_indices";
    const WAYS: &'static [&'static [&'static str]] = &[WAYS, OWN_WAYS];
    const REFUSALS: &'static [usize] = &[1, 2, 3, 4];

    fn refill(call: &mut Call, rng: &mut Rng) {
        call.record = Record::any(rng);
        call.any_prev_lag(rng);
    }

    fn held(call: &Call) -> (Record, Kept) {
        (call.record, call.kept)
    }

    fn refusal(call: &Call, packet: &[u8], reader: &Reader) -> u32 {
        indices_refusal(packet, reader, call)
    }

    fn ours(call: &Call, packet: &mut [u8], reader: Reader) -> Answer<Left<Read>> {
        let read = ours::decode_indices(packet, reader, call);
        let kept = Kept {
            prev_type: read.prev_type,
            prev_lag: read.prev_lag,
        };
        Answer {
            refusal: read.refusal,
            value: 0,
            state: (read.state, (read.record, kept)),
        }
    }

    fn unopus(call: &Call, packet: &mut [u8], reader: Reader) -> Left<Read> {
        let mut decoder = MaybeUninit::<silk_decoder_state>::uninit();
        let decoder = decoder.as_mut_ptr();
        let mut ctx = reader.beside(packet);
        // SAFETY: every field of the decoder that the call looks at is set.
        let held = unsafe {
            set(decoder, call);
            silk_decode_indices(decoder, &mut ctx, 0, 0, call.mode as i32);
            let kept = Kept {
                prev_type: (*decoder).ec_prevSignalType as u32,
                prev_lag: (*decoder).ec_prevLagIndex,
            };
            (Record::of_the_crate((*decoder).indices), kept)
        };
        (Reader::of_the_crate(&ctx), held)
    }

    fn took(
        call: &Call,
        _: &mut [u8],
        _: Reader,
        (_, (record, _)): &Left<Read>,
        mut mark: impl FnMut(usize, bool),
    ) {
        record_ways(call, record, &mut mark);
        if record.signal_type == 2 {
            lag_ways(call, record.lag, &mut |way, taken| {
                mark(WAYS.len() + way as usize, taken)
            });
        }
    }
}

#[cfg(libopus)]
impl InLibopus for Read {
    fn libopus(call: &Call, packet: &mut [u8], reader: Reader) -> Left<Read> {
        libopus::indices(call, packet, reader)
    }
}

fn lag_ways(call: &Call, lag: i16, mark: &mut impl FnMut(Way, bool)) {
    let before = call.kept.prev_lag;
    let step = lag.wrapping_sub(before);
    let due = call.delta_is_due();
    // A lag before that no absolute lag comes near tells the two apart.
    let far = !(-11..16 * call.size.khz as i16 + 8).contains(&before);
    let relative = due && far && (-8..=11).contains(&step);
    mark(Way::Absolute, !due);
    mark(Way::Relative, relative);
    mark(Way::RelativeZero, due && far && !relative);
    mark(Way::Wrapped, relative && step > 0 && lag < before);
    mark(Way::WrappedDown, relative && step < 0 && lag > before);
}

/// Sets what the crate's call looks at.
pub unsafe fn set(decoder: *mut silk_decoder_state, call: &Call) {
    (*decoder).fs_kHz = call.size.khz as i32;
    (*decoder).nb_subfr = call.size.subframes as i32;
    (*decoder).LPC_order = order(call.size.khz) as i32;
    (*decoder).pitch_lag_low_bits_iCDF = call.low_bits();
    (*decoder).pitch_contour_iCDF = call.contours();
    (*decoder).ec_prevSignalType = call.kept.prev_type as i32;
    (*decoder).ec_prevLagIndex = call.kept.prev_lag;
    (*decoder).VAD_flags = [call.active as i32, 0, 0];
    (*decoder).psNLSF_CB = call.book();
    (*decoder).indices = call.record.for_the_crate();
}
