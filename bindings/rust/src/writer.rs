use crate::raw::{self, Written};
use crate::{answer, Before, Excitation, Indices, Refusal, Setting, WriterState};

/// A buffer with what is written into it so far.
#[derive(Debug)]
pub struct Writer<'a> {
    buf: &'a mut [u8],
    state: WriterState,
}

impl<'a> Writer<'a> {
    /// A fresh writer, whatever the buffer holds.
    pub fn open(buf: &'a mut [u8]) -> Result<Self, Refusal> {
        // SAFETY: a slice's pointer is not null and names as many bytes as its length.
        let a = unsafe { raw::tg_enc_open(buf.as_ptr(), buf.len()) };
        answer(
            a.refusal,
            Writer {
                buf,
                state: a.state,
            },
        )
    }

    /// A writer that goes on. Any state may be handed in: calls refuse an unsound one.
    pub fn at(buf: &'a mut [u8], state: WriterState) -> Self {
        Writer { buf, state }
    }

    pub fn state(&self) -> WriterState {
        self.state
    }

    /// The bits written so far, as a reader will count: 1 for a fresh writer. If it is at most 8 for
    /// each byte of the buffer, finishing loses nothing.
    pub fn account(&self) -> Result<u32, Refusal> {
        // SAFETY: as in `open`.
        let a = unsafe { raw::tg_enc_account(self.buf.as_ptr(), self.buf.len(), self.state) };
        answer(a.refusal, a.value)
    }

    /// A bit, exponent 1 to 15.
    pub fn bit(&mut self, value: bool, exponent: u32) -> Result<(), Refusal> {
        // SAFETY: as in `open`; the buffer is borrowed alone.
        let a = unsafe {
            raw::tg_enc_bit(
                self.buf.as_mut_ptr(),
                self.buf.len(),
                self.state,
                value.into(),
                exponent,
            )
        };
        self.keep(a)
    }

    /// A symbol of an inverse table that has a probability above 0.
    pub fn icdf(&mut self, symbol: u32, table: &[u8], scale: u32) -> Result<(), Refusal> {
        let (buf, len) = (self.buf.as_mut_ptr(), self.buf.len());
        // SAFETY: as in `bit`; the table is another slice.
        let a = unsafe {
            raw::tg_enc_icdf(
                buf,
                len,
                self.state,
                symbol,
                table.as_ptr(),
                table.len(),
                scale,
            )
        };
        self.keep(a)
    }

    /// A number below total.
    pub fn uint(&mut self, value: u32, total: u32) -> Result<(), Refusal> {
        // SAFETY: as in `bit`.
        let a = unsafe {
            raw::tg_enc_uint(
                self.buf.as_mut_ptr(),
                self.buf.len(),
                self.state,
                value,
                total,
            )
        };
        self.keep(a)
    }

    /// Raw bits at the buffer's end, 1 to 25 of them.
    pub fn bits(&mut self, value: u32, n: u32) -> Result<(), Refusal> {
        // SAFETY: as in `bit`.
        let a = unsafe {
            raw::tg_enc_bits(self.buf.as_mut_ptr(), self.buf.len(), self.state, value, n)
        };
        self.keep(a)
    }

    /// The side indices of a frame, the lag always absolute; and what the next frame needs.
    pub fn indices(&mut self, record: Indices, setting: Setting) -> Result<Before, Refusal> {
        // SAFETY: as in `bit`.
        let a = unsafe {
            raw::tg_encode_indices(
                self.buf.as_mut_ptr(),
                self.buf.len(),
                self.state,
                record,
                setting.khz,
                setting.subframes,
                setting.active.into(),
                setting.mode,
                setting.before.signal_type,
                setting.before.lag,
            )
        };
        self.state = a.state;
        answer(
            a.refusal,
            Before {
                signal_type: a.prev_type,
                lag: a.prev_lag,
            },
        )
    }

    /// The pulses of a frame, as many as `excitation.count()`, at a rate level of 0 to 8.
    pub fn pulses(
        &mut self,
        pulses: &[i16],
        excitation: Excitation,
        rate_level: u32,
    ) -> Result<(), Refusal> {
        // SAFETY: as in `bit`; the pulses are another slice.
        let a = unsafe {
            raw::tg_encode_pulses(
                self.buf.as_mut_ptr(),
                self.buf.len(),
                self.state,
                pulses.as_ptr(),
                pulses.len(),
                excitation.khz,
                excitation.subframes,
                excitation.signal_type,
                excitation.offset_type,
                rate_level,
            )
        };
        self.keep(a)
    }

    /// Ends the packet. True if nothing was lost: a reader then gives back every symbol.
    pub fn finish(mut self) -> Result<bool, Refusal> {
        // SAFETY: as in `bit`.
        let a = unsafe { raw::tg_enc_done(self.buf.as_mut_ptr(), self.buf.len(), self.state) };
        self.keep(a)?;
        Ok(self.state.error == 0)
    }

    fn keep(&mut self, a: Written) -> Result<(), Refusal> {
        self.state = a.state;
        answer(a.refusal, ())
    }
}
