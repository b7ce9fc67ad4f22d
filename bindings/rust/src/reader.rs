use crate::raw::{self, Read};
use crate::{answer, Before, Excitation, Indices, ReaderState, Refusal, Setting};

/// A packet with the place reached in it.
#[derive(Clone, Copy, Debug)]
pub struct Reader<'a> {
    packet: &'a [u8],
    state: ReaderState,
}

impl<'a> Reader<'a> {
    /// At the packet's start.
    pub fn open(packet: &'a [u8]) -> Result<Self, Refusal> {
        // SAFETY: a slice's pointer is not null and names as many bytes as its length.
        let a = unsafe { raw::tg_dec_open(packet.as_ptr(), packet.len()) };
        answer(
            a.refusal,
            Reader {
                packet,
                state: a.state,
            },
        )
    }

    /// At a place that was reached before. Any state may be handed in: calls refuse an unsound one.
    pub fn at(packet: &'a [u8], state: ReaderState) -> Self {
        Reader { packet, state }
    }

    pub fn state(&self) -> ReaderState {
        self.state
    }

    /// The bits taken so far: 1 for a fresh reader.
    pub fn account(&self) -> Result<u32, Refusal> {
        // SAFETY: as in `open`.
        let a = unsafe { raw::tg_dec_account(self.packet.as_ptr(), self.packet.len(), self.state) };
        answer(a.refusal, a.value)
    }

    /// A bit that is 1 with probability 1 in 2^exponent, exponent 1 to 15.
    pub fn bit(&mut self, exponent: u32) -> Result<bool, Refusal> {
        // SAFETY: as in `open`.
        let a = unsafe {
            raw::tg_dec_bit(
                self.packet.as_ptr(),
                self.packet.len(),
                self.state,
                exponent,
            )
        };
        Ok(self.keep(a)? == 1)
    }

    /// A symbol of an inverse table of 1 to 256 entries, scale 1 to 8.
    pub fn icdf(&mut self, table: &[u8], scale: u32) -> Result<u32, Refusal> {
        let (packet, n) = (self.packet, table.len());
        // SAFETY: as in `open`, for both slices; nothing is written.
        let a = unsafe {
            raw::tg_dec_icdf(
                packet.as_ptr(),
                packet.len(),
                self.state,
                table.as_ptr(),
                n,
                scale,
            )
        };
        self.keep(a)
    }

    /// A number below total, 2 or more. A packet that says more gives total - 1, and the state's error
    /// is then 1.
    pub fn uint(&mut self, total: u32) -> Result<u32, Refusal> {
        // SAFETY: as in `open`.
        let a =
            unsafe { raw::tg_dec_uint(self.packet.as_ptr(), self.packet.len(), self.state, total) };
        self.keep(a)
    }

    /// Raw bits from the packet's end, 1 to 25 of them.
    pub fn bits(&mut self, n: u32) -> Result<u32, Refusal> {
        // SAFETY: as in `open`.
        let a = unsafe { raw::tg_dec_bits(self.packet.as_ptr(), self.packet.len(), self.state, n) };
        self.keep(a)
    }

    /// The side indices of a frame, over a record whose fields that the frame does not read stay; and
    /// what the next frame needs.
    pub fn indices(
        &mut self,
        record: Indices,
        setting: Setting,
    ) -> Result<(Indices, Before), Refusal> {
        // SAFETY: as in `open`.
        let a = unsafe {
            raw::tg_decode_indices(
                self.packet.as_ptr(),
                self.packet.len(),
                self.state,
                record,
                setting.khz,
                setting.subframes,
                setting.active.into(),
                setting.mode,
                setting.before.signal_type,
                setting.before.lag,
            )
        };
        let before = Before {
            signal_type: a.prev_type,
            lag: a.prev_lag,
        };
        answer(a.refusal, ())?;
        self.state = a.state;
        Ok((a.record, before))
    }

    /// The pulses of a frame, as many as `excitation.count()`.
    pub fn pulses(&mut self, pulses: &mut [i16], excitation: Excitation) -> Result<(), Refusal> {
        // SAFETY: as in `open`, for both slices; the one that is written is borrowed alone.
        let a = unsafe {
            raw::tg_decode_pulses(
                self.packet.as_ptr(),
                self.packet.len(),
                self.state,
                pulses.as_mut_ptr(),
                pulses.len(),
                excitation.khz,
                excitation.subframes,
                excitation.signal_type,
                excitation.offset_type,
            )
        };
        self.keep(a).map(|_| ())
    }

    fn keep(&mut self, a: Read) -> Result<u32, Refusal> {
        self.state = a.state;
        answer(a.refusal, a.value)
    }
}
