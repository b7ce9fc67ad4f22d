//! The state of a reader or writer beside its bytes, as our calls, the crate and libopus hold it.

use crate::celt::entcode::ec_ctx;
use std::fmt::Debug;

/// How many numbers a state has.
pub const FIELDS: usize = 11;

/// A state's numbers, in the order of its fields.
pub type Words = [u32; FIELDS];

/// The crate's `ec_ctx` without its buffer, as include/tignarops.h lays it out.
#[repr(C)]
#[derive(Clone, Copy, Debug, Default, PartialEq, Eq)]
pub struct State<T> {
    pub storage: u32,
    pub end_offs: u32,
    pub end_window: u32,
    pub nend_bits: u32,
    pub nbits_total: u32,
    pub offs: u32,
    pub rng: u32,
    pub val: u32,
    pub ext: u32,
    pub rem: T,
    pub error: T,
}

pub type Reader = State<u32>;

/// Held byte -1 where none is held, error -1 where a byte found no room.
pub type Writer = State<i32>;

/// struct ec_ctx of celt/entcode.h: the buffer, and the fields of `State` in its order, of which
/// nend_bits, nbits_total, rem and error are ints.
#[cfg(libopus)]
#[repr(C)]
pub struct EcCtx<T> {
    pub buf: *mut u8,
    pub fields: State<T>,
}

#[cfg(libopus)]
impl<T> EcCtx<T> {
    #[inline(always)]
    pub fn beside(bytes: &mut [u8], fields: State<T>) -> Self {
        EcCtx {
            buf: bytes.as_mut_ptr(),
            fields,
        }
    }
}

/// 32 bits, with a sign or without.
pub trait Word: Copy + Default + PartialEq + Debug {
    fn of(bits: u32) -> Self;
    fn bits(self) -> u32;
}

impl Word for u32 {
    fn of(bits: u32) -> u32 {
        bits
    }

    fn bits(self) -> u32 {
        self
    }
}

impl Word for i32 {
    fn of(bits: u32) -> i32 {
        bits as i32
    }

    fn bits(self) -> u32 {
        self as u32
    }
}

impl<T: Word> State<T> {
    pub fn of_the_crate(ctx: &ec_ctx) -> Self {
        State {
            storage: ctx.storage,
            end_offs: ctx.end_offs,
            end_window: ctx.end_window,
            nend_bits: ctx.nend_bits as u32,
            nbits_total: ctx.nbits_total as u32,
            offs: ctx.offs,
            rng: ctx.rng,
            val: ctx.val,
            ext: ctx.ext,
            rem: T::of(ctx.rem as u32),
            error: T::of(ctx.error as u32),
        }
    }

    pub fn beside(self, bytes: &mut [u8]) -> ec_ctx<'_> {
        ec_ctx {
            buf: bytes,
            storage: self.storage,
            end_offs: self.end_offs,
            end_window: self.end_window,
            nend_bits: self.nend_bits as i32,
            nbits_total: self.nbits_total as i32,
            offs: self.offs,
            rng: self.rng,
            val: self.val,
            ext: self.ext,
            rem: self.rem.bits() as i32,
            error: self.error.bits() as i32,
        }
    }

    pub fn words(&self) -> Words {
        [
            self.storage,
            self.end_offs,
            self.end_window,
            self.nend_bits,
            self.nbits_total,
            self.offs,
            self.rng,
            self.val,
            self.ext,
            self.rem.bits(),
            self.error.bits(),
        ]
    }

    /// How many turns a write or read of the model took from this state to the one after it.
    pub fn turns(&self, model: crate::models::Model, after: &Self) -> u32 {
        (after.nbits_total - self.nbits_total - model.raw_bits()) / 8
    }
}
