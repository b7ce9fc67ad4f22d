//! Safe calls of Tignarops: the reading and writing of Opus speech packets, each call proved.
//!
//! A refused call gives its [`Refusal`] and changes nothing: neither the reader or writer, nor a lent
//! slice.
//!
//! ```
//! use tignarops::{Reader, Refusal, Writer};
//!
//! // Type and offset of an active frame, RFC 6716 section 4.2.7.3, as an inverse table.
//! let kind = [232, 158, 10, 0];
//! let mut packet = [0; 4];
//! let mut writer = Writer::open(&mut packet)?;
//! writer.icdf(2, &kind, 8)?;
//! writer.uint(777, 1000)?;
//! writer.bits(5, 3)?;
//! assert_eq!(writer.icdf(4, &kind, 8), Err(Refusal::Value));
//! assert_eq!(writer.account()?, 15);
//! assert!(writer.finish()?);
//!
//! let mut reader = Reader::open(&packet)?;
//! assert_eq!(reader.icdf(&kind, 8)?, 2);
//! assert_eq!(reader.uint(1000)?, 777);
//! assert_eq!(reader.bits(3)?, 5);
//! assert_eq!(reader.account()?, 15);
//! # Ok::<(), Refusal>(())
//! ```

mod packet;
mod raw;
mod reader;
mod spectrum;
mod writer;

pub use packet::{packet_read, packet_write, Packet};
pub use reader::Reader;
pub use spectrum::{nlsf_decode, nlsf_stabilise};
pub use writer::Writer;

use std::fmt;

/// Why a call was refused: document 01's table, in its order. The programs alone refuse with 9.
#[derive(Clone, Copy, Debug, PartialEq, Eq)]
pub enum Refusal {
    /// 1: more than 1,275 bytes; of a call on whole packets, more than 16,384.
    TooLong = 1,
    /// 2: a state that no call can have handed back for these bytes.
    Unsound,
    /// 3: a total of more than 1,000,000 bits.
    Total,
    /// 4: a number outside its range.
    Number,
    /// 5: a table that breaks its rule.
    Table,
    /// 6: a slice of another length.
    Length,
    /// 7: a gap set that breaks its rule.
    Gaps,
    /// 8: a value that cannot be written.
    Value,
    /// 10: a packet that breaks a rule of RFC 6716, section 3.
    Framing = 10,
    /// 11: a packet that is not SILK in mono.
    NotSpeech,
}

impl fmt::Display for Refusal {
    fn fmt(&self, f: &mut fmt::Formatter) -> fmt::Result {
        let words = match self {
            Refusal::TooLong => "more than 1,275 bytes, or 16,384 of a whole packet",
            Refusal::Unsound => "an unsound state",
            Refusal::Total => "a total above 1,000,000 bits",
            Refusal::Number => "a number out of its range",
            Refusal::Table => "a table that breaks its rule",
            Refusal::Length => "a slice of another length",
            Refusal::Gaps => "a gap set that breaks its rule",
            Refusal::Value => "a value that cannot be written",
            Refusal::Framing => "a packet that breaks a rule of RFC 6716, section 3",
            Refusal::NotSpeech => "a packet that is not SILK in mono",
        };
        write!(f, "refused with {}: {words}", *self as u32)
    }
}

impl std::error::Error for Refusal {}

/// The answer x of a call with this refusal number, 0 for none.
fn answer<T>(refusal: u32, x: T) -> Result<T, Refusal> {
    const ALL: [Refusal; 10] = [
        Refusal::TooLong,
        Refusal::Unsound,
        Refusal::Total,
        Refusal::Number,
        Refusal::Table,
        Refusal::Length,
        Refusal::Gaps,
        Refusal::Value,
        Refusal::Framing,
        Refusal::NotSpeech,
    ];
    if refusal == 0 {
        return Ok(x);
    }
    let named = ALL.into_iter().find(|r| *r as u32 == refusal);
    Err(named.expect("a refusal that the header names"))
}

/// The state of a reader or writer beside its bytes.
#[repr(C)]
#[derive(Clone, Copy, Debug, Default, PartialEq, Eq)]
pub struct State<T> {
    pub storage: u32,
    pub end_offs: u32,
    pub end_window: u32,
    pub nend_bits: u32,
    pub nbits_total: u32,
    pub offs: u32,
    pub rng: u32,
    pub val: u32,
    pub ext: u32,
    pub rem: T,
    pub error: T,
}

/// A reader's state beside its packet.
pub type ReaderState = State<u32>;

/// A writer's state beside its buffer: its last two numbers have a sign.
pub type WriterState = State<i32>;

/// The side indices of a frame.
#[repr(C)]
#[derive(Clone, Copy, Debug, Default, PartialEq, Eq)]
pub struct Indices {
    pub gains: [i8; 4],
    pub ltp: [i8; 4],
    pub nlsf: [i8; 17],
    pub lag: i16,
    pub contour: i8,
    pub signal_type: i8,
    pub offset_type: i8,
    pub interp: i8,
    pub period: i8,
    pub ltp_scale: i8,
    pub seed: i8,
}

/// What a frame's indices are read and written by.
#[derive(Clone, Copy, Debug, PartialEq, Eq)]
pub struct Setting {
    /// 8, 12 or 16.
    pub khz: u32,
    /// 2 or 4.
    pub subframes: u32,
    pub active: bool,
    /// 0 independent, 1 independent without a scale of its own, 2 conditional.
    pub mode: u32,
    pub before: Before,
}

/// What the next frame needs of this one.
#[derive(Clone, Copy, Debug, Default, PartialEq, Eq)]
pub struct Before {
    /// The signal type, 0 to 2.
    pub signal_type: u32,
    pub lag: i16,
}

/// What a frame's pulses are read and written by.
#[derive(Clone, Copy, Debug, PartialEq, Eq)]
pub struct Excitation {
    /// 8, 12 or 16.
    pub khz: u32,
    /// 2 or 4.
    pub subframes: u32,
    /// 0 to 2.
    pub signal_type: u32,
    /// 0 or 1.
    pub offset_type: u32,
}

impl Excitation {
    /// The pulses of such a frame: 16 for each block.
    pub fn count(&self) -> usize {
        (5 * self.khz as usize * self.subframes as usize).div_ceil(16) * 16
    }
}
