//! What is measured of each side, called as a program that uses it would.

use crate::size::Size;
use oracle::frames::indices::Record;
use oracle::models::Model;
use oracle::state::{Reader, Writer};

/// What a frame's side indices are read or written under.
#[derive(Clone, Copy)]
pub struct Setting {
    pub active: u32,
    pub mode: u32,
    pub prev_type: u32,
    pub prev_lag: i16,
}

/// Signal and offset type.
pub type Kind = (u32, u32);

/// A library's calls. Those that read and write answer the coder's range or another cheap number, by
/// which the sides are held to have done the same.
pub trait Side: 'static {
    /// A reader beside its packet.
    type Reader<'a>;
    /// A writer beside its buffer.
    type Writer<'a>;
    /// What is set up once for all frames of a size.
    type Decoder;

    fn open(packet: &mut [u8]) -> Self::Reader<'_>;
    fn resume(packet: &mut [u8], state: Reader) -> Self::Reader<'_>;
    fn reader_range(reader: &Self::Reader<'_>) -> u32;
    fn read(reader: &mut Self::Reader<'_>, model: Model) -> u32;

    fn fresh(buffer: &mut [u8]) -> Self::Writer<'_>;
    fn writer_state(writer: &Self::Writer<'_>) -> Writer;
    fn write(writer: &mut Self::Writer<'_>, model: Model, value: u32);
    fn finish(writer: &mut Self::Writer<'_>);

    fn decoder(size: Size) -> Self::Decoder;
    fn read_indices(
        decoder: &mut Self::Decoder,
        reader: &mut Self::Reader<'_>,
        setting: Setting,
    ) -> Kind;
    fn read_pulses(reader: &mut Self::Reader<'_>, pulses: &mut [i16], size: Size, kind: Kind);

    fn decode_spectrum(vector: &mut [i16], indices: &[i8; 17], khz: u32);
    fn stabilise(vector: &mut [i16], gaps: &[i16]);
}

/// A library's calls that write frames.
pub trait Scribe: Side {
    type Encoder;

    fn encoder(size: Size) -> Self::Encoder;
    fn write_indices(
        encoder: &mut Self::Encoder,
        writer: &mut Self::Writer<'_>,
        setting: Setting,
        record: Record,
    );
    /// Those that choose a rate level themselves choose this one.
    fn write_pulses(
        writer: &mut Self::Writer<'_>,
        pulses: &mut Pulses,
        size: Size,
        kind: Kind,
        level: u32,
    );
}

/// The same pulses in 16 bits, as ours takes them, and in 8, as the others do.
#[derive(Clone)]
pub struct Pulses {
    pub wide: Vec<i16>,
    pub narrow: Vec<i8>,
}

/// The work of each side that is linked, ours first.
macro_rules! sides {
    ($work:ident($($given:expr),*)) => {
        Vec::from([
            Some($work::<crate::ours::Ours>($($given),*)),
            Some($work::<crate::unopus::Unopus>($($given),*)),
            #[cfg(libopus)]
            Some($work::<crate::libopus::Libopus>($($given),*)),
        ])
    };
}
pub(crate) use sides;

/// In the order of `sides`.
pub const SIDES: &[&str] = &[
    "ours",
    "the crate",
    #[cfg(libopus)]
    "libopus",
];
