use crate::raw;
use crate::{answer, Refusal};
use std::num::NonZeroU32;

/// A whole packet of speech that was accepted, with the places of its frames.
#[derive(Clone, Copy, Debug)]
pub struct Packet<'a> {
    bytes: &'a [u8],
    places: raw::Packet,
}

impl<'a> Packet<'a> {
    /// 0 to 11.
    pub fn config(&self) -> u32 {
        self.places.config
    }

    /// The code of RFC 6716, section 3.2, 0 to 3.
    pub fn arrangement(&self) -> u32 {
        self.places.arrangement
    }

    /// The bytes that padding takes, its length bytes included.
    pub fn padding(&self) -> u32 {
        self.places.padding
    }

    /// The frames, 1 to 12, each as the part of the packet that it is: at most 1,275 bytes, none if it
    /// was not sent.
    pub fn frames(&self) -> impl DoubleEndedIterator<Item = &'a [u8]> + ExactSizeIterator {
        let Packet { bytes, places } = *self;
        (0..places.count as usize)
            .map(move |k| &bytes[places.start[k].into()..][..places.size[k].into()])
    }
}

/// The frames of a whole packet. Refused where it has more than 16,384 bytes, breaks a rule of RFC 6716,
/// section 3, or is not SILK in mono.
pub fn packet_read(bytes: &[u8]) -> Result<Packet<'_>, Refusal> {
    // SAFETY: a slice's pointer is not null and names as many bytes as its length.
    let places = unsafe { raw::tg_packet_read(bytes.as_ptr(), bytes.len()) };
    answer(places.refusal, Packet { bytes, places })
}

/// Writes a packet of frames that stand one behind the other, as many as there are sizes: the shortest
/// packet of them, or one of exactly `length` bytes, filled with padding. Answers the packet's length;
/// the buffer's bytes behind it stay.
///
/// ```
/// use std::num::NonZeroU32;
/// use tignarops::{packet_read, packet_write, Reader, Refusal};
///
/// // Two frames of 20 ms at 16 kHz: 3 bytes and 2.
/// let (frames, sizes) = ([7, 7, 7, 0xff, 0xa5], [3, 2]);
/// let mut buf = [0; 60];
/// assert_eq!(packet_write(&mut buf, 9, &frames, &sizes, None)?, 7);
/// assert_eq!(packet_write(&mut buf, 9, &frames, &sizes, NonZeroU32::new(60))?, 60);
///
/// let packet = packet_read(&buf)?;
/// assert_eq!((packet.config(), packet.frames().len()), (9, 2));
/// let second = packet.frames().nth(1).unwrap();
/// assert_eq!(Reader::open(second)?.bits(8)?, 0xa5);
/// # Ok::<(), Refusal>(())
/// ```
pub fn packet_write(
    buf: &mut [u8],
    config: u32,
    frames: &[u8],
    sizes: &[u16],
    length: Option<NonZeroU32>,
) -> Result<usize, Refusal> {
    // SAFETY: as in `packet_read`, for the three slices; the one that is written is borrowed alone.
    let a = unsafe {
        raw::tg_packet_write(
            buf.as_mut_ptr(),
            buf.len(),
            config,
            frames.as_ptr(),
            frames.len(),
            sizes.as_ptr(),
            sizes.len(),
            length.map_or(0, NonZeroU32::get),
        )
    };
    answer(a.refusal, a.length as usize)
}
