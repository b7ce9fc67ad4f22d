//! A frame is read: the numbers of its calls, and the rest is its packet.

use crate::both::Both;
use crate::source::Source;
use oracle::bytes::Bytes;
use oracle::domain::{pulses_of, LONGEST};
use oracle::frames::{indices, pulses};
use oracle::reader::{Ask, Reading};
use oracle::state::Reader;

/// Side indices, then pulses of the type that they say.
pub fn frame(both: &mut Both, mut source: Source) {
    let call = source.numbers();
    let mut room: Bytes = [0; LONGEST + 1];
    let length = source.rest().len().min(room.len());
    let packet = &mut room[..length];
    packet.copy_from_slice(&source.rest()[..length]);
    let opened = both.coder::<Reading>(packet, Reader::default(), Ask::Open);
    let side = both.frame::<indices::Read>(packet, opened.state, &call);
    let (reader, (record, _)) = side.state;
    let pulses = pulses::Call {
        size: call.size,
        signal_type: record.signal_type as u32,
        offset_type: record.offset_type as u32,
        pulses: vec![-1; pulses_of(call.size).min(320)],
    };
    both.frame::<pulses::Read>(packet, reader, &pulses);
}
