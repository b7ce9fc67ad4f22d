//! Frames are written into a buffer, finished and, where nothing was lost, read back: the buffer's length
//! and byte, then frame after frame.

use crate::both::Both;
use crate::source::Source;
use oracle::bytes::Bytes;
use oracle::domain::LONGEST;
use oracle::frames::indices::{self, Kept};
use oracle::frames::pulses;
use oracle::frames::whole::{read_by_all, Part};
use oracle::rng::Rng;
use oracle::state::Writer;
use oracle::writer::{Ask, Writing};

pub fn frames(both: &mut Both, mut source: Source) {
    let length = source.word() as u16 as usize % (LONGEST + 2);
    let mut room: Bytes = [source.byte(); LONGEST + 1];
    let buffer = &mut room[..length];
    let opened = both.coder::<Writing>(buffer, Writer::default(), Ask::Open);
    let mut written = Written {
        writer: opened.state,
        ..Written::default()
    };
    while !source.rest().is_empty() {
        written.frame(both, buffer, &mut source);
    }
    let done = both.coder::<Writing>(buffer, written.writer, Ask::Done { again: false });
    if (done.refusal, done.state.error) == (0, 0) {
        let Written {
            parts, accounts, ..
        } = &written;
        both.read_back(read_by_all(buffer, parts, accounts, &mut Rng::new(0)));
    }
}

/// What was accepted so far, with the account after each.
#[derive(Default)]
struct Written {
    writer: Writer,
    /// Of the frame before.
    kept: Option<Kept>,
    parts: Vec<Part>,
    accounts: Vec<u32>,
}

impl Written {
    /// Side indices after those of the frame before, then pulses, most often of the type that they say.
    fn frame(&mut self, both: &mut Both, buffer: &mut [u8], source: &mut Source) {
        let mut call = source.numbers();
        call.kept = self.kept.unwrap_or(call.kept);
        source.fields(&mut call);
        let given = pulses::Levelled {
            call: pulses::Call {
                size: call.size,
                signal_type: source.one_of(&[call.record.signal_type as u32; 3]),
                offset_type: source.one_of(&[call.record.offset_type as u32; 3]),
                pulses: source.pulses(call.size),
            },
            rate_level: source.one_of(&[0, 1, 2, 3, 4, 5, 6, 7, 8]),
        };
        let side = both.frame::<indices::Write>(buffer, self.writer, &call);
        let kept = side.state.1;
        if side.refusal == 0 {
            self.kept = Some(kept);
            self.accept(both, buffer, side.state.0, Part::Indices(call, kept));
        }
        let answer = both.frame::<pulses::Write>(buffer, self.writer, &given);
        if answer.refusal == 0 {
            self.accept(both, buffer, answer.state.0, Part::Pulses(given));
        }
    }

    fn accept(&mut self, both: &mut Both, buffer: &mut [u8], writer: Writer, part: Part) {
        let account = both.coder::<Writing>(buffer, writer, Ask::Account);
        self.writer = writer;
        self.parts.push(part);
        self.accounts.push(account.value);
    }
}
