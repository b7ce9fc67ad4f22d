//! Calls put to our writing, to the rewrite's and to libopus's; what is written is read back.

#[cfg(libopus)]
use super::libopus;
use super::ours::{self, Written};
use super::reading::Reading;
use super::rewrite::{self, LONGEST};
use super::{answers, Call};
#[cfg(libopus)]
use crate::board::LIBOPUS;
use crate::board::{Board, Score, REWRITE};
use crate::hold::Outcome;
use crate::report;
use crate::rng::Rng;
use crate::ways::ways;

const NAME: &str = "tg_packet_write";

const REFUSED: [usize; 5] = [1, 6, 8, 10, 11];

/// As many sizes are printed of a call that differs.
const SHOWN: usize = 16;

ways! { Way, WAYS:
    One "one frame",
    Twins "two equal",
    Pair "two others",
    Equal "more, equal",
    Varied "more, with lengths",
    Twelve "12 frames",
    Empty "no bytes",
    TwoBytes "a length of two bytes",
    Longer "one byte more than arrangements 0 to 2",
    OnlyLength "padding of 1 byte",
    OneLength "of 255",
    TwoLengths "of 256",
    Longest "16,384 bytes",
    Behind "bytes behind the packet",
}

pub struct Writing {
    rewrite: Score,
    #[cfg(libopus)]
    libopus: Score,
    read_back: Score,
    ways: [u64; WAYS.len()],
    /// What a buffer holds before the call, and one for each of two sides.
    before: Vec<u8>,
    ours: Vec<u8>,
    theirs: Vec<u8>,
}

/// A side's writing.
type Write = fn(&mut [u8], &Call) -> Written;

impl Writing {
    pub fn new(rng: &mut Rng) -> Self {
        let mut before = vec![0; LONGEST + 1];
        rng.fill(&mut before);
        Writing {
            rewrite: Score::default(),
            #[cfg(libopus)]
            libopus: Score::default(),
            read_back: Score::default(),
            ways: [0; WAYS.len()],
            ours: before.clone(),
            theirs: before.clone(),
            before,
        }
    }

    /// A call on a buffer of so many bytes; a packet that it writes is read too.
    pub fn put(&mut self, room: usize, call: &Call, reading: &mut Reading) {
        let before = &self.before[..room];
        let ours = over(before, &mut self.ours, call, by_ours);
        let theirs = over(before, &mut self.theirs, call, rewrite::write);
        let same = compare(&mut self.rewrite, call, ours, theirs);
        #[cfg(libopus)]
        {
            let theirs = over(before, &mut self.theirs, call, libopus::write);
            compare(&mut self.libopus, call, ours, theirs);
        }
        let (Written { refusal, length }, buffer) = ours;
        if same && refusal == 0 {
            let packet = &buffer[..length as usize];
            self.read_back.outcome(read_back(packet, call));
            reading.put(packet);
            took(room, call, packet, |way, taken| {
                self.ways[way as usize] += u64::from(taken)
            });
        }
    }

    pub fn settle(&self, board: &mut Board) {
        let ways = || WAYS.iter().copied().zip(self.ways);
        board.note(format!(
            "{NAME}: {}; written: {}",
            answers(&self.rewrite, &REFUSED),
            report::counts(ways())
        ));
        board.row(NAME, REWRITE, &self.rewrite);
        #[cfg(libopus)]
        board.row(NAME, LIBOPUS, &self.libopus);
        board.row("frames read back", "tg_packet_read", &self.read_back);
        let refusals = REFUSED.into_iter();
        let refusals = refusals.filter(|&number| self.rewrite.answered(number) == 0);
        let refusals = refusals.map(|number| format!("refused with {number}"));
        let ways = ways().filter(|(_, n)| *n == 0);
        board.covered(NAME, refusals.chain(ways.map(|(way, _)| way.to_string())));
    }
}

fn by_ours(buffer: &mut [u8], call: &Call) -> Written {
    ours::write(buffer, call.config, call.frames, call.sizes, call.length)
}

/// What a side answers, and the buffer that it leaves.
type Left<'a> = (Written, &'a [u8]);

fn over<'a>(before: &[u8], copy: &'a mut [u8], call: &Call, write: Write) -> Left<'a> {
    let buffer = &mut copy[..before.len()];
    buffer.copy_from_slice(before);
    (write(buffer, call), buffer)
}

/// Whether both sides answer and leave the same.
fn compare(score: &mut Score, call: &Call, ours: Left, theirs: Left) -> bool {
    let same = ours == theirs;
    score.count(theirs.0.refusal, same, || {
        let mut places = ours.1.iter().zip(theirs.1);
        format!(
            "DIFFER: {} bytes of frames {:?}, configuration {}, length {}, over {} bytes\n    \
             ours:   {:?}\n    theirs: {:?}\n    first byte that differs: {:?}",
            call.frames.len(),
            &call.sizes[..call.sizes.len().min(SHOWN)],
            call.config,
            call.length,
            ours.1.len(),
            ours.0,
            theirs.0,
            places.position(|(ours, theirs)| ours != theirs)
        )
    });
    same
}

/// That our reader gives back the configuration and every frame.
fn read_back(packet: &[u8], call: &Call) -> Outcome {
    let read = ours::read(packet);
    let told = (read.refusal, read.config, read.count as usize);
    let frames = read.start.into_iter().zip(read.size).take(told.2);
    let sizes = frames.clone().map(|(_, size)| size);
    let bytes = frames.filter_map(|(start, size)| packet.get(start.into()..)?.get(..size.into()));
    let same = told == (0, call.config, call.sizes.len())
        && sizes.eq(call.sizes.iter().copied())
        && bytes.flatten().eq(call.frames);
    match same {
        true => Ok(()),
        false => Err(format!("READ BACK: {read:?} of {:?}", call.sizes)),
    }
}

/// Marks the ways of an accepted call.
fn took(room: usize, call: &Call, packet: &[u8], mut mark: impl FnMut(Way, bool)) {
    let (sizes, count) = (call.sizes, call.sizes.len());
    let (bare, written) = (rewrite::bare(sizes), rewrite::written(sizes));
    let equal = written.is_empty();
    let padding = packet.len().saturating_sub(bare);
    mark(Way::One, count == 1);
    mark(Way::Twins, count == 2 && equal);
    mark(Way::Pair, count == 2 && !equal);
    mark(Way::Equal, count > 2 && equal);
    mark(Way::Varied, count > 2 && !equal);
    mark(Way::Twelve, count == 12);
    mark(Way::Empty, sizes.contains(&0));
    mark(Way::TwoBytes, written.iter().any(|&size| size > 251));
    mark(Way::Longer, count < 3 && packet.len() == bare);
    mark(Way::OnlyLength, padding == 1);
    mark(Way::OneLength, padding == 255);
    mark(Way::TwoLengths, padding == 256);
    mark(Way::Longest, packet.len() == LONGEST);
    mark(Way::Behind, room > packet.len());
}
