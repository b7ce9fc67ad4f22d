//! The types of a packet's first frame: our call beside the crate's opening and its read of the type row.

use crate::board::{Board, Score, CRATE};
use crate::bytes::{self, Bytes, FILLS, LENGTHS};
use crate::celt::entdec::{ec_dec_icdf, ec_dec_init};
use crate::domain::LONGEST;
use crate::hold::Extent;
use crate::report;
use crate::rng::Rng;
use crate::silk::tables_other::{silk_type_offset_VAD_iCDF, silk_type_offset_no_VAD_iCDF};

const NAME: &str = "tg_frame_type";

/// Active flags: both that are accepted, and two that are not.
const ACTIVE: [u32; 4] = [0, 1, 2, u32::MAX];

/// include/tignarops.h
#[repr(C)]
#[derive(Clone, Copy, Debug, PartialEq, Eq)]
struct Types {
    refusal: u32,
    signal_type: u32,
    offset_type: u32,
}

extern "C" {
    // include/tignarops.h
    fn tg_frame_type(packet: *const u8, len: usize, active: u32) -> Types;
}

fn ours(packet: &[u8], active: u32) -> Types {
    // SAFETY: the pointer comes with its slice's length, and the call is defined for all bytes and numbers.
    unsafe { tg_frame_type(packet.as_ptr(), packet.len(), active) }
}

/// As `silk_decode_indices` begins, behind document 01's refusals.
fn theirs(packet: &mut [u8], active: u32) -> Types {
    let refusal = match (packet.len() > LONGEST, active > 1) {
        (true, _) => 1,
        (false, true) => 4,
        (false, false) => 0,
    };
    let kind = match (refusal, active) {
        (0, 0) => ec_dec_icdf(&mut ec_dec_init(packet), &silk_type_offset_no_VAD_iCDF, 8),
        (0, _) => ec_dec_icdf(&mut ec_dec_init(packet), &silk_type_offset_VAD_iCDF, 8) + 2,
        _ => 0,
    };
    Types {
        refusal,
        signal_type: kind as u32 >> 1,
        offset_type: kind as u32 & 1,
    }
}

#[derive(Default)]
struct Tally {
    score: Score,
    /// How often each pair was read.
    types: [u64; 6],
}

impl Tally {
    fn put(&mut self, packet: &mut [u8]) {
        for active in ACTIVE {
            let (ours, theirs) = (ours(packet, active), theirs(packet, active));
            self.score.count(theirs.refusal, ours == theirs, || {
                format!(
                    "DIFFER: active {active}\n    {} bytes: {}\n    ours:   {ours:?}\n    theirs: {theirs:?}",
                    packet.len(),
                    report::hex(packet)
                )
            });
            if theirs.refusal == 0 {
                self.types[(theirs.signal_type * 2 + theirs.offset_type) as usize] += 1;
            }
        }
    }

    fn settle(&self, board: &mut Board) {
        board.note(format!("{NAME}: types 0 0 to 2 1: {:?}", self.types));
        board.row(NAME, CRATE, &self.score);
        let types = self.types.iter().enumerate().filter(|(_, &n)| n == 0);
        let types = types.map(|(pair, _)| format!("pair {pair} of types"));
        let refusals = [1, 4].into_iter();
        let refusals = refusals.filter(|&refusal| self.score.answered(refusal) == 0);
        let refusals = refusals.map(|refusal| format!("refused with {refusal}"));
        board.covered(NAME, types.chain(refusals));
    }
}

/// Every packet of at most two bytes, the limits of lengths, and packets at random.
pub fn hold(extent: &Extent, board: &mut Board) {
    let (mut tally, mut rng) = (Tally::default(), Rng::new(extent.seed));
    tally.put(&mut []);
    for pair in 0..=u16::MAX {
        let [first, second] = pair.to_be_bytes();
        if second == 0 {
            tally.put(&mut [first]);
        }
        tally.put(&mut [first, second]);
    }
    let mut room: Bytes = [0; LONGEST + 1];
    for (length, kind) in LENGTHS
        .into_iter()
        .flat_map(|n| FILLS.map(|kind| (n, kind)))
    {
        bytes::fill(&mut rng, &mut room[..length], kind);
        tally.put(&mut room[..length]);
    }
    for _ in 0..extent.cases.div_ceil(ACTIVE.len() as u64) {
        let packet = &mut room[..rng.between(0, 12) as usize];
        rng.fill(packet);
        tally.put(packet);
    }
    tally.settle(board);
}
