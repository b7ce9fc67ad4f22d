//! Which ways the pulses of a frame take along its syntax, read or written.

use crate::ways::ways;

ways! { Way, WAYS:
    Level0 "rate level 0",
    Level1 "1",
    Level2 "2",
    Level3 "3",
    Level4 "4",
    Level5 "5",
    Level6 "6",
    Level7 "7",
    Level8 "8",
    NoLows "blocks without low bits",
    OneLow "with 1",
    MoreLows "2 to 9",
    TenLows "10",
    Empty "count 0",
    Full "count 16",
    Split "count split among pulses",
    AsOne "all on one pulse",
    SignRow "sign row below 6",
    LastSignRow "sign row 6",
    Minus "pulse below 0",
    Plus "above 0",
    Large "beyond 16",
    Largest "17,407",
}

const LEVELS: [Way; 9] = [
    Way::Level0,
    Way::Level1,
    Way::Level2,
    Way::Level3,
    Way::Level4,
    Way::Level5,
    Way::Level6,
    Way::Level7,
    Way::Level8,
];

/// The low bits and the count before them.
pub type Block = (usize, u32);

/// The ways of a frame of this rate level, its blocks each with its pulses.
pub fn pulse_ways<'a>(
    level: usize,
    blocks: impl Iterator<Item = (Block, &'a [i16])>,
    mark: &mut impl FnMut(usize, bool),
) {
    let mut mark = |way: Way, taken| mark(way as usize, taken);
    mark(LEVELS[level], true);
    for (block, pulses) in blocks {
        block_ways(block, pulses, &mut mark);
    }
}

fn block_ways((lows, count): Block, pulses: &[i16], mark: &mut impl FnMut(Way, bool)) {
    mark(Way::NoLows, lows == 0);
    mark(Way::OneLow, lows == 1);
    mark(Way::MoreLows, (2..10).contains(&lows));
    mark(Way::TenLows, lows == 10);
    mark(Way::Empty, count == 0 && lows == 0);
    mark(Way::Full, count == 16);
    let sized = pulses.iter().filter(|p| p.unsigned_abs() >> lows != 0);
    let sized = sized.count();
    mark(Way::Split, count > 1 && sized > 1);
    mark(Way::AsOne, count > 1 && sized == 1);
    let signed = pulses.iter().any(|&p| p != 0);
    mark(Way::SignRow, signed && count < 6);
    mark(Way::LastSignRow, signed && count >= 6);
    mark(Way::Minus, pulses.iter().any(|&p| p < 0));
    mark(Way::Plus, pulses.iter().any(|&p| p > 0));
    mark(Way::Large, pulses.iter().any(|&p| p.abs() > 16));
    // "Largest magnitude: 16 x 1024 + 1023."
    mark(Way::Largest, pulses.iter().any(|&p| p.abs() == 17_407));
}
