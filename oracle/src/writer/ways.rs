//! Which ways a write took.

use crate::models::Model;
use crate::state::Writer;
use crate::ways::ways;

ways! { Way, WAYS:
    Errored "write under error -1",
    NoTurn "no turn",
    OneTurn "one turn",
    TwoTurns "two turns",
    NoneHeld "digit with no byte held",
    HeldBack "255 held back",
    Stored "held byte stored",
    Carried "carry into the held byte",
    CarriedOver "carry into a held 255",
    RunKept "run stored as 255s",
    RunTurned "run stored as 0s",
    RunAlone "run stored with no byte held",
    LongRun "run above 120000 stored",
    FrontFull "byte dropped at the front",
    Flushed "window stored",
    Unflushed "window not stored",
    BackFull "byte dropped at the back",
    Again "finishing twice",
    NoDigit "finishing without a digit",
    OneDigit "finishing by one digit",
    TwoDigits "finishing by two digits",
    OneMore "finishing by one bit more than the range's zeros",
    NothingHeld "finishing with nothing held",
    FailedBefore "finishing under error -1",
    FailedNow "finishing that drops a byte",
    Cleared "middle cleared",
    NoLeftOver "no left-over bits",
    InFree "left-over bits in a free byte",
    InCoded "left-over bits in the last coded byte",
    TooMany "left-over bits that do not fit",
    NoByte "left-over bits with no byte",
}

/// What is held back at the front, the bytes that are free, and whether an error stands.
struct Front {
    rem: i32,
    ext: u32,
    room: u32,
    failed: bool,
}

impl Front {
    fn of(writer: &Writer) -> Self {
        Front {
            rem: writer.rem,
            ext: writer.ext,
            room: writer.storage - writer.offs - writer.end_offs,
            failed: writer.error == -1,
        }
    }

    /// A digit of 8 bits and a carry goes out.
    fn digit(&mut self, digit: u32, mark: &mut impl FnMut(Way, bool)) {
        mark(Way::HeldBack, digit == 255);
        if digit == 255 {
            self.ext += 1;
            return;
        }
        let (held, run, carry) = (self.rem >= 0, self.ext > 0, digit > 255);
        mark(Way::NoneHeld, !held);
        mark(Way::Stored, held && !carry);
        mark(Way::Carried, held && carry && self.rem < 255);
        mark(Way::CarriedOver, carry && self.rem == 255);
        mark(Way::RunKept, run && !carry);
        mark(Way::RunTurned, run && carry);
        mark(Way::RunAlone, run && !held);
        mark(Way::LongRun, self.ext > 120_000);
        mark(Way::FrontFull, !self.store(u32::from(held) + self.ext));
        (self.rem, self.ext) = ((digit & 255) as i32, 0);
    }

    /// Whether there was room for all of so many bytes.
    fn store(&mut self, bytes: u32) -> bool {
        let fits = bytes <= self.room;
        self.failed |= !fits;
        self.room = self.room.saturating_sub(bytes);
        fits
    }
}

/// The digits from the top of a value of 31 bits and a carry.
fn digits(mut value: u32, count: u32) -> impl Iterator<Item = u32> {
    (0..count).map(move |_| {
        let digit = value >> 23;
        value = (value << 8) & (u32::MAX >> 1);
        digit
    })
}

pub fn coded_part(
    before: &Writer,
    (model, value): (Model, u32),
    after: &Writer,
    mark: &mut impl FnMut(Way, bool),
) {
    if matches!(model, Model::Bits(_)) {
        return;
    }
    let turns = before.turns(model, after);
    mark(Way::NoTurn, turns == 0);
    mark(Way::OneTurn, turns == 1);
    mark(Way::TwoTurns, turns == 2);
    let mut front = Front::of(before);
    for digit in digits(before.val + model.start(before.rng, value), turns) {
        front.digit(digit, mark);
    }
}

pub fn raw_part(before: &Writer, model: Model, after: &Writer, mark: &mut impl FnMut(Way, bool)) {
    let bits = model.raw_bits();
    if bits == 0 {
        return;
    }
    let flushed = before.nend_bits + bits > 32;
    mark(Way::Flushed, flushed);
    mark(Way::Unflushed, !flushed);
    let stored = after.end_offs - before.end_offs;
    mark(Way::BackFull, flushed && stored < before.nend_bits / 8);
}

pub fn finishing(before: &Writer, after: &Writer, mark: &mut impl FnMut(Way, bool)) {
    let (bits, end) = fewest_bits(before);
    let count = bits.div_ceil(8);
    mark(Way::NoDigit, count == 0);
    mark(Way::OneDigit, count == 1);
    mark(Way::TwoDigits, count == 2);
    mark(Way::OneMore, bits > before.rng.leading_zeros());
    let mut front = Front::of(before);
    for digit in digits(end, count) {
        front.digit(digit, mark);
    }
    let held = front.rem >= 0 || front.ext > 0;
    mark(Way::NothingHeld, !held);
    if held {
        front.digit(0, mark);
    }
    mark(Way::BackFull, !front.store(before.nend_bits / 8));
    mark(Way::FailedBefore, before.error == -1);
    mark(Way::FailedNow, before.error == 0 && front.failed);
    if !front.failed {
        mark(Way::Cleared, front.room > 0);
        let spare = 8 * count - bits;
        left_over(before.nend_bits % 8, after, (front.room, spare), mark);
    }
}

/// The ways of bits that fill no byte, beside so many free bytes and spare bits of the last digit.
fn left_over(
    bits: u32,
    after: &Writer,
    (room, spare): (u32, u32),
    mark: &mut impl FnMut(Way, bool),
) {
    let no_byte = after.end_offs == after.storage;
    let last_coded = room == 0 && !no_byte;
    mark(Way::NoLeftOver, bits == 0);
    mark(Way::NoByte, bits > 0 && no_byte);
    mark(Way::InFree, bits > 0 && room > 0);
    mark(Way::InCoded, bits > 0 && last_coded && bits <= spare);
    mark(Way::TooMany, bits > spare && last_coded);
}

/// RFC 6716, section 5.1.5: how many top bits hold whatever follows, and the value that has them.
fn fewest_bits(writer: &Writer) -> (u32, u32) {
    let zeros = writer.rng.leading_zeros();
    let with = |bits: u32| {
        let free = u32::MAX >> 1 >> bits;
        let end = (writer.val + free) & !free;
        (end | free < writer.val + writer.rng).then_some((bits, end))
    };
    with(zeros).or_else(|| with(zeros + 1)).unwrap()
}
