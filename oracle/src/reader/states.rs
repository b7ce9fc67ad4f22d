//! Sound readers, and readers that break one rule of document 01.

use crate::models::Model;
use crate::rng::Rng;
use crate::state::Reader;
use crate::states::{self, Break};

/// Each field at random in its range or at one of its ends.
pub fn sound(rng: &mut Rng, length: usize) -> Reader {
    let state: Reader = states::sound(rng, length);
    Reader {
        end_offs: rng.or_end(0, length as u32),
        offs: rng.or_end(0, length as u32),
        val: rng.or_end(0, state.rng - 1),
        ext: rng.any_width(),
        rem: rng.or_end(0, 255),
        error: rng.between(0, 1),
        ..state
    }
}

/// Sets the value to where the model cuts the range, or one beside it.
pub fn at_cut(rng: &mut Rng, reader: &mut Reader, model: Model) {
    let unit = model.unit(reader.rng);
    let cut = unit * rng.between(0, reader.rng / unit);
    let value = rng.pick(&[cut.saturating_sub(1), cut, cut + 1]);
    reader.val = value.min(reader.rng - 1);
}

const OWN_BREAKS: [Break<u32>; 11] = [
    |r| r.val = r.rng,
    |r| r.val = r.rng + 1,
    |r| r.val = u32::MAX,
    |r| r.offs = r.storage + 1,
    |r| r.offs = u32::MAX,
    |r| r.end_offs = r.storage + 1,
    |r| r.end_offs = u32::MAX,
    |r| r.rem = 256,
    |r| r.rem = u32::MAX,
    |r| r.error = 2,
    |r| r.error = u32::MAX,
];

pub fn breaks() -> impl Iterator<Item = Break<u32>> {
    states::breaks().into_iter().chain(OWN_BREAKS)
}
