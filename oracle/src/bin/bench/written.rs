//! Frames written: the side indices, the pulses, and both.

use crate::row::{by_size, on_each, BySize, Row, Work};
use crate::side::{sides, Scribe};
use crate::size::Size;
use crate::speech::Said;
use oracle::domain::LONGEST;

/// The rows of frames as of speech.
pub fn rows(group: &'static str, said: &BySize<Said>) -> Vec<Row> {
    by_size(
        group,
        said,
        &[
            ("side indices", |said, size| sides!(indices(said, size))),
            ("pulses", |said, size| sides!(pulses(said, size))),
            ("whole frame", |said, size| sides!(whole(said, size))),
        ],
    )
}

fn indices<S: Scribe>(said: &[Said], size: Size) -> Work {
    let mut encoder = S::encoder(size);
    on_fresh::<S>(said, move |said, writer| {
        S::write_indices(&mut encoder, writer, said.setting, said.record)
    })
}

fn pulses<S: Scribe>(said: &[Said], size: Size) -> Work {
    on_fresh::<S>(said, move |said, writer| {
        let kind = said.kind();
        S::write_pulses(writer, &mut said.pulses, size, kind, said.level)
    })
}

fn whole<S: Scribe>(said: &[Said], size: Size) -> Work {
    let mut encoder = S::encoder(size);
    on_fresh::<S>(said, move |said, writer| {
        let kind = said.kind();
        S::write_indices(&mut encoder, writer, said.setting, said.record);
        S::write_pulses(writer, &mut said.pulses, size, kind, said.level)
    })
}

/// Each call begins with a fresh writer; none is finished.
fn on_fresh<S: Scribe>(
    said: &[Said],
    mut write: impl FnMut(&mut Said, &mut S::Writer<'_>) + 'static,
) -> Work {
    let mut buffer = [0; LONGEST];
    on_each(said, move |said| {
        let mut writer = S::fresh(&mut buffer);
        write(said, &mut writer);
        S::writer_state(&writer).rng
    })
}
