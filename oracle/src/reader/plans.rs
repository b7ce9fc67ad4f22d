//! Which calls are compared, besides those that the writer's plans have too.

use super::states::{at_cut, breaks, sound};
use super::{Ask, Reading};
use crate::bytes::{Bytes, FILLS, LENGTHS};
use crate::coder::{along, at_limits, each_in_turn, on_unsound, speech, Coder};
use crate::compare::{Answer, Sink};
use crate::domain::{LONGEST, TOTALS};
use crate::hold::{Outcome, Plan, Plans};
use crate::models::{self, Entries, Model};
use crate::rng::Rng;
use crate::state::Reader;
use crate::states::Break;

impl Plans for Reading {
    const PLANS: &'static [Plan<Reading>] = &[
        (
            "along packets of every length from their opening",
            |sink, rng, extent| along(sink, rng, (0..=LONGEST).step_by(extent.share as usize), 400),
        ),
        (
            "along packets by the tables of speech",
            |sink, rng, extent| speech(sink, rng, 4_000 / extent.share),
        ),
        (
            "along a packet until its total refuses more",
            |sink, rng, _| to_the_end(sink, rng),
        ),
        ("each on arbitrary sound states", |sink, rng, extent| {
            each_in_turn(sink, rng, extent.cases)
        }),
        ("on states that break one rule", |sink, rng, extent| {
            extent
                .rounds(8)
                .try_for_each(|_| on_unsound(sink, rng, &LENGTHS, models::at_limits()))
        }),
        (
            "at the limits of packets, totals, numbers and tables",
            |sink, rng, extent| {
                let (packets, models) = ((&LENGTHS[..], &FILLS[..]), models::at_limits());
                extent
                    .rounds(16)
                    .try_for_each(|_| at_limits(sink, rng, packets, &TOTALS, models))
            },
        ),
    ];
}

impl Coder for Reading {
    type Word = u32;

    fn open() -> Ask<'static> {
        Ask::Open
    }

    fn any<'a>(_: &mut Rng, model: Model<'a>) -> Ask<'a> {
        Ask::Read(model)
    }

    fn all<'a>(models: &'a [Model<'a>]) -> Vec<Ask<'a>> {
        let reads = models.iter().copied().map(Ask::Read);
        reads.chain(Self::ends()).collect()
    }

    fn ends() -> Vec<Ask<'static>> {
        vec![Ask::Account]
    }

    fn any_end(rng: &mut Rng) -> Option<Ask<'static>> {
        rng.one_in(16).then_some(Ask::Account)
    }

    fn sound(rng: &mut Rng, length: usize) -> Reader {
        sound(rng, length)
    }

    fn breaks() -> impl Iterator<Item = Break<u32>> {
        breaks()
    }

    fn to_border(rng: &mut Rng, reader: &mut Reader, ask: Ask) {
        if let Ask::Read(model) = ask {
            at_cut(rng, reader, model);
        }
    }

    fn at_limit(rng: &mut Rng, reader: &mut Reader, ask: Ask) {
        if matches!(ask, Ask::Read(_)) && rng.one_in(2) {
            Self::to_border(rng, reader, ask);
        }
    }

    fn go_on(
        sink: &mut dyn Sink<Reading>,
        rng: &mut Rng,
        packet: &mut [u8],
        fresh: Answer<Reader>,
        bits_more: u32,
    ) -> Outcome {
        let mut entries: Entries = [0; 257];
        let mut answer = fresh;
        let used = 8 * packet.len() as u32 + bits_more;
        while answer.refusal != 1 && answer.state.nbits_total < used {
            let model = match rng.one_in(40) {
                true => rng.pick(models::at_limits()),
                false => models::any(rng, &mut entries, answer.value),
            };
            answer = sink.put(packet, answer.state, Ask::Read(model))?;
            if rng.one_in(8) {
                answer = sink.put(packet, answer.state, Ask::Account)?;
            }
        }
        Ok(())
    }
}

/// One packet, read from its opening until its bit total refuses the next call.
fn to_the_end(sink: &mut dyn Sink<Reading>, rng: &mut Rng) -> Outcome {
    let (mut packet, mut entries): (Bytes, Entries) = ([0; LONGEST + 1], [0; 257]);
    let packet = &mut packet[..LONGEST];
    rng.fill(packet);
    let mut answer = sink.put(packet, Reader::default(), Ask::Open)?;
    while answer.refusal == 0 {
        let model = models::any(rng, &mut entries, answer.value);
        answer = sink.put(packet, answer.state, Ask::Read(model))?;
    }
    match answer.refusal {
        3 => Ok(()),
        refusal => Err(format!("a read along a packet is refused with {refusal}")),
    }
}
