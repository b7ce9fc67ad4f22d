//! Single symbols, a public call each.

use crate::row::{on_each, Row, Work};
use crate::side::{sides, Side};
use oracle::domain::LONGEST;
use oracle::models::Model;
use oracle::ours;
use oracle::rng::Rng;
use oracle::silk::tables_gain::silk_delta_gain_iCDF;
use oracle::silk::tables_other::{silk_lsb_iCDF, silk_uniform8_iCDF};
use oracle::silk::tables_pulses_per_block::silk_pulses_per_block_iCDF;

pub const GROUP: &str = "Symbols";
pub const TEXTS: usize = 512;
pub const SYMBOLS: usize = 64;

/// A model by its number, where it has one.
trait Models: Fn(u32) -> Model<'static> + Copy + 'static {}
impl<F: Fn(u32) -> Model<'static> + Copy + 'static> Models for F {}

/// Numbers of models with values that can be written, and the packet that they make.
#[derive(Clone)]
struct Text {
    symbols: Vec<(u32, u32)>,
    packet: Vec<u8>,
}

pub fn rows(rng: &mut Rng) -> Vec<Row> {
    let none = |_: &mut Rng| 0;
    let (two, eight) = (&silk_lsb_iCDF, &silk_uniform8_iCDF);
    let (eighteen, many) = (&silk_pulses_per_block_iCDF[4], &silk_delta_gain_iCDF);
    let kinds = [
        kind(rng, "row of 2 entries", none, |_| Model::Table(two, 8)),
        kind(rng, "row of 8 entries", none, |_| Model::Table(eight, 8)),
        kind(rng, "row of 18 entries", none, |_| {
            Model::Table(eighteen, 8)
        }),
        kind(rng, "row of 41 entries", none, |_| Model::Table(many, 8)),
        kind(rng, "bit", |rng| rng.between(1, 15), Model::Bit),
        kind(rng, "raw bits", |rng| rng.between(1, 25), Model::Bits),
        kind(
            rng,
            "bounded number",
            |rng| rng.any_width().max(2),
            Model::Number,
        ),
    ];
    let (read, written): (Vec<_>, Vec<_>) = kinds.into_iter().map(|[r, w]| (r, w)).unzip();
    read.into_iter().chain(written).collect()
}

fn kind(rng: &mut Rng, name: &str, number: fn(&mut Rng) -> u32, model: impl Models) -> [Row; 2] {
    let texts: Vec<Text> = (0..TEXTS).map(|_| text(rng, number, model)).collect();
    let row = |what, works| Row {
        group: GROUP,
        name: format!("{name}, {what}"),
        inputs: TEXTS,
        units: SYMBOLS,
        works,
    };
    [
        row("read", sides!(reading(&texts, model))),
        row("written", sides!(writing(&texts, model))),
    ]
}

/// Values of a table as often as their probabilities say.
fn text(rng: &mut Rng, number: fn(&mut Rng) -> u32, model: impl Models) -> Text {
    let mut symbol = |_| {
        let number = number(rng);
        (number, model(number).any_value(rng))
    };
    let symbols: Vec<(u32, u32)> = (0..SYMBOLS).map(&mut symbol).collect();
    let mut packet = vec![0; LONGEST];
    let mut writer = ours::enc_open(&packet).state;
    for &(number, value) in &symbols {
        writer = ours::enc(&mut packet, writer, model(number), value).state;
    }
    // As long as the symbols need, so that finishing has little to clear.
    let bits = ours::enc_account(&packet, writer).value as usize;
    let mut text = Text {
        symbols,
        packet: vec![0; bits.div_ceil(8)],
    };
    write::<crate::ours::Ours>(&mut text, model);
    text
}

fn reading<S: Side>(texts: &[Text], model: impl Models) -> Work {
    on_each(texts, move |text| {
        let mut reader = S::open(&mut text.packet);
        let values = text.symbols.iter();
        values.fold(0_u32, |sum, &(number, _)| {
            sum.wrapping_add(S::read(&mut reader, model(number)))
        })
    })
}

fn writing<S: Side>(texts: &[Text], model: impl Models) -> Work {
    on_each(texts, move |text| write::<S>(text, model))
}

fn write<S: Side>(text: &mut Text, model: impl Models) -> u32 {
    let mut writer = S::fresh(&mut text.packet);
    for &(number, value) in &text.symbols {
        S::write(&mut writer, model(number), value);
    }
    S::finish(&mut writer);
    S::writer_state(&writer).rng
}
