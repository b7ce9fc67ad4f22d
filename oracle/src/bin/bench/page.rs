//! The page of results.

use crate::frames::FRAMES;
use crate::measured::{ratios, Line, Measured};
use crate::plot::Series;
use crate::side::SIDES;
use crate::spectra::VECTORS;
use crate::symbols::{GROUP, SYMBOLS, TEXTS};
use crate::timing::{rounds, PARTS};
use std::fs;

pub struct Results {
    pub rows: Vec<Measured>,
    /// A state handed over and back.
    pub handed: Measured,
    /// The symbols of a frame, and what was measured of it.
    pub growth: Vec<(usize, Measured)>,
    /// A packet of the most symbols.
    pub longest: Vec<u8>,
}

/// What was measured of each side, if it was.
type Quantity = fn(&Measured) -> Option<&[Option<f64>]>;
const TIMES: Quantity = |measured| Some(&measured.times);
const COUNTS: Quantity = |measured| measured.counts.as_deref();

impl Results {
    pub fn page(&self) -> String {
        let sections = [
            self.summary(),
            method(),
            inputs(),
            self.times(),
            self.counts(),
            self.growth(),
            self.most(),
        ];
        sections.join("\n")
    }

    /// For the plot: each quantity against symbols.
    pub fn panels(&self) -> Vec<(&'static str, Vec<Series>)> {
        let titles = [("nanoseconds", TIMES), ("instructions", COUNTS)];
        let panel = |(title, quantity)| Some((title, self.series(quantity)?));
        titles.into_iter().filter_map(panel).collect()
    }

    fn series(&self, quantity: Quantity) -> Option<Vec<Series>> {
        let kinds = self.growth.chunk_by(|a, b| a.1.group == b.1.group);
        let sides = kinds.flat_map(|kind| (0..SIDES.len()).map(move |side| (kind, side)));
        let series = sides.map(|(kind, side)| {
            let point = |(symbols, measured): &(usize, Measured)| {
                Some((*symbols as f64, quantity(measured)?[side]?))
            };
            Some(Series {
                side,
                kind: kind[0].1.group,
                points: kind.iter().map(point).collect::<Option<_>>()?,
            })
        });
        series.collect()
    }

    fn summary(&self) -> String {
        let slower = self.rows.iter().filter(|row| row.to_the_faster() > 1.0);
        format!(
            "# Speed

`make bench` measures our exported calls beside the functions of the crate and of libopus, and writes this page. Nothing
here passes or fails. In {} of {} rows ours takes longer than the faster of the others.

![our time as ratios](BENCH.svg)
",
            slower.count(),
            self.rows.len()
        )
    }

    fn times(&self) -> String {
        let cells = |row: &Measured| {
            let ours = cell(row.times[0], 1);
            [vec![ours], to_others(&row.times)].concat()
        };
        format!(
            "## Time

Nanoseconds of ours, and that as a ratio to the others': below 1 ours is faster.

{}
A symbol's call gets the state by value and gives it back, 44 bytes each way. The account of a reader, which tests the state,
changes nothing and gives it back, takes {} ns, {}
",
            self.table(vec!["ours, ns".to_string()], cells),
            cell(self.handed.times[0], 1),
            self.beside_handed()
        )
    }

    /// The symbols that the crate does in less than half of what handing a state over and back takes.
    fn beside_handed(&self) -> String {
        let handed = self.handed.times[0];
        let symbols = self.rows.iter().filter(|row| row.group == GROUP);
        let short =
            symbols.filter(|row| row.times[1].is_some_and(|time| handed > Some(2.0 * time)));
        let short: Vec<&str> = short.map(|row| row.name.as_str()).collect();
        match short[..] {
            [] => "less than twice the crate's time for any symbol.".to_string(),
            _ => format!("more than twice the crate's time for\n\n- {}", short.join("\n- ")),
        }
    }

    fn counts(&self) -> String {
        if self.rows.iter().any(|row| row.counts.is_none()) {
            return "## Instructions\n\nNot counted: there is no valgrind.\n".to_string();
        }
        let cells = |row: &Measured| {
            let counts = COUNTS(row).unwrap_or_default();
            let each = counts.iter().map(|count| cell(*count, 0));
            [each.collect(), to_others(counts)].concat()
        };
        format!(
            "## Instructions

The mean over the inputs, and ours as a ratio to the others'.

{}",
            self.table(sides(), cells)
        )
    }

    /// All rows, under these columns and one for each ratio.
    fn table(&self, columns: Vec<String>, cells: impl Fn(&Measured) -> Vec<String>) -> String {
        let others = SIDES[1..].iter().map(|other| format!("to {other}"));
        let head = [vec!["work".to_string()], columns, others.collect()].concat();
        let mut lines = Vec::new();
        for group in self.rows.chunk_by(|a, b| a.group == b.group) {
            let mut title = vec![String::new(); head.len()];
            title[0] = format!("**{}**", group[0].group);
            lines.push(title);
            lines.extend(
                group
                    .iter()
                    .map(|row| [vec![row.name.clone()], cells(row)].concat()),
            );
        }
        table(&head, &lines)
    }

    fn growth(&self) -> String {
        let head = [
            "frames",
            "side",
            "of",
            "a symbol",
            "besides",
            "farthest off",
        ];
        let mut lines = Vec::new();
        for (quantity, series) in self.panels() {
            for Series { side, kind, points } in series {
                let line = Line::near(&points);
                lines.push(vec![
                    kind.to_string(),
                    SIDES[side].to_string(),
                    quantity.to_string(),
                    format!("{:.1}", line.slope),
                    format!("{:.0}", line.start),
                    format!("{:.1} %", 100.0 * line.farthest(&points)),
                ]);
            }
        }
        format!(
            "## Growth

What a frame costs against the symbols that it has: whole frames of 16 kHz and 4 subframes of which 0, 2, 4 to all 20 blocks
have a pulse in each place, without low bits and with ten. A side's cost is the line nearest to its points, by least squares:
so much a symbol, and so much besides. The last column says how far the farthest point is off that line.

{}
![cost against symbols](BENCH-GROWTH.svg)
",
            table(&head.map(str::to_string), &lines)
        )
    }

    fn most(&self) -> String {
        let Some((symbols, measured)) = self.growth.last() else {
            return String::new();
        };
        let row = |name: &str, values: &[Option<f64>]| {
            let values = values.iter().map(|value| cell(*value, 0));
            [vec![name.to_string()], values.collect()].concat()
        };
        let mut lines = vec![row("nanoseconds", &measured.times)];
        lines.extend(COUNTS(measured).map(|counts| row("instructions", counts)));
        format!(
            "## The most symbols

No frame has more than {symbols} symbols: one of 16 kHz and 4 subframes, voiced and coded independently, with every spectrum
index extended (50 symbols), then the rate level, 11 counts, 15 splits, 160 low bits and 16 signs in each of 20 blocks. Low bits
and signs are random, so that no branch on them can be foretold. Such a frame takes:

{}
One of them, {} bytes:

```
{}```
",
            table(&[vec![String::new()], sides()].concat(), &lines),
            self.longest.len(),
            hex(&self.longest)
        )
    }
}

fn sides() -> Vec<String> {
    SIDES.iter().map(|side| side.to_string()).collect()
}

fn to_others(values: &[Option<f64>]) -> Vec<String> {
    ratios(values).map(|ratio| cell(ratio, 2)).collect()
}

/// A dash for a side that has no such call.
fn cell(value: Option<f64>, decimals: usize) -> String {
    value.map_or("-".to_string(), |value| format!("{value:.decimals$}"))
}

fn table(head: &[String], lines: &[Vec<String>]) -> String {
    let line = |cells: &[String]| format!("| {} |\n", cells.join(" | "));
    let rule = format!("|---{}|\n", "|---:".repeat(head.len() - 1));
    let lines: String = lines.iter().map(|cells| line(cells)).collect();
    [line(head), rule, lines].concat()
}

fn hex(bytes: &[u8]) -> String {
    let line = |bytes: &[u8]| {
        bytes
            .iter()
            .map(|byte| format!("{byte:02x}"))
            .collect::<String>()
            + "\n"
    };
    bytes.chunks(60).map(line).collect()
}

fn method() -> String {
    let cpus = fs::read_to_string("/proc/cpuinfo").unwrap_or_default();
    let model = cpus
        .lines()
        .find_map(|line| line.strip_prefix("model name"));
    let model = model.map_or("not known", |model| {
        model.trim_start_matches([' ', '\t', ':'])
    });
    format!(
        "## How it is measured

All sides run in one process on the same inputs: our static library; the crate, built for release without overflow checks;
{}. Each is called as a program would call it: ours gets and gives its state by value
and checks all that it is given, the others keep their coder in memory, and for frames a decoder or encoder set up before. The
sides are held to come to the same range of the coder, to the same ends of a vector, or to the same length or last frame of a
packet.

- Time: {} rounds, in each of which the sides take turns at every row. A row's inputs are timed in {PARTS} parts and each part's
  best counts: a part is short enough to be done without an interruption, and all parts are too many for a processor to know
  their branches from the round before.
- Instructions: callgrind counts them in a run of their own. They repeat; times differ from run to run by some hundredths.
- Processor: {model}.
",
        libopus(),
        rounds()
    )
}

#[cfg(libopus)]
fn libopus() -> String {
    format!("Debian's static library of {}", crate::libopus::version())
}

#[cfg(not(libopus))]
fn libopus() -> String {
    "libopus left out, since its static library is not installed".to_string()
}

#[cfg(libopus)]
fn packets() -> String {
    format!(
        "- Whole packets: {} of each kind, 1 to 12 frames of 20 to 80 bytes at random, as of speech; where some are long, one in
  eight of 252 to 400, whose length takes two bytes. Their bytes are near, where those of the packet before stood. Reading
  stands beside `opus_packet_parse`, which is asked for all that it says. Writing the shortest packet stands beside libopus's
  repacketizer: ours gets the frames one behind the other, that one is begun anew, gets each frame as a packet of its own, and
  puts them out. For 1 to 300 bytes more `opus_packet_pad` comes behind, since no public call of libopus does both. The crate
  has no framing.
",
        crate::packets::PACKETS
    )
}

#[cfg(not(libopus))]
fn packets() -> String {
    String::new()
}

fn inputs() -> String {
    format!(
        "The inputs are the same in each run:

- Symbols: {TEXTS} texts of {SYMBOLS} symbols, those of a row as often as its probabilities say; bits of exponent 1 to 15, 1 to 25
  raw bits, totals of 2 to 32 bits. Reading includes opening; writing includes opening and finishing, in a buffer as long as
  the text needs. The tables give one symbol's share.
- Frames as of speech: {FRAMES} of each size, half of them voiced, three tenths unvoiced, the others inactive, one in three
  conditional; gains and spectra that change little; few pulses, larger ones at each period of a voiced frame, few low bits;
  20 to 80 bytes for 4 subframes, half for 2. Reading begins at an opened reader, writing with opening, and does not finish.
  Ours is told the rate level of the pulses; the others look for it, and find the same.
- Frames of libopus's encoder: {FRAMES} of each size, from packets that it made of a synthetic voice (pulses of a wandering
  pitch, noise and pauses through three resonances), for speech, without redundancy, 1,250 bits a second for each kHz.
- Frames of random bytes: {FRAMES} of each size; each symbol is as often as its probability says.
- Line spectra: {VECTORS} sets of indices as of speech; vectors that keep every gap, and vectors that break some.
{}",
        packets()
    )
}
