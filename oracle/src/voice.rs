//! A voice of sorts.

use crate::rng::Rng;
use std::f64::consts::TAU;

/// Syllables of 300 ms: pulses at a pitch that wanders, then noise, then almost nothing, through three
/// resonances that wander too.
pub struct Voice {
    hz: f64,
    samples: f64,
    phase: f64,
    resonances: [[f64; 2]; 3],
}

impl Voice {
    pub fn new(hz: f64) -> Self {
        Voice {
            hz,
            samples: 0.0,
            phase: 0.0,
            resonances: [[0.0; 2]; 3],
        }
    }

    pub fn sample(&mut self, rng: &mut Rng) -> i16 {
        let time = self.samples / self.hz;
        self.samples += 1.0;
        let source = self.source(time, rng);
        let wander = |seconds: f64| (TAU * time / seconds).sin();
        let centres = [
            500.0 + 200.0 * wander(0.9),
            1500.0 + 400.0 * wander(1.3),
            2500.0 + 300.0 * wander(2.1),
        ];
        let mut sum = 0.0;
        for (held, centre) in self.resonances.iter_mut().zip(centres) {
            let turn = 2.0 * 0.97 * (TAU * centre / self.hz).cos();
            let value = source + turn * held[0] - 0.97 * 0.97 * held[1];
            *held = [value, held[0]];
            sum += value;
        }
        (1500.0 * sum).clamp(-32768.0, 32767.0) as i16
    }

    fn source(&mut self, time: f64, rng: &mut Rng) -> f64 {
        let noise = f64::from(rng.between(0, 2000)) / 1000.0 - 1.0;
        self.phase += (130.0 + 40.0 * (TAU * time / 1.7).sin()) / self.hz;
        let pulse = self.phase.floor();
        self.phase -= pulse;
        match (time / 0.3).fract() {
            ..0.6 => pulse + 0.01 * noise,
            0.6..0.8 => 0.1 * noise,
            _ => 0.002 * noise,
        }
    }
}
