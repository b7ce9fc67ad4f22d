//! What handing a state over and back takes: the account of a reader tests the state, and changes nothing.

use crate::row::{on_each, Row};
use crate::symbols::{SYMBOLS, TEXTS};
use oracle::ours::{dec_account, dec_open};

/// As many calls as a row of symbols has, one state through all of a text's.
pub fn row() -> Row {
    let packets = [[0; 8]; TEXTS];
    let accounts = |packet: &mut [u8; 8]| {
        let through = |state, _| dec_account(packet, state).state;
        (0..SYMBOLS).fold(dec_open(packet).state, through).rng
    };
    Row {
        group: "State",
        name: "handed over and back".to_string(),
        inputs: TEXTS,
        units: SYMBOLS,
        works: vec![Some(on_each(&packets, accounts))],
    }
}
