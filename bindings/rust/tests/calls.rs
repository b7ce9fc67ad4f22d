//! Each call through the bindings: document 01's cases, and a frame and whole packets written and read
//! back.

use std::num::NonZeroU32;
use tignarops::{
    nlsf_decode, nlsf_stabilise, packet_read, packet_write, Before, Excitation, Indices, Reader,
    Refusal, Setting, Writer,
};

const SETTING: Setting = Setting {
    khz: 16,
    subframes: 4,
    active: true,
    mode: 2,
    before: Before {
        signal_type: 2,
        lag: 100,
    },
};

fn voiced() -> Indices {
    Indices {
        gains: [12, 4, 0, 40],
        ltp: [0, 7, 3, 1],
        nlsf: [31, -10, 10, 0, 1, -1, 4, -4, 3, -3, 2, 0, 0, 5, -5, 6, 9],
        lag: 255,
        contour: 33,
        signal_type: 2,
        offset_type: 1,
        interp: 2,
        period: 0,
        ltp_scale: 0,
        seed: 3,
    }
}

#[test]
fn a_frame_reads_back() {
    let excitation = Excitation {
        khz: 16,
        subframes: 4,
        signal_type: 2,
        offset_type: 1,
    };
    let pulses: Vec<i16> = (0..excitation.count() as i16)
        .map(|i| i % 7 * (i % 3 - 1))
        .collect();
    let mut packet = [0; 600];
    let mut writer = Writer::open(&mut packet).unwrap();
    let before = writer.indices(voiced(), SETTING).unwrap();
    writer.pulses(&pulses, excitation, 4).unwrap();
    let account = writer.account().unwrap();
    assert!(writer.finish().unwrap());

    let mut reader = Reader::open(&packet).unwrap();
    assert_eq!(
        reader.indices(Indices::default(), SETTING),
        Ok((voiced(), before))
    );
    let mut read = vec![0; excitation.count()];
    reader.pulses(&mut read, excitation).unwrap();
    assert_eq!(read, pulses);
    assert_eq!(reader.account(), Ok(account));
}

#[test]
fn refusals_change_nothing() {
    assert_eq!(Reader::open(&[0; 1276]).err(), Some(Refusal::TooLong));
    let mut packet = [7; 10];
    let mut writer = Writer::open(&mut packet).unwrap();
    let fresh = writer.state();
    let mut outside = voiced();
    outside.lag = 256;
    assert_eq!(writer.indices(outside, SETTING), Err(Refusal::Value));
    assert_eq!(writer.bits(0, 26), Err(Refusal::Number));
    assert_eq!(writer.icdf(0, &[1, 2, 0], 8), Err(Refusal::Table));
    let excitation = Excitation {
        khz: 8,
        subframes: 2,
        signal_type: 0,
        offset_type: 0,
    };
    assert_eq!(writer.pulses(&[0; 79], excitation, 0), Err(Refusal::Length));
    let mut loud = [0; 80];
    loud[5] = 17408;
    assert_eq!(writer.pulses(&loud, excitation, 0), Err(Refusal::Value));
    assert_eq!(writer.state(), fresh);
    assert_eq!(packet, [7; 10]);
    let unsound = Default::default();
    assert_eq!(Reader::at(&packet, unsound).bit(1), Err(Refusal::Unsound));
}

#[test]
fn bits_of_a_packet() {
    let mut empty = Reader::open(&[]).unwrap();
    assert_eq!(empty.account(), Ok(1));
    assert_eq!(empty.bit(1), Ok(false));
    assert_eq!(empty.account(), Ok(2));
    assert_eq!(Reader::open(&[0xff]).unwrap().bit(8), Ok(true));
    assert_eq!(Reader::open(&[0xff]).unwrap().bit(9), Ok(false));
    let mut raw = Reader::open(&[0xa5]).unwrap();
    assert_eq!((raw.bits(4), raw.bits(4)), (Ok(5), Ok(10)));
    let mut packet = [7; 2];
    let mut writer = Writer::open(&mut packet).unwrap();
    writer.bit(true, 1).unwrap();
    assert!(writer.finish().unwrap());
    assert_eq!(packet, [0x80, 0]);
    let mut writer = Writer::open(&mut []).unwrap();
    writer.bit(false, 1).unwrap();
    assert!(!writer.finish().unwrap());
}

#[test]
fn line_spectra() {
    let mut vector = [100, 50];
    assert_eq!(nlsf_stabilise(&mut vector, &[10, 5, 20]), Ok(1));
    assert_eq!(vector, [73, 78]);
    assert_eq!(
        nlsf_stabilise(&mut vector, &[0, 32767, 2]),
        Err(Refusal::Gaps)
    );
    assert_eq!(vector, [73, 78]);
    let index = [
        0, -4, -4, -4, -4, -4, -4, -4, -4, -4, -4, 99, 99, 99, 99, 99, 99,
    ];
    let mut vector = [0; 10];
    assert_eq!(nlsf_decode(&mut vector, index, 8), Ok(4));
    assert_eq!(
        vector,
        [250, 253, 259, 262, 1782, 5219, 9016, 12968, 18081, 24034]
    );
}

/// Length, arrangement and padding of a packet of 6 bytes in frames of these sizes, written and read
/// back.
fn packet_back(sizes: &[u16], asked: u32) -> (usize, u32, u32) {
    let frames = [1, 2, 3, 4, 5, 6];
    let mut buf = [7; 400];
    let length = packet_write(&mut buf, 9, &frames, sizes, NonZeroU32::new(asked)).unwrap();
    let (packet, behind) = buf.split_at(length);
    assert!(behind.iter().all(|b| *b == 7));
    let packet = packet_read(packet).unwrap();
    assert_eq!(packet.config(), 9);
    assert!(packet
        .frames()
        .map(<[u8]>::len)
        .eq(sizes.iter().map(|n| usize::from(*n))));
    assert_eq!(packet.frames().collect::<Vec<_>>().concat(), frames);
    (length, packet.arrangement(), packet.padding())
}

#[test]
fn packets_read_back() {
    assert_eq!(packet_back(&[6], 0), (7, 0, 0));
    assert_eq!(packet_back(&[3, 3], 0), (7, 1, 0));
    assert_eq!(packet_back(&[0, 6], 0), (8, 2, 0));
    assert_eq!(packet_back(&[2, 2, 2], 0), (8, 3, 0));
    assert_eq!(packet_back(&[1, 2, 3], 0), (10, 3, 0));
    assert_eq!(packet_back(&[6], 7), (7, 0, 0));
    assert_eq!(packet_back(&[6], 8), (8, 3, 0));
    assert_eq!(packet_back(&[6], 9), (9, 3, 1));
    assert_eq!(packet_back(&[1, 2, 3], 300), (300, 3, 290));
}

#[test]
fn refused_packets() {
    let read = |bytes| packet_read(bytes).err();
    assert_eq!(read(&[0; 16385]), Some(Refusal::TooLong));
    assert_eq!(read(&[]), Some(Refusal::Framing));
    assert_eq!(read(&[12 * 8]), Some(Refusal::NotSpeech));
    assert_eq!(
        Refusal::NotSpeech.to_string(),
        "refused with 11: a packet that is not SILK in mono"
    );

    let mut buf = [7; 16385];
    let mut write = |len, config, sizes: &[u16], asked| {
        let length = NonZeroU32::new(asked);
        packet_write(&mut buf[..len], config, &[5, 6], sizes, length).unwrap_err()
    };
    assert_eq!(write(16385, 9, &[2], 0), Refusal::TooLong);
    assert_eq!(write(9, 9, &[1], 0), Refusal::Length);
    assert_eq!(write(2, 9, &[2], 0), Refusal::Value);
    assert_eq!(write(9, 9, &[2], 2), Refusal::Value);
    assert_eq!(write(9, 9, &[2], 10), Refusal::Value);
    assert_eq!(write(20, 9, &[1, 1, 0, 0, 0, 0, 0], 0), Refusal::Framing);
    assert_eq!(write(9, 12, &[2], 0), Refusal::NotSpeech);
    assert_eq!(buf, [7; 16385]);
}
