//! Known values and findings, and the nearest whole number by looking at every one there is.

use reference::quantise::value;
use reference::{quantise, Finding};

const MINUS: u32 = 1 << 31;
const INFINITY: u32 = 0x7F80_0000;
/// NaNs: the quiet one, a signalling one with the least payload, one with all bits set.
const NANS: [u32; 3] = [0x7FC0_0000, 0x7F80_0001, 0x7FFF_FFFF];
const LEAST: u32 = 1;

/// The finding of a burst of these numbers, zeros behind them.
fn found(first: &[u32]) -> Finding {
    quantise(&burst(first), 24).unwrap().finding
}

/// A burst of these numbers, zeros behind them.
fn burst(first: &[u32]) -> [u32; 24] {
    let mut numbers = [0; 24];
    numbers[..first.len()].copy_from_slice(first);
    numbers
}

fn heard(peak: f32) -> Finding {
    Finding::Heard { peak: peak.to_bits() }
}

#[test]
fn known_values_and_their_opposites() {
    let cases: [(f32, i8); 18] = [
        (0.0, 0),
        (f32::from_bits(LEAST), 0),
        (f32::MIN_POSITIVE, 0),
        (0.25, 0),
        (0.49999997, 0),
        (0.5, 1),
        (1.0, 1),
        (1.4999999, 1),
        (1.5, 2),
        (2.5, 3),
        (126.49999, 126),
        (126.5, 127),
        (127.0, 127),
        (127.5, 127),
        (128.5, 127),
        (8388609.0, 127),
        (f32::MAX, 127),
        (f32::INFINITY, 127),
    ];
    for (number, expected) in cases {
        assert_eq!(value(number.to_bits()), expected, "{number}");
        assert_eq!(value(number.to_bits() | MINUS), -expected, "-{number}");
    }
}

#[test]
fn a_nan_is_0() {
    for nan in NANS {
        assert_eq!((value(nan), value(nan | MINUS)), (0, 0), "{nan:#010x}");
    }
}

#[test]
fn is_the_nearest_of_all_255_values() {
    // In 64ths, so that numbers, values and their distances are whole numbers.
    for number in -130 * 64..=130 * 64_i32 {
        let distance = |value: &i32| ((number - value * 64).abs(), -value.abs());
        let nearest = (-127..=127).min_by_key(distance).unwrap();
        assert_eq!(i32::from(value((number as f32 / 64.0).to_bits())), nearest, "{number} / 64");
    }
}

#[test]
fn peaks() {
    let large = f32::MAX.to_bits();
    assert_eq!(found(&[2.5_f32.to_bits(), (-3.25_f32).to_bits()]), heard(3.25));
    assert_eq!(found(&[0.75_f32.to_bits(), 0.5_f32.to_bits()]), heard(0.75));
    assert_eq!(found(&[large | MINUS, large - 1]), heard(f32::MAX));
    assert_eq!(found(&[LEAST, 0x0080_0000 | MINUS, 0x007F_FFFF]), heard(f32::MIN_POSITIVE));
    assert_eq!(found(&[large, INFINITY | MINUS, 1.0_f32.to_bits()]), heard(f32::INFINITY));
}

#[test]
fn the_peak_of_any_two_powers_and_of_any_power_and_the_number_below() {
    let powers: Vec<u32> = (1..=255).map(|exponent| exponent << 23).collect();
    for (place, &greater) in powers.iter().enumerate() {
        for lesser in powers[..place].iter().copied().chain([greater - 1]) {
            let heard = Finding::Heard { peak: greater };
            assert_eq!(found(&[lesser, greater | MINUS]), heard, "{lesser:#x}, {greater:#x}");
            assert_eq!(found(&[greater, lesser | MINUS]), heard, "{lesser:#x}, {greater:#x}");
        }
    }
}

#[test]
fn silence_is_judged_on_the_numbers() {
    assert_eq!(found(&[0, MINUS]), Finding::Silent);
    assert_eq!(found(&[MINUS; 24]), Finding::Silent);
    assert_eq!(found(&[MINUS, LEAST | MINUS]), Finding::Heard { peak: LEAST });
    assert_eq!(quantise(&[LEAST; 24], 24).unwrap().values, [0; 24]);
}

#[test]
fn a_nan_anywhere_is_a_fault_and_the_others_are_written() {
    for nan in NANS.into_iter().flat_map(|nan| [nan, nan | MINUS]) {
        for place in 0..24 {
            let mut numbers = [(-2.5_f32).to_bits(); 24];
            numbers[23 - place] = INFINITY;
            numbers[place] = nan;
            let done = quantise(&numbers, 24).unwrap();
            let mut expected = [-3; 24];
            expected[23 - place] = 127;
            expected[place] = 0;
            assert_eq!((done.finding, done.values), (Finding::Faulty, expected));
        }
    }
}

#[test]
fn refusals_in_their_order() {
    for count in [0, 1, 23, 25, 48] {
        for room in [0, 23, 24, 25] {
            assert_eq!(quantise(&vec![0; count], room), Err(2), "{count} numbers, room {room}");
        }
    }
    for room in [0, 1, 23] {
        assert_eq!(quantise(&[0; 24], room), Err(3), "room {room}");
    }
    assert!(quantise(&[0; 24], 25).is_ok());
}
