//! The numbers at which an answer could turn, and the sizes.

use crate::judge::Burst;
use crate::kinds::{any_bits, around_the_bytes, given};
use crate::random::Random;

/// The bit of a negative number.
pub const SIGN: u32 = 1 << 31;
/// The bits of one half and of infinity. What is above infinity, up to the sign, is a NaN.
pub const HALF: u32 = 126 << 23;
pub const INFINITY: u32 = 255 << 23;

/// Counts of numbers and rooms of which every pair is tried.
const MOST_COUNT: usize = 50;
const MOST_ROOM: usize = 30;

/// Each edge at each place, once among zeros and once among numbers that are none.
pub fn at_each_place() -> impl Iterator<Item = Burst> {
    let mut random = Random::new(0);
    let places = |edge| (0..24).map(move |place| (edge, place));
    edges().into_iter().flat_map(places).flat_map(move |(edge, place)| {
        let among = [[0; 24], around_the_bytes(&mut random)];
        among.map(|mut numbers| {
            numbers[place] = edge;
            given(&mut random, numbers.to_vec(), 24)
        })
    })
}

/// Each small count of any numbers with each small room.
pub fn counts_and_rooms() -> impl Iterator<Item = Burst> {
    let mut random = Random::new(0);
    let rooms = |count| (0..=MOST_ROOM).map(move |room| (count, room));
    (0..=MOST_COUNT).flat_map(rooms).map(move |(count, room)| {
        let numbers = (0..count).map(|_| any_bits(&mut random)).collect();
        given(&mut random, numbers, room)
    })
}

/// Every edge, with both signs.
pub fn edges() -> Vec<u32> {
    let ends = [0, INFINITY - 1, INFINITY].into_iter();
    let halves = (1..=257).flat_map(|count| around(halves(count), 2));
    let powers = powers().flat_map(|power| around(power, 1));
    let all = ends.chain(halves).chain(powers).chain(nans());
    all.flat_map(|bits| [bits, bits | SIGN]).collect()
}

/// The bits of so many halves. An odd count is a number at which the value turns, up to 128 1/2.
pub fn halves(count: u16) -> u32 {
    (f32::from(count) / 2.0).to_bits()
}

/// A number with so many neighbours in the format on each side.
fn around(bits: u32, reach: u32) -> impl Iterator<Item = u32> {
    bits - reach..=bits + reach
}

/// Every power of two in the format: the subnormal ones, then the others.
fn powers() -> impl Iterator<Item = u32> {
    (0..23).map(|place| 1 << place).chain((1..255).map(|exponent| exponent << 23))
}

/// NaNs: each bit of the fraction alone, each with the bit that makes a NaN quiet, and all bits
/// with that and without.
fn nans() -> impl Iterator<Item = u32> {
    const QUIET: u32 = 1 << 22;
    let alone = (0..=22).map(|place| 1 << place);
    let quiet = (0..22).map(|place| QUIET | 1 << place);
    let full = [QUIET - 1, QUIET | (QUIET - 1)];
    alone.chain(quiet).chain(full).map(|fraction| INFINITY | fraction)
}
