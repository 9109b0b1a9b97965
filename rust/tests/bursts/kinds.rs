//! The kinds of random bursts, and how one of each is made.

use std::array;
use std::sync::LazyLock;

use crate::edges::{edges, halves, HALF, INFINITY, SIGN};
use crate::judge::Burst;
use crate::random::Random;

/// The bits of the numbers of a burst.
type Numbers = [u32; 24];

/// How the numbers of a kind are made.
type Make = fn(&mut Random) -> Numbers;

/// Each kind by what the table calls it.
const KINDS: [(&str, Make); 10] = [
    ("any bits", |random| all(random, any_bits)),
    ("around the bytes", around_the_bytes),
    ("at and beside halves", |random| all(random, near_half)),
    ("all below one half", |random| all(random, |random| below(random, HALF))),
    ("all subnormal", |random| all(random, |random| below(random, 1 << 23))),
    ("nearly the same magnitude", nearly_the_same),
    ("zeros, or nearly only zeros", nearly_zeros),
    ("edges of all sorts", |random| all(random, |random| random.pick(&EDGES))),
    ("infinities among others", with_infinities),
    ("NaNs among others", with_nans),
];

static EDGES: LazyLock<Vec<u32>> = LazyLock::new(edges);

/// What the table calls each kind.
pub fn names() -> impl Iterator<Item = &'static str> {
    KINDS.into_iter().map(|(name, _)| name)
}

/// The kind and the burst of a seed.
pub fn burst_of(seed: u64) -> (&'static str, Burst) {
    let mut random = Random::new(seed);
    let (kind, make) = random.pick(&KINDS);
    let numbers = make(&mut random).to_vec();
    let more = if random.percent(70) { 0 } else { random.below(40) };
    (kind, given(&mut random, numbers, 24 + more))
}

/// These numbers, with anything where the values go. Beside the numbers stands what would change
/// the finding or the peak.
pub fn given(random: &mut Random, numbers: Vec<u32>, room: usize) -> Burst {
    let values = random.bytes(room);
    let beside_numbers = [0; 2].map(|_| {
        let bits = random.pick(&[INFINITY, INFINITY + 1]);
        signed(random, bits)
    });
    let beside_values = [random.byte(), random.byte()];
    Burst { numbers, values, beside_numbers, beside_values }
}

/// Any 32 bits.
pub fn any_bits(random: &mut Random) -> u32 {
    random.next() as u32
}

/// Numbers from -160 to 160.
pub fn around_the_bytes(random: &mut Random) -> Numbers {
    const PARTS: i32 = 4096;
    let number = |random: &mut Random| random.between(-160 * PARTS, 160 * PARTS) as f32;
    all(random, |random| (number(random) / PARTS as f32).to_bits())
}

/// 24 numbers that are made alike.
fn all(random: &mut Random, make: impl Fn(&mut Random) -> u32) -> Numbers {
    array::from_fn(|_| make(random))
}

/// A number with these bits and any sign.
fn signed(random: &mut Random, bits: u32) -> u32 {
    if random.bit() {
        bits | SIGN
    } else {
        bits
    }
}

/// A number of any sign whose other bits are below these, read as a whole number.
fn below(random: &mut Random, bound: u32) -> u32 {
    let bits = random.below(bound as usize) as u32;
    signed(random, bits)
}

/// k + 1/2 for a k from 0 to 128, or one of its neighbours.
fn near_half(random: &mut Random) -> u32 {
    let half = halves(2 * random.below(129) as u16 + 1);
    let bits = half.wrapping_add_signed(random.between(-2, 2));
    signed(random, bits)
}

/// Magnitudes that differ in their last bits alone.
fn nearly_the_same(random: &mut Random) -> Numbers {
    let least = random.below(INFINITY as usize - 2) as u32;
    all(random, |random| {
        let bits = least + random.below(3) as u32;
        signed(random, bits)
    })
}

/// Zeros of both signs, and few others or none.
fn nearly_zeros(random: &mut Random) -> Numbers {
    let others = random.pick(&[0, 0, 4, 20]);
    all(random, |random| {
        let bits = if random.percent(others) { random.below(INFINITY as usize) as u32 } else { 0 };
        signed(random, bits)
    })
}

/// Some infinities, and numbers of a kind before.
fn with_infinities(random: &mut Random) -> Numbers {
    let numbers = of_first_kinds(random, 8);
    with_some(random, numbers, |random| signed(random, INFINITY))
}

/// Some NaNs with anything in them, and numbers of a kind before.
fn with_nans(random: &mut Random) -> Numbers {
    let numbers = of_first_kinds(random, 9);
    with_some(random, numbers, |random| {
        let fraction = 1 + random.below((1 << 23) - 1) as u32;
        signed(random, INFINITY | fraction)
    })
}

/// Numbers of one of so many first kinds.
fn of_first_kinds(random: &mut Random, count: usize) -> Numbers {
    let (_, make) = random.pick(&KINDS[..count]);
    make(random)
}

/// The numbers with some of them, often one alone, made anew.
fn with_some(
    random: &mut Random,
    mut numbers: Numbers,
    make: impl Fn(&mut Random) -> u32,
) -> Numbers {
    let count = if random.bit() { 1 } else { 1 + random.below(24) };
    numbers[..count].fill_with(|| make(random));
    random.shuffle(&mut numbers);
    numbers
}
