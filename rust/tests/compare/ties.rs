//! Two strings that are equally near, or nearly so.

use reference::coder::{coded, cost, UPLINK_WORDS};
use reference::payload::Fields;
use reference::uplink::{heard, search};
use reference::whitening::whitened;
use reference::{places, Rule};

use crate::judge::Call;
use crate::radio::{any_fields, saying, Heard};
use crate::random::Random;

/// The polynomial of the CRC with its leading term: what is laid over message and mode as a
/// multiple of it changes no CRC.
const POLYNOMIAL: u32 = 0b1_1001_1011;

/// The lightest such difference that is known: 22 coded places.
const LIGHTEST: u32 = 0b1011_0010_1111;

/// What was heard, and the two strings between which it lies, as they enter the coder.
pub struct Tied {
    pub heard: Heard,
    pub strings: [Vec<bool>; 2],
}

/// Two frames whose checks both pass, equally near.
pub fn between_good_frames(random: &mut Random) -> Tied {
    let string = whitened(&any_fields(random).bits());
    let difference = if random.bit() { LIGHTEST } else { multiple(random) };
    let other = laid_over(random, &string, difference, 24);
    equally_near(random, [string, other], false)
}

/// A frame and a string that differs from it anywhere, equally near.
pub fn with_any_string(random: &mut Random) -> Tied {
    let string = whitened(&any_fields(random).bits());
    let difference = 1 + 2 * random.below(1 << 11) as u32;
    let other = laid_over(random, &string, difference, 0);
    let mut strings = [string, other];
    random.shuffle(&mut strings);
    equally_near(random, strings, false)
}

/// Two frames whose checks both pass, one nearer by just 1.
pub fn nearly(random: &mut Random) -> Tied {
    let string = whitened(&any_fields(random).bits());
    let difference = multiple(random);
    let other = laid_over(random, &string, difference, 24);
    equally_near(random, [string, other], true)
}

/// A multiple of the polynomial by a factor of at most seven bits.
fn multiple(random: &mut Random) -> u32 {
    let factor = 1 + 2 * random.below(64) as u32;
    (0..7).filter(|place| factor >> place & 1 == 1).fold(0, |sum, place| sum ^ POLYNOMIAL << place)
}

/// The string with the difference laid over it somewhere from bit `first` on.
fn laid_over(random: &mut Random, string: &[bool], difference: u32, first: usize) -> Vec<bool> {
    let width = (32 - difference.leading_zeros()) as usize;
    let at = first + random.below(string.len() - width - first + 1);
    let mut other = string.to_vec();
    for place in 0..width {
        other[at + place] ^= difference >> (width - 1 - place) & 1 == 1;
    }
    other
}

/// How heavy values are, from and to: where the strings agree, and where they differ.
#[derive(Clone)]
struct Weights {
    agreeing: [i32; 2],
    differing: [i32; 2],
}

const WEIGHTS: [Weights; 5] = [
    Weights { agreeing: [1, 1], differing: [1, 1] },
    Weights { agreeing: [1, 10], differing: [1, 3] },
    Weights { agreeing: [10, 127], differing: [1, 10] },
    Weights { agreeing: [60, 127], differing: [1, 5] },
    Weights { agreeing: [120, 127], differing: [100, 128] },
];

/// What lies between two strings: the same weight is heard against each, or 1 more against one.
fn equally_near(random: &mut Random, strings: [Vec<bool>; 2], tilted: bool) -> Tied {
    let length = (strings[0].len() - 26) / 8;
    let coded = strings.each_ref().map(|string| coded(&UPLINK_WORDS, string));
    let lost = random.pick(&[0, 0, 5, 20]);
    let marks: Vec<u8> = (0..length + 4).map(|_| u8::from(!random.percent(lost))).collect();
    let weights = random.pick(&WEIGHTS);
    let mut said = agreeing(random, &coded, weights.agreeing);
    let mut places = differing(length, &marks, &coded);
    random.shuffle(&mut places);
    let tilting = if tilted { places.pop() } else { None };
    if let Some(j) = tilting {
        said[j] = saying(random.bit(), 1);
    }
    for pair in places.chunks_exact(2) {
        let bits = [coded[0][pair[0]], coded[1][pair[1]]];
        let weight = random.between(weights.differing[0], weights.differing[1]);
        let weight = if bits == [false; 2] { weight } else { weight.min(127) };
        said[pair[0]] = saying(bits[0], weight);
        said[pair[1]] = saying(bits[1], weight);
    }
    let heard = Heard { marks, ..Heard::new(length, &said) };
    Tied { heard: heard.with_garbage(random), strings }
}

/// Values for the coded bits that are the same in both, most of them right; zeros elsewhere.
fn agreeing(random: &mut Random, coded: &[Vec<bool>; 2], weights: [i32; 2]) -> Vec<i32> {
    let (silent, wrong) = (random.pick(&[0, 0, 0, 10]), random.pick(&[0, 0, 0, 1]));
    let say = |(&one, &other): (&bool, &bool)| {
        let counts = one == other && !random.percent(silent);
        let weight = if counts { random.between(weights[0], weights[1]) } else { 0 };
        saying(one ^ random.percent(wrong), weight)
    };
    coded[0].iter().zip(&coded[1]).map(say).collect()
}

/// The coded bits that are heard and differ.
fn differing(length: usize, marks: &[u8], coded: &[Vec<bool>; 2]) -> Vec<usize> {
    let places = places::of_coded(Rule::Paper, length);
    let heard = |j: &usize| marks[places[*j].sub_packet] == 1;
    (0..coded[0].len()).filter(|&j| coded[0][j] != coded[1][j]).filter(heard).collect()
}

/// Whether both strings are nearest: two different ones, at the same cost, and none undercuts it.
pub fn really_tied(call: &Call, strings: &[Vec<bool>; 2], answered: Option<u32>) -> bool {
    let Call::Recover { length, marks, values, .. } = call else {
        return false;
    };
    let heard = heard(Rule::Paper, *length as usize, marks, values);
    let [one, other] = strings.each_ref().map(|string| cost(&coded(&UPLINK_WORDS, string), &heard));
    let least = || answered.unwrap_or_else(|| search(Rule::Paper, *length as usize, &heard).cost);
    strings[0] != strings[1] && one == other && one == least()
}

/// Whether a string passes all checks.
pub fn passes(string: &[bool]) -> bool {
    Fields::read(&whitened(string)).judge(Rule::Paper).is_ok()
}
