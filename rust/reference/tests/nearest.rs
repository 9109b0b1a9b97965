//! The search against document 01's cases k to n and against looking at every string there is.

use reference::coder::{coded, cost, UPLINK_WORDS};
use reference::decoder::{nearest, Found, Tie};
use reference::several;

/// The words of document 01's code cases.
const CASE_WORDS: [u8; 3] = [0o133, 0o171, 0o165];

/// A small generator, so that the tests need nothing from outside: splitmix64.
struct Random(u64);

impl Random {
    fn below(&mut self, bound: u64) -> u64 {
        self.0 = self.0.wrapping_add(0x9E37_79B9_7F4A_7C15);
        let mut mixed = self.0;
        mixed = (mixed ^ mixed >> 30).wrapping_mul(0xBF58_476D_1CE4_E5B9);
        mixed = (mixed ^ mixed >> 27).wrapping_mul(0x94D0_49BB_1331_11EB);
        (mixed ^ mixed >> 31) % bound
    }

    fn values(&mut self, count: usize, most: u64) -> Vec<i32> {
        (0..count).map(|_| self.below(2 * most + 1) as i32 - most as i32).collect()
    }
}

/// The string of one bit that the paper's rule finds.
fn one_bit(values: &[i32]) -> Found {
    nearest(&CASE_WORDS, 1, values, &Tie::Zero)
}

/// Case b's coded bits as values +1 and -1, and the places of its 1s.
fn case_b_heard() -> (Vec<i32>, Vec<usize>) {
    let bits = coded(&CASE_WORDS, &[true]);
    let ones = (0..bits.len()).filter(|&j| bits[j]).collect();
    (bits.iter().map(|&bit| if bit { 1 } else { -1 }).collect(), ones)
}

/// Every string of n bits with its cost, the nearest first; among equals 0 at the first differing
/// bit comes first, for bits compare as false before true.
fn all_strings(words: &[u8; 3], n: usize, values: &[i32]) -> Vec<Found> {
    let string = |number: usize| (0..n).rev().map(|place| number >> place & 1 == 1).collect();
    let found = |bits: Vec<bool>| Found { cost: cost(&coded(words, &bits), values), bits };
    let mut all: Vec<Found> = (0..1 << n).map(|number| found(string(number))).collect();
    all.sort_by(|a, b| a.cost.cmp(&b.cost).then_with(|| a.bits.cmp(&b.bits)));
    all
}

/// Case b heard with some of its fifteen 1s reversed, as the bits of `reversed` say.
fn with_reversed(reversed: u32) -> Vec<i32> {
    let (mut values, ones) = case_b_heard();
    assert_eq!(ones.len(), 15);
    for (place, &j) in ones.iter().enumerate() {
        if reversed >> place & 1 == 1 {
            values[j] = -1;
        }
    }
    values
}

#[test]
fn cases_k_and_l_any_seven_or_eight_of_its_ones_reversed() {
    for reversed in 0..1_u32 << 15 {
        let expected = match reversed.count_ones() {
            7 => Found { bits: vec![true], cost: 7 },
            8 => Found { bits: vec![false], cost: 7 },
            _ => continue,
        };
        assert_eq!(one_bit(&with_reversed(reversed)), expected, "{reversed:#b}");
    }
}

#[test]
fn case_m_any_one_zeroed_and_seven_others_reversed() {
    let (_, ones) = case_b_heard();
    for reversed in (0..1_u32 << 15).filter(|reversed| reversed.count_ones() == 7) {
        for (place, &j) in ones.iter().enumerate() {
            if reversed >> place & 1 == 0 {
                let mut values = with_reversed(reversed);
                values[j] = 0;
                assert_eq!(one_bit(&values), Found { bits: vec![false], cost: 7 });
            }
        }
    }
}

#[test]
fn case_n_one_heavy_value() {
    let mut values = vec![0; 21];
    values[0] = -128;
    assert_eq!(one_bit(&values), Found { bits: vec![false], cost: 0 });
}

#[test]
fn the_search_finds_what_looking_at_all_strings_finds() {
    let mut random = Random(20);
    for round in 0..1500 {
        let n = 1 + random.below(10) as usize;
        let most = [1, 1, 2, 5, 128][random.below(5) as usize];
        let values = random.values(3 * (n + 6), most);
        let words = match round % 3 {
            0 => UPLINK_WORDS,
            1 => CASE_WORDS,
            _ => [0; 3].map(|_| random.below(128) as u8),
        };
        let all = all_strings(&words, n, &values);
        let context = format!("round {round}, n {n}, words {words:?}");
        assert_eq!(nearest(&words, n, &values, &Tie::Zero), all[0], "{context}");
        for keep in [1, 2, 8] {
            let found = several::nearest(&words, n, &values, keep);
            assert_eq!(found, all[..keep.min(all.len())], "{context}");
        }
    }
}

#[test]
fn other_rules_for_ties_find_a_nearest_string_too() {
    let mut random = Random(21);
    let mut differ = [0; 4];
    for _ in 0..300 {
        let n = 8 + random.below(3) as usize;
        let values = random.values(3 * (n + 6), 1);
        let over: Vec<bool> = (0..n).map(|_| random.below(2) == 1).collect();
        let all = all_strings(&UPLINK_WORDS, n, &values);
        let equals = all.iter().take_while(|found| found.cost == all[0].cost);
        let laid_over = |found: &&Found| -> Vec<bool> {
            found.bits.iter().zip(&over).map(|(&bit, &under)| bit ^ under).collect()
        };
        let last = equals.clone().last().unwrap();
        let first_under = equals.clone().min_by_key(laid_over).unwrap();
        let ties = [Tie::One, Tie::Under(over.clone()), Tie::OldestBit, Tie::NewestBit];
        let found = ties.map(|tie| nearest(&UPLINK_WORDS, n, &values, &tie));
        assert_eq!((&found[0], &found[1]), (last, first_under));
        for (found, differ) in found.iter().zip(&mut differ) {
            assert_eq!(found.cost, all[0].cost);
            *differ += u32::from(*found != all[0]);
        }
    }
    assert!(differ.iter().all(|&count| count > 10), "{differ:?}");
}
