//! The places of coded bits, TS 103 357 clause 6.4.4.6, by walking through the stream and counting.

use crate::Rule;

/// Where a coded bit stands: its sub-packet and its symbol there, 0 to 11 or 24 to 35.
#[derive(Clone, Copy, Debug, PartialEq, Eq)]
pub struct Place {
    pub sub_packet: usize,
    pub symbol: usize,
}

impl Place {
    /// The index of its byte in a frame of 36 symbols a sub-packet.
    pub fn in_frame(self) -> usize {
        36 * self.sub_packet + self.symbol
    }

    /// The index of its value among 24 a sub-packet.
    pub fn in_values(self) -> usize {
        let skipped = if self.symbol < 12 { 0 } else { 12 };
        24 * self.sub_packet + self.symbol - skipped
    }
}

/// The number of coded bits of a message of `length` bytes.
pub fn coded_bits(length: usize) -> usize {
    96 + 24 * length
}

/// 6.4.4.6.2: the sub-packet of index i of the shifted stream.
fn sub_packet(rule: Rule, length: usize, i: usize) -> usize {
    if i < 288 {
        return i % 24;
    }
    let extension = length - 20;
    let group_length = extension + 12;
    let (g, r) = ((i - 288) / group_length, (i - 288) % group_length);
    if r < 12 {
        2 * r + g % 2
    } else if rule == Rule::ParityInExtension {
        24 + (2 * (r - 12) + g % 2) % extension
    } else {
        r + 12
    }
}

/// Table 6-43 as a rule: outward from the pilot, the two sides in turn, the left one first where
/// the sub-packet is even.
fn symbol(sub_packet: usize, order: usize) -> usize {
    let outward = order / 2;
    if order % 2 == sub_packet % 2 {
        11 - outward
    } else {
        24 + outward
    }
}

/// The place of each index of the shifted stream.
pub fn of_stream(rule: Rule, length: usize) -> Vec<Place> {
    let mut filled = vec![0; length + 4];
    let mut places = Vec::with_capacity(coded_bits(length));
    for i in 0..coded_bits(length) {
        let sub_packet = sub_packet(rule, length, i);
        let order = filled[sub_packet];
        filled[sub_packet] += 1;
        places.push(Place { sub_packet, symbol: symbol(sub_packet, order) });
    }
    places
}

/// The place of each coded bit, in the coder's order: 6.4.4.6.1 shifts the stream by 48.
pub fn of_coded(rule: Rule, length: usize) -> Vec<Place> {
    let mut places = of_stream(rule, length);
    match rule {
        Rule::ShiftTheOtherWay => places.rotate_right(48),
        _ => places.rotate_left(48),
    }
    places
}

#[cfg(test)]
mod tests {
    use super::*;

    const EVEN_ROW: [usize; 24] =
        [11, 24, 10, 25, 9, 26, 8, 27, 7, 28, 6, 29, 5, 30, 4, 31, 3, 32, 2, 33, 1, 34, 0, 35];
    const ODD_ROW: [usize; 24] =
        [24, 11, 25, 10, 26, 9, 27, 8, 28, 7, 29, 6, 30, 5, 31, 4, 32, 3, 33, 2, 34, 1, 35, 0];

    #[test]
    fn cases_c_to_j() {
        let cases = [
            ('c', 20, 0, 0, 11),
            ('d', 20, 287, 23, 6),
            ('e', 20, 288, 0, 5),
            ('f', 20, 300, 1, 30),
            ('g', 21, 300, 24, 11),
            ('h', 21, 301, 1, 30),
            ('i', 20, 575, 23, 0),
            ('j', 255, 6215, 258, 35),
        ];
        for (letter, length, i, sub_packet, symbol) in cases {
            let place = of_stream(Rule::Paper, length)[i];
            assert_eq!(place, Place { sub_packet, symbol }, "case {letter}");
        }
    }

    #[test]
    fn the_rule_is_table_6_43() {
        for order in 0..24 {
            assert_eq!(symbol(4, order), EVEN_ROW[order]);
            assert_eq!(symbol(7, order), ODD_ROW[order]);
        }
    }

    #[test]
    fn the_last_48_become_the_first_48() {
        for length in [20, 21, 100, 255] {
            let (stream, places) = (of_stream(Rule::Paper, length), of_coded(Rule::Paper, length));
            for (j, place) in places.iter().enumerate() {
                assert_eq!(*place, stream[(j + 48) % coded_bits(length)]);
            }
        }
    }

    #[test]
    fn every_place_is_taken_once_by_every_rule() {
        for rule in [Rule::Paper, Rule::ShiftTheOtherWay, Rule::ParityInExtension] {
            for length in 20..=255 {
                let mut taken = vec![false; 24 * (length + 4)];
                for place in of_coded(rule, length) {
                    assert!(place.symbol < 12 || (24..36).contains(&place.symbol));
                    assert!(!std::mem::replace(&mut taken[place.in_values()], true));
                }
                assert!(taken.iter().all(|&taken| taken));
            }
        }
    }
}
