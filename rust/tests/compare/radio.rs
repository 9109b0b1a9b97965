//! Frames and what is heard of them.

use reference::coder::{coded, UPLINK_WORDS};
use reference::payload::Fields;
use reference::whitening::whitened;
use reference::{places, Rule};

use crate::judge::Call;
use crate::random::Random;

/// What a receiver has of one frame. Values are bytes in two's complement.
pub struct Heard {
    pub length: usize,
    pub marks: Vec<u8>,
    pub values: Vec<u8>,
}

/// Any length that a message can have.
pub fn any_length(random: &mut Random) -> usize {
    20 + random.below(236)
}

/// The fields of any message, with any mode.
pub fn any_fields(random: &mut Random) -> Fields {
    let length = any_length(random);
    let message = random.bytes(length);
    Fields::of(&message, random.below(4) as u8)
}

/// The coded bits of a payload.
pub fn coded_payload(fields: &Fields) -> Vec<bool> {
    coded(&UPLINK_WORDS, &whitened(&fields.bits()))
}

/// The value that says this bit with this weight; 128 has a value for 0 only.
pub fn saying(bit: bool, weight: i32) -> i32 {
    match bit {
        true => weight.min(127),
        false => -weight,
    }
}

/// A value around `level` on the side of the bit, more or less far off by `spread`.
pub fn soft(random: &mut Random, bit: bool, level: i32, spread: i32) -> i32 {
    let noise: i32 = (0..3).map(|_| random.between(-spread, spread)).sum();
    (saying(bit, level) + noise).clamp(-128, 127)
}

impl Heard {
    /// Values in the coder's order, laid at their places; every sub-packet is heard.
    pub fn new(length: usize, said: &[i32]) -> Heard {
        let mut values = vec![0; 24 * (length + 4)];
        for (place, &value) in places::of_coded(Rule::Paper, length).iter().zip(said) {
            values[place.in_values()] = value as i8 as u8;
        }
        Heard { length, marks: vec![1; length + 4], values }
    }

    /// A frame heard with the value that `say` gives for each coded bit.
    pub fn of(fields: &Fields, mut say: impl FnMut(bool) -> i32) -> Heard {
        let said: Vec<i32> = coded_payload(fields).into_iter().map(&mut say).collect();
        Heard::new(fields.message.len(), &said)
    }

    /// Loses each sub-packet with this chance, and leaves anything in the lost ones.
    pub fn lose(mut self, random: &mut Random, percent: i32) -> Heard {
        for mark in &mut self.marks {
            *mark = u8::from(!random.percent(percent));
        }
        self.with_garbage(random)
    }

    /// Puts anything into the sub-packets that are marked lost.
    pub fn with_garbage(mut self, random: &mut Random) -> Heard {
        for (mark, values) in self.marks.iter().zip(self.values.chunks_mut(24)) {
            if *mark == 0 {
                values.fill_with(|| random.byte());
            }
        }
        self
    }

    /// The recovery of it, with room for the message and sometimes more.
    pub fn recovery(self, random: &mut Random) -> Call {
        let message = any_room(random, self.length);
        Call::Recover {
            length: self.length as u64,
            marks: self.marks,
            values: self.values,
            message,
        }
    }

    /// The writing of its capture, with room for it and sometimes more.
    pub fn writing(self, random: &mut Random) -> Call {
        let (length, capture) = (self.length as u64, any_room(random, 119 + 28 * self.length));
        Call::WriteCapture { length, marks: self.marks, values: self.values, capture }
    }
}

/// A buffer of `needed` bytes or a few more, with anything in it.
pub fn any_room(random: &mut Random, needed: usize) -> Vec<u8> {
    let more = if random.bit() { 0 } else { random.below(40) };
    random.bytes(needed + more)
}

/// Any marks and values, few sub-packets lost or most of them.
pub fn anything_heard(random: &mut Random) -> Heard {
    let length = any_length(random);
    let values = random.bytes(24 * (length + 4));
    let percent = random.between(0, 100);
    Heard { length, marks: vec![1; length + 4], values }.lose(random, percent)
}
