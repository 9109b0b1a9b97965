//! The kinds of cases, and how a case of each is made.

use crate::damage;
use crate::judge::Call;
use crate::radio::{any_fields, any_length, anything_heard, saying, soft, Heard};
use crate::random::Random;
use crate::ties::{self, Tied};

/// What a case is about.
#[derive(Clone, Copy, Debug, PartialEq, Eq)]
pub enum Kind {
    Clean,
    LightLoss,
    HeavyLoss,
    StrongNoise,
    SmallValues,
    SmallAround,
    Minus128,
    TieOfFrames,
    TieWithAny,
    NearTie,
    WrongChecks,
    Silence,
    Build,
    CaptureWritten,
    CaptureRead,
    Sizes,
    Numbers,
    Marks,
    CaptureDamaged,
    CaptureEnd,
}

/// Each kind, how often it comes among their sum, and what the table calls it.
pub const KINDS: [(Kind, usize, &str); 20] = [
    (Kind::Clean, 5, "clean frames"),
    (Kind::LightLoss, 9, "few lost, noise"),
    (Kind::HeavyLoss, 9, "many lost, noise"),
    (Kind::StrongNoise, 6, "heavy values, many wrong"),
    (Kind::SmallValues, 3, "only -1, 0 and 1"),
    (Kind::SmallAround, 10, "-1, 0 and 1 around a frame"),
    (Kind::Minus128, 7, "-128 on both sides"),
    (Kind::TieOfFrames, 12, "tie of two good frames"),
    (Kind::TieWithAny, 7, "tie of a frame and any string"),
    (Kind::NearTie, 4, "1 away from a tie"),
    (Kind::WrongChecks, 5, "wrong checks"),
    (Kind::Silence, 2, "silence, or one value"),
    (Kind::Build, 4, "build"),
    (Kind::CaptureWritten, 3, "capture written"),
    (Kind::CaptureRead, 3, "capture read"),
    (Kind::Sizes, 6, "sizes damaged"),
    (Kind::Numbers, 4, "numbers damaged"),
    (Kind::Marks, 3, "marks damaged"),
    (Kind::CaptureDamaged, 5, "capture damaged"),
    (Kind::CaptureEnd, 3, "capture cut or longer"),
];

impl Kind {
    /// Its row in the table.
    pub fn row(self) -> usize {
        let mut rows = KINDS.iter();
        rows.position(|(kind, _, _)| *kind == self).expect("every kind is listed")
    }

    /// What the table calls it.
    pub fn name(self) -> &'static str {
        KINDS[self.row()].2
    }
}

/// A case: its kind, the call, and the two strings between which a tie was laid.
pub struct Case {
    pub kind: Kind,
    pub call: Call,
    pub tied: Option<[Vec<bool>; 2]>,
    pub guards: [u8; 2],
}

impl Case {
    /// The case of a seed.
    pub fn of(seed: u64) -> Case {
        let mut random = Random::new(seed);
        let kind = any_kind(&mut random);
        let guards = [random.byte(), random.byte()];
        let (call, tied) = made(kind, &mut random);
        Case { kind, call, tied, guards }
    }
}

fn any_kind(random: &mut Random) -> Kind {
    let mut ticket = random.below(KINDS.iter().map(|(_, share, _)| share).sum());
    for (kind, share, _) in KINDS {
        if ticket < share {
            return kind;
        }
        ticket -= share;
    }
    unreachable!("the shares add up")
}

/// The call of a case of this kind, and the strings of its tie.
fn made(kind: Kind, random: &mut Random) -> (Call, Option<[Vec<bool>; 2]>) {
    let heard = match kind {
        Kind::TieOfFrames => return tied(ties::between_good_frames(random), random),
        Kind::TieWithAny => return tied(ties::with_any_string(random), random),
        Kind::NearTie => return tied(ties::nearly(random), random),
        Kind::Build => return (damage::build(random), None),
        Kind::CaptureWritten => return (anything_heard(random).writing(random), None),
        Kind::CaptureRead => return (damage::reading(random), None),
        Kind::Sizes => return (damage::sizes(random), None),
        Kind::Numbers => return (damage::numbers(random), None),
        Kind::Marks => return (damage::marks(random), None),
        Kind::CaptureDamaged => return (damage::capture(random), None),
        Kind::CaptureEnd => return (damage::ending(random), None),
        Kind::Clean => clean(random),
        Kind::LightLoss => noisy(random, [0, 30], [100, 300]),
        Kind::HeavyLoss => noisy(random, [35, 75], [150, 400]),
        Kind::StrongNoise => strong(random),
        Kind::SmallValues => only_small(random),
        Kind::SmallAround => small(random),
        Kind::Minus128 => minus_128(random),
        Kind::WrongChecks => wrong_checks(random),
        Kind::Silence => silence(random),
    };
    (heard.recovery(random), None)
}

fn tied(tie: Tied, random: &mut Random) -> (Call, Option<[Vec<bool>; 2]>) {
    (tie.heard.recovery(random), Some(tie.strings))
}

/// Every coded bit on its right side, with any weight.
fn clean(random: &mut Random) -> Heard {
    let fields = any_fields(random);
    let most = random.pick(&[1, 10, 127]);
    Heard::of(&fields, |bit| saying(bit, random.between(1, most)))
}

/// Soft values whose level is between so many hundredths of their spread, and losses between so
/// many of 100.
fn noisy(random: &mut Random, lost: [i32; 2], level: [i32; 2]) -> Heard {
    let fields = any_fields(random);
    let spread = random.between(5, 40);
    let level = spread * random.between(level[0], level[1]) / 100;
    let heard = Heard::of(&fields, |bit| soft(random, bit, level, spread));
    let lost = random.between(lost[0], lost[1]);
    heard.lose(random, lost)
}

/// Every value as heavy as can be, and many of them wrong: the greatest costs. These are strewn
/// at random, or stand evenly, every third to eighth, which leaves more frames to be found.
fn strong(random: &mut Random) -> Heard {
    let fields = any_fields(random);
    let (strewn, chance, every) = (random.bit(), random.between(1, 14), random.between(3, 8));
    let mut nth = 0;
    Heard::of(&fields, |bit| {
        nth = (nth + 1) % every;
        let wrong = if strewn { random.percent(chance) } else { nth == 0 };
        saying(bit ^ wrong, random.between(127, 128))
    })
}

/// Values of -1, 0 and 1, most of them right: many ties.
fn small(random: &mut Random) -> Heard {
    let fields = any_fields(random);
    let (silent, wrong) = (random.between(0, 50), random.between(0, 15));
    let heard = Heard::of(&fields, |bit| match random.percent(silent) {
        true => 0,
        false => saying(bit ^ random.percent(wrong), 1),
    });
    let lost = random.pick(&[0, 10, 30]);
    heard.lose(random, lost)
}

/// -128 on the right and on the wrong side, among values of any weight.
fn minus_128(random: &mut Random) -> Heard {
    let fields = any_fields(random);
    let (often, wrong) = (random.between(10, 100), random.between(0, 12));
    let heard = Heard::of(&fields, |bit| {
        let weight = if random.percent(often) { 128 } else { random.between(0, 127) };
        saying(bit ^ random.percent(wrong), weight)
    });
    let lost = random.pick(&[0, 20]);
    heard.lose(random, lost)
}

/// A frame of which a check is wrong, or two, heard clean or with a little noise.
fn wrong_checks(random: &mut Random) -> Heard {
    let mut fields = any_fields(random);
    let other = 1 + random.below(255) as u8;
    let damage = 1 + random.below(7);
    if damage & 1 != 0 {
        fields.payload_crc ^= other;
    }
    if damage & 2 != 0 {
        fields.psi = fields.psi.wrapping_add(random.pick(&[1, 255, other]));
    }
    fields.header_crc = fields.right_header_crc();
    if damage & 4 != 0 && random.percent(40) {
        fields.header_crc ^= other;
    } else if damage & 4 != 0 {
        let at = random.below(fields.message.len());
        fields.message[at] ^= other;
    }
    let spread = random.pick(&[0, 10]);
    Heard::of(&fields, |bit| soft(random, bit, 20, spread))
}

/// No heard value but zeros, or just one.
fn silence(random: &mut Random) -> Heard {
    let mut heard = Heard::new(any_length(random), &[]);
    let lost = random.pick(&[0, 50, 100]);
    if random.bit() {
        let at = random.below(heard.values.len());
        heard.values[at] = random.pick(&[1, 127, 128, 255]);
    }
    heard.lose(random, lost)
}

/// Values of -1, 0 and 1 around nothing.
fn only_small(random: &mut Random) -> Heard {
    let length = any_length(random);
    let said: Vec<i32> = (0..24 * (length + 4)).map(|_| random.between(-1, 1)).collect();
    let lost = random.pick(&[0, 30]);
    Heard::new(length, &said).lose(random, lost)
}
