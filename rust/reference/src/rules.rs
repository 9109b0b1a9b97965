//! The rules that recovery can be asked to follow: the paper's, and wrong ones that look right.

/// Which rule recovery follows. All but [`Rule::Paper`] are wrong in one point.
#[derive(Clone, Copy, Debug, PartialEq, Eq)]
pub enum Rule {
    /// Document 01 as it stands.
    Paper,
    /// Among equals the string with 1 at the first differing bit wins.
    TieToOne,
    /// Where two paths of equal cost meet, the one whose bit leaves the window of seven as 0 stays.
    TieByOldestBit,
    /// Where two paths of equal cost meet, the one whose leaving bit equals the newest bit stays.
    TieByNewestBit,
    /// Equal strings are compared after whitening is removed.
    TieAfterWhitening,
    /// -128 weighs 127.
    Minus128As127,
    /// -128 says nothing.
    Minus128As0,
    /// The values of lost sub-packets count like those of heard ones.
    LostValuesCount,
    /// The eight nearest strings are tried in turn until one passes every check.
    FirstCrcPass,
    /// Each bit is decided 96 steps after it, without waiting for the end.
    DecidedAfter96Steps,
    /// The first 48 coded bits become the last 48.
    ShiftTheOtherWay,
    /// The cost is answered modulo 65,536.
    CostIn16Bits,
    /// The PSI is not compared with the told length.
    PsiNotCompared,
    /// The odd/even rule of groups is used for the extension too, going round within it.
    ParityInExtension,
}

impl Rule {
    /// Every rule but the paper's.
    pub const ALL_WRONG: &'static [Rule] = &[
        Rule::TieToOne,
        Rule::TieByOldestBit,
        Rule::TieByNewestBit,
        Rule::TieAfterWhitening,
        Rule::Minus128As127,
        Rule::Minus128As0,
        Rule::LostValuesCount,
        Rule::FirstCrcPass,
        Rule::DecidedAfter96Steps,
        Rule::ShiftTheOtherWay,
        Rule::CostIn16Bits,
        Rule::PsiNotCompared,
        Rule::ParityInExtension,
    ];

    /// The rule in a few plain words, different for each.
    pub fn name(self) -> &'static str {
        match self {
            Rule::Paper => "the paper's rule",
            Rule::TieToOne => "ties go to 1",
            Rule::TieByOldestBit => "ties by the oldest bit",
            Rule::TieByNewestBit => "ties by the newest bit",
            Rule::TieAfterWhitening => "ties after whitening is removed",
            Rule::Minus128As127 => "-128 weighs 127",
            Rule::Minus128As0 => "-128 weighs 0",
            Rule::LostValuesCount => "lost values count",
            Rule::FirstCrcPass => "first string that passes its checks",
            Rule::DecidedAfter96Steps => "bits decided after 96 steps",
            Rule::ShiftTheOtherWay => "shift the other way",
            Rule::CostIn16Bits => "cost in 16 bits",
            Rule::PsiNotCompared => "PSI not compared",
            Rule::ParityInExtension => "odd and even groups in the extension",
        }
    }

    /// What a value, a byte in two's complement, says: the sign is the bit, the rest its weight.
    pub fn said(self, value: u8) -> i32 {
        match (self, value) {
            (Rule::Minus128As127, 0x80) => -127,
            (Rule::Minus128As0, 0x80) => 0,
            (_, 0..=0x7F) => i32::from(value),
            _ => i32::from(value) - 256,
        }
    }

    /// Whether the values of a sub-packet with this mark count.
    pub fn counts(self, mark: u8) -> bool {
        mark == 1 || self == Rule::LostValuesCount
    }

    /// The cost as it is answered.
    pub fn answered(self, cost: u32) -> u32 {
        match self {
            Rule::CostIn16Bits => cost % 65_536,
            _ => cost,
        }
    }
}

#[cfg(test)]
mod tests {
    use super::Rule;

    #[test]
    fn names_differ() {
        let mut names: Vec<_> = Rule::ALL_WRONG.iter().map(|rule| rule.name()).collect();
        names.push(Rule::Paper.name());
        names.sort_unstable();
        names.dedup();
        assert_eq!(names.len(), 1 + Rule::ALL_WRONG.len());
    }

    #[test]
    fn a_byte_is_in_twos_complement() {
        for value in i8::MIN..=i8::MAX {
            assert_eq!(Rule::Paper.said(value as u8), i32::from(value));
        }
    }
}
