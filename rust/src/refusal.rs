//! The refusals of the operations, by their numbers.

use std::fmt;

/// Why an operation was refused.
#[derive(Debug, Clone, Copy, PartialEq, Eq, Hash)]
#[non_exhaustive]
pub enum Refusal {
    /// 1: the table block isn't 1,880 words.
    TableLength,
    /// 2: the initial delay in the table block is outside 19..144.
    TableDelay,
    /// 3: the state block isn't 234 words.
    StateLength,
    /// 4: in the state block the predictor isn't 0 or 1, or the delay is outside 19..144; for [`delays`](crate::delays()), the
    /// carried delay is.
    StateValues,
    /// 5: the kind of frame is above 3.
    Kind,
    /// 6: the payload's length isn't that of its kind, or there are not ten bytes to read fields from or to write them to.
    PayloadLength,
    /// 7: the output isn't 80 words, or the room for a line isn't 36 bytes, or a G.711 leg has not as many bytes as samples, or
    /// what legs heard has not as many frames as there are legs, or arrivals have not as many times as numbers.
    OutputLength,
    /// 8: the receiver of the fields isn't 15 numbers, or the fields to be written aren't 15, or 14 without P0.
    ReceiverLength,
    /// 9: the line isn't one of the four forms.
    LineForm,
    /// 10: the frames or the lost ones are 360,000 or more, or the subframes of a rule 720,000.
    CountLimit,
    /// 11: the room for a line's payload isn't ten bytes.
    LineRoom,
    /// 12: the length of the RTP payload leaves a remainder other than 0 or 2 by ten.
    PayloadRemainder,
    /// 13: the index isn't below the number of frames of the RTP payload.
    FrameIndex,
    /// 15: a field exceeds its width.
    FieldWidth,
    /// 16: there is no such law of G.711. A [`Law`](crate::Law) is never refused with it.
    OtherLaw,
    /// 17: a sample isn't a table value of the law: no byte is read as it.
    NoTableValue,
    /// 19: a conference has no legs, or more than 8.
    LegsLength,
    /// 20: a playout depth is tried on more than 4,096 frames, or on more than 4,096 arrivals.
    PlayoutLimit,
    /// 21: the number of an arrival isn't below the number of frames.
    ArrivalNumber,
    /// 24: the number of a rule isn't 1 to 5. A [`Rule`](crate::Rule) is never refused with it.
    NoRule,
    /// A number that this version of the crate doesn't know.
    Other(u32),
}

/// The refusals with their numbers, 1 to 13, 15 to 17, 19 to 21 and 24, and their texts.
const NUMBERED: [(u32, Refusal, &str); 20] = [
    (1, Refusal::TableLength, "the table block isn't 1,880 words"),
    (
        2,
        Refusal::TableDelay,
        "the initial delay in the table block is outside 19..144",
    ),
    (3, Refusal::StateLength, "the state block isn't 234 words"),
    (
        4,
        Refusal::StateValues,
        "the predictor or the delay in the state block, or the carried delay, is out of range",
    ),
    (5, Refusal::Kind, "there is no such kind of frame"),
    (
        6,
        Refusal::PayloadLength,
        "the payload has another length than its kind, or the bytes of the fields aren't ten",
    ),
    (
        7,
        Refusal::OutputLength,
        "the output isn't 80 words, or the room for a line isn't 36 bytes, or a G.711 leg has not as many bytes as samples, or what legs heard has not as many frames as there are legs, or arrivals have not as many times as numbers",
    ),
    (
        8,
        Refusal::ReceiverLength,
        "the fields, or their receiver, aren't 15 numbers (14 without P0)",
    ),
    (9, Refusal::LineForm, "the line isn't one of the four forms"),
    (
        10,
        Refusal::CountLimit,
        "the frames or the lost ones are 360,000 or more, or the subframes of a rule 720,000",
    ),
    (
        11,
        Refusal::LineRoom,
        "the room for a line's payload isn't ten bytes",
    ),
    (
        12,
        Refusal::PayloadRemainder,
        "the length of the RTP payload leaves a remainder other than 0 or 2 by ten",
    ),
    (
        13,
        Refusal::FrameIndex,
        "the index isn't below the number of frames of the RTP payload",
    ),
    (15, Refusal::FieldWidth, "a field exceeds its width"),
    (16, Refusal::OtherLaw, "there is no such law of G.711"),
    (
        17,
        Refusal::NoTableValue,
        "a sample isn't a table value of the law",
    ),
    (
        19,
        Refusal::LegsLength,
        "a conference has no legs, or more than 8",
    ),
    (
        20,
        Refusal::PlayoutLimit,
        "there are more than 4,096 frames, or more than 4,096 arrivals",
    ),
    (
        21,
        Refusal::ArrivalNumber,
        "the number of an arrival isn't below the number of frames",
    ),
    (24, Refusal::NoRule, "the number of a rule isn't 1 to 5"),
];

impl Refusal {
    /// The refusal of a number; 0 is success.
    pub(crate) fn check(code: u32) -> Result<(), Refusal> {
        if code == 0 {
            return Ok(());
        }
        let found = NUMBERED.iter().find(|(number, _, _)| *number == code);
        Err(found.map_or(Refusal::Other(code), |(_, refusal, _)| *refusal))
    }

    /// Its number, and its text.
    fn named(self) -> (u32, &'static str) {
        if let Refusal::Other(code) = self {
            return (code, "unknown");
        }
        let found = NUMBERED.iter().find(|(_, refusal, _)| *refusal == self);
        found.map_or((0, ""), |(number, _, text)| (*number, text))
    }

    /// Its number.
    pub fn code(self) -> u32 {
        self.named().0
    }
}

impl fmt::Display for Refusal {
    fn fmt(&self, f: &mut fmt::Formatter<'_>) -> fmt::Result {
        let (code, text) = self.named();
        write!(f, "refusal {code}: {text}")
    }
}

impl std::error::Error for Refusal {}

#[test]
fn every_number_comes_back() {
    assert_eq!(Refusal::check(0), Ok(()));
    for code in (1..30).chain([u32::MAX]) {
        let refusal = Refusal::check(code).unwrap_err();
        assert_eq!(refusal.code(), code);
        let known = code == 24 || code <= 21 && code != 14 && code != 18;
        assert_eq!(matches!(refusal, Refusal::Other(_)), !known);
    }
}
