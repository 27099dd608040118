//! The delays of a frame, and how each was found.

use crate::{ffi, Frame, Refusal};

/// How the delay of a subframe was found. With the fields of the frame it tells the delay, given the one that is carried into the
/// subframe or, for [`Rule::Relative`], the first subframe's.
#[derive(Debug, Clone, Copy, PartialEq, Eq, Hash)]
pub enum Rule {
    /// 1: coded in thirds of a sample, in the first subframe, with P1 below 197.
    Thirds,
    /// 2: coded whole, in the first subframe, with P1 of 197 or more.
    Whole,
    /// 3: coded relative to the first, by P2, in the second subframe of every voice frame, after bad parity too.
    Relative,
    /// 4: carried after bad parity, in the first subframe, whatever P1 is.
    BadParity,
    /// 5: carried in concealment, in both subframes of a frame that isn't voice.
    Concealed,
}

impl Rule {
    /// All, by their numbers.
    pub const ALL: [Rule; 5] = [
        Rule::Thirds,
        Rule::Whole,
        Rule::Relative,
        Rule::BadParity,
        Rule::Concealed,
    ];

    /// Its number, 1 to 5.
    pub fn number(self) -> u32 {
        match self {
            Rule::Thirds => 1,
            Rule::Whole => 2,
            Rule::Relative => 3,
            Rule::BadParity => 4,
            Rule::Concealed => 5,
        }
    }

    /// The rule with this number.
    pub(crate) fn from_number(number: u32) -> Result<Self, Refusal> {
        let found = Rule::ALL.into_iter().find(|rule| rule.number() == number);
        found.ok_or(Refusal::NoRule)
    }
}

/// The delay that a subframe used: integer + fraction / 3 samples.
#[derive(Debug, Clone, Copy, PartialEq, Eq, Hash)]
pub struct Delay {
    /// Whole samples.
    pub integer: i16,
    /// Thirds of a sample: -1, 0 or 1.
    pub fraction: i16,
}

impl Delay {
    /// The delay in thirds of a sample.
    pub fn thirds(self) -> i32 {
        3 * i32::from(self.integer) + i32::from(self.fraction)
    }
}

/// What a frame hands up beside its samples: of each of its two subframes the delay, and how it was found.
#[derive(Debug, Clone, Copy, PartialEq, Eq, Hash)]
pub struct Report {
    /// Of the first subframe, and of the second.
    pub delays: [Delay; 2],
    /// The rule of each.
    pub rules: [Rule; 2],
}

impl Report {
    /// That of the numbers that the library writes: no other number of a rule is written, which is proved.
    pub(crate) fn from_numbers(delays: [i16; 4], rules: [u32; 2]) -> Result<Self, Refusal> {
        let [integer, fraction, integer_2, fraction_2] = delays;
        let [first, second] = rules;
        Ok(Report {
            delays: [
                Delay { integer, fraction },
                Delay {
                    integer: integer_2,
                    fraction: fraction_2,
                },
            ],
            rules: [Rule::from_number(first)?, Rule::from_number(second)?],
        })
    }
}

/// The delays and rules of a frame without its samples, as [`Decoder::frame`](crate::Decoder::frame) hands them up, and without
/// tables: of the state only the delay is needed that is carried into the frame, word 61 of a [`StateBlock`](crate::StateBlock), which
/// becomes the one that is carried on. Before the first frame it is word 1867 of the [`TableBlock`](crate::TableBlock).
///
/// ```
/// use holdamek::{delays, Frame, Refusal, Rule};
/// # fn main() -> Result<(), Refusal> {
/// let mut carried = 143;
/// let report = delays(&mut carried, &Frame::Erased)?;
/// assert_eq!(report.delays.map(|delay| delay.thirds()), [3 * 143, 3 * 143]);
/// assert_eq!(report.rules, [Rule::Concealed; 2]);
/// assert_eq!(delays(&mut 18, &Frame::Erased), Err(Refusal::StateValues));
/// # Ok(())
/// # }
/// ```
///
/// # Errors
/// [`Refusal::StateValues`], where the carried delay is outside 19..144.
pub fn delays(carried: &mut i16, frame: &Frame) -> Result<Report, Refusal> {
    let (mut delays, mut rules) = ([0; 4], [0; 2]);
    Refusal::check(ffi::delays(
        carried,
        frame.kind(),
        frame.payload(),
        &mut delays,
        &mut rules,
    ))?;
    Report::from_numbers(delays, rules)
}
