//! What is handed in and what comes back, as this project writes it, and the parts that are compared.

pub mod comparison;
pub mod days;
pub mod documents;
pub mod equation;
pub mod office;
pub mod plain;
pub mod routine;
pub mod second;
mod table_rows;
pub mod table_text;

/// A station: its code, c1 to c5, the clear-day minimum, the elevation and the wind limit, in the log's units. A wind run
/// above the limit counts as the limit.
#[derive(Clone, Copy, Debug, PartialEq, Eq)]
pub struct Station {
    pub code: [u8; 4],
    pub c: [i16; 5],
    pub minimum: u16,
    pub elevation: u16,
    pub wind_limit: u16,
}

/// The published routine's wind limit, in tenths: that of every station of kind 1, and the highest that one of kind 8 has.
pub const ROUTINE_LIMIT: u16 = 1_500;

impl Station {
    /// Whether this day's wind run counts as less than it does by the routine's limit.
    pub fn limits(&self, day: &Day) -> bool {
        self.wind_limit < ROUTINE_LIMIT && i32::from(day.wind) > self.wind_limit.into()
    }
}

/// A day: its date and six readings in tenths.
#[derive(Clone, Copy, Debug, PartialEq, Eq)]
pub struct Day {
    pub year: u16,
    pub d: u16,
    pub maximum: i16,
    pub minimum: i16,
    pub mean: i16,
    pub dewpoint: i16,
    pub radiation: i16,
    pub wind: i16,
}

/// The mark of a reading that is missing.
pub const MISSING: i16 = -32_768;

impl Day {
    /// What the equation is fed for an answered day's dew point: by W4 the minimum, where the dew point is missing.
    pub fn dewpoint_or_substitute(&self) -> i16 {
        match self.dewpoint {
            MISSING => self.minimum,
            dewpoint => dewpoint,
        }
    }
}

/// A crop: its letters, its year, its start day S and full day F, and the percentages of stages 0 to 10.
#[derive(Clone, Copy, Debug, PartialEq, Eq)]
pub struct Crop {
    pub code: [u8; 4],
    pub year: u16,
    pub start: u16,
    pub full: u16,
    pub percentages: [u8; 11],
}

/// The means of the three calendar days before, the nearest first.
pub type Earlier = [Option<i16>; 3];

/// A figure in 0.0001 inch, a refusal's number, or the figure of a day with the minimum in the dew point's place.
#[derive(Clone, Copy, Debug, PartialEq, Eq)]
pub enum Verdict {
    Figure(u32),
    Refused(u32),
    Estimated(u32),
}

impl Verdict {
    /// The figure of an answered day, with W4's mark or without.
    pub fn figure(self) -> Option<u32> {
        match self {
            Verdict::Figure(figure) | Verdict::Estimated(figure) => Some(figure),
            Verdict::Refused(_) => None,
        }
    }
}

/// The length written, or a refusal's number with its offset or, for 12, the length that a buffer needs.
#[derive(Clone, Copy, Debug, PartialEq, Eq)]
pub enum Outcome {
    Written(usize),
    Refused(u32, usize),
}
