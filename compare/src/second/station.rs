//! The stations of scope document 01 and of change request W2: which ones are accepted.
use super::Reason;
use crate::{Station, ROUTINE_LIMIT};

/// The reasons for refusal 3.
pub const REASONS: [Reason<Station>; 4] = [
    ("a letter", |station| {
        !station.code.iter().all(u8::is_ascii_uppercase)
    }),
    ("the clear-day minimum", |station| {
        !(50..=200).contains(&station.minimum)
    }),
    ("the elevation", |station| station.elevation > 3_000),
    ("the wind limit", |station| {
        !(1_000..=ROUTINE_LIMIT).contains(&station.wind_limit)
    }),
];

/// Refusal 3 is for a station that this does not hold of.
pub fn in_range(station: &Station) -> bool {
    REASONS.iter().all(|(_, holds)| !holds(station))
}
