//! The fields of a day handed in alone and of a crop: how each is set, its accepted range and its special values.
use super::Case;
use crate::{Crop, Day, ROUTINE_LIMIT};
use std::ops::RangeInclusive;

/// A field of a case or of a crop, its accepted range, and further values that the rules treat on their own.
pub(super) struct Field<Of> {
    pub(super) set: fn(&mut Of, i64),
    low: i64,
    high: i64,
    pub(super) special: &'static [i64],
}

impl<Of> Field<Of> {
    /// The ends of the range, one beyond each, and the special values.
    pub(super) fn edges(&self) -> Vec<i64> {
        let ends = [self.low - 1, self.low, self.high, self.high + 1];
        [&ends[..], self.special].concat()
    }

    /// Every value of the range, and one beyond each end.
    pub(super) fn values(&self) -> RangeInclusive<i64> {
        self.low - 1..=self.high + 1
    }
}

const fn field<Of>(
    set: fn(&mut Of, i64),
    low: i64,
    high: i64,
    special: &'static [i64],
) -> Field<Of> {
    Field {
        set,
        low,
        high,
        special,
    }
}

const fn letter<Of>(set: fn(&mut Of, i64)) -> Field<Of> {
    field(set, b'A' as i64, b'Z' as i64, &[0, b'a' as i64, 255])
}

const fn coefficient(set: fn(&mut Case, i64)) -> Field<Case> {
    field(set, -32_768, 32_767, &[-1, 0, 1])
}

pub(super) const LOWEST_TEMPERATURE: i16 = -94;
pub(super) const HIGHEST_TEMPERATURE: i16 = 1_291;

const fn temperature(set: fn(&mut Case, i64)) -> Field<Case> {
    let (low, high) = (LOWEST_TEMPERATURE as i64, HIGHEST_TEMPERATURE as i64);
    field(set, low, high, &[-32_768, -32_767, 32_767, -160, 320])
}

/// No limit is below; the routine's is the highest.
pub(super) const LOWEST_LIMIT: u16 = 1_000;

const fn wind_limit(set: fn(&mut Case, i64)) -> Field<Case> {
    // 33,768 is 1,000 with the highest bit set.
    let (low, high) = (LOWEST_LIMIT as i64, ROUTINE_LIMIT as i64);
    field(set, low, high, &[0, 33_768, 65_535])
}

/// The first fields of a case are its station's.
pub(super) const STATION_FIELDS: usize = 12;

pub(super) const FIELDS: [Field<Case>; 26] = [
    letter(|case, value| case.station.code[0] = value as u8),
    letter(|case, value| case.station.code[1] = value as u8),
    letter(|case, value| case.station.code[2] = value as u8),
    letter(|case, value| case.station.code[3] = value as u8),
    coefficient(|case, value| case.station.c[0] = value as i16),
    coefficient(|case, value| case.station.c[1] = value as i16),
    coefficient(|case, value| case.station.c[2] = value as i16),
    coefficient(|case, value| case.station.c[3] = value as i16),
    coefficient(|case, value| case.station.c[4] = value as i16),
    field(
        |case, value| case.station.minimum = value as u16,
        50,
        200,
        &[0, 32_768, 65_535],
    ),
    field(
        |case, value| case.station.elevation = value as u16,
        0,
        3_000,
        &[32_768, 65_535],
    ),
    wind_limit(|case, value| case.station.wind_limit = value as u16),
    wind_limit(|case, value| {
        case.station.wind_limit = value as u16;
        case.day.wind = (value + 1) as i16;
    }),
    field(
        |case, value| case.day.year = value as u16,
        1_950,
        2_099,
        &[0, 1_900, 2_000, 65_535],
    ),
    field(
        |case, value| case.day.d = value as u16,
        1,
        366,
        &[59, 60, 61, 365, 32_769, 65_535],
    ),
    temperature(|case, value| case.day.maximum = value as i16),
    temperature(|case, value| case.day.minimum = value as i16),
    temperature(|case, value| case.day.mean = value as i16),
    temperature(|case, value| case.day.dewpoint = value as i16),
    temperature(|case, value| {
        let f = value as i16;
        let day = &mut case.day;
        (day.maximum, day.minimum, day.mean, day.dewpoint) = (f, f, f, f);
    }),
    field(
        |case, value| case.day.radiation = value as i16,
        0,
        12_000,
        &[-32_768, 32_767],
    ),
    field(
        |case, value| case.day.wind = value as i16,
        0,
        9_999,
        &[
            -32_768,
            LOWEST_LIMIT as i64,
            LOWEST_LIMIT as i64 + 1,
            ROUTINE_LIMIT as i64,
            ROUTINE_LIMIT as i64 + 1,
            32_767,
        ],
    ),
    temperature(|case, value| case.earlier[0] = Some(value as i16)),
    temperature(|case, value| case.earlier[1] = Some(value as i16)),
    temperature(|case, value| case.earlier[2] = Some(value as i16)),
    temperature(|case, value| case.earlier = [Some(value as i16); 3]),
];

/// A place for one of a day's readings.
pub(super) type Reading = fn(&mut Day) -> &mut i16;

/// All but the dew point.
pub(super) const OTHER_READINGS: [Reading; 5] = [
    |day| &mut day.maximum,
    |day| &mut day.minimum,
    |day| &mut day.mean,
    |day| &mut day.radiation,
    |day| &mut day.wind,
];

const fn percentage<const STAGE: usize>() -> Field<Crop> {
    field(
        |crop, value| crop.percentages[STAGE] = value as u8,
        0,
        200,
        &[255],
    )
}

pub(super) const CROP_FIELDS: [Field<Crop>; 18] = [
    letter(|crop, value| crop.code[0] = value as u8),
    letter(|crop, value| crop.code[1] = value as u8),
    letter(|crop, value| crop.code[2] = value as u8),
    letter(|crop, value| crop.code[3] = value as u8),
    field(
        |crop, value| crop.year = value as u16,
        1_950,
        2_099,
        &[0, 65_535],
    ),
    field(
        |crop, value| crop.start = value as u16,
        1,
        364,
        &[32_769, 65_535],
    ),
    field(
        |crop, value| crop.full = value as u16,
        2,
        365,
        &[0, 32_769, 65_535],
    ),
    percentage::<0>(),
    percentage::<1>(),
    percentage::<2>(),
    percentage::<3>(),
    percentage::<4>(),
    percentage::<5>(),
    percentage::<6>(),
    percentage::<7>(),
    percentage::<8>(),
    percentage::<9>(),
    percentage::<10>(),
];
