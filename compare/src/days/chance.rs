//! Stations, dates, crops and days by chance, in range and mostly as in the field.
use super::fields::LOWEST_LIMIT;
use super::{Case, Random};
use crate::second::sheet::clear_day;
use crate::{Crop, Day, Station, ROUTINE_LIMIT};

/// c1 to c5 of LIDW, MALI, KFLW, CEDC and FALN in the published station file.
pub(super) const PUBLISHED: [[i16; 5]; 5] = [
    [154, 1_760, 614, -396, 590],
    [213, 960, 599, -362, 521],
    [134, 1_470, 676, -427, 636],
    [219, 2_450, 437, -305, 460],
    [246, 2_690, 369, -270, 409],
];

fn capitals(random: &mut Random) -> [u8; 4] {
    [0; 4].map(|_: u8| random.between(b'A'.into(), b'Z'.into()) as u8)
}

/// A limit in range.
fn limit(random: &mut Random) -> u16 {
    match random.below(3) {
        0 => ROUTINE_LIMIT,
        1 => random.pick(&[LOWEST_LIMIT, LOWEST_LIMIT + 1, ROUTINE_LIMIT - 1]),
        _ => random.between(LOWEST_LIMIT.into(), ROUTINE_LIMIT.into()) as u16,
    }
}

pub(super) fn station(random: &mut Random) -> Station {
    let c = match random.below(8) {
        0 => [0; 5].map(|_: i16| random.bits() as i16),
        1 => [0; 5].map(|_: i16| random.pick(&[-32_768, -1, 0, 1, 32_767])),
        2 => [random.between(50, 900) as i16, 0, 0, 0, 0],
        _ => {
            let near = random.pick(&PUBLISHED);
            near.map(|c| c + random.between(-10, 10) as i16)
        }
    };
    Station {
        code: capitals(random),
        c,
        minimum: random.between(50, 200) as u16,
        elevation: random.between(0, 3_000) as u16,
        wind_limit: limit(random),
    }
}

/// The last day of each month in a common year.
const COMMON_MONTH_ENDS: [u16; 12] = [31, 59, 90, 120, 151, 181, 212, 243, 273, 304, 334, 365];

/// One of three days about a month's end, which in common years and in leap years has its last day among them and the first
/// of the next month.
pub(super) fn about_month_end(random: &mut Random) -> u16 {
    random.pick(&COMMON_MONTH_ENDS) + random.between(0, 2) as u16
}

pub(super) fn date(random: &mut Random) -> (u16, u16) {
    let d = match random.below(6) {
        0 => random.pick(&[1, 2, 3, 4, 362, 363, 364, 365]),
        1 => about_month_end(random).min(365),
        _ => random.between(1, 365) as u16,
    };
    (random.between(1_950, 2_099) as u16, d)
}

/// A crop in range, mostly of this date's year and with its start near, so that days before, in and after it follow.
pub(super) fn crop(random: &mut Random, (year, d): (u16, u16)) -> Crop {
    let year = match random.below(8) {
        0 => i64::from(year) + random.pick(&[-1, 1]),
        _ => year.into(),
    };
    let start = match random.below(8) {
        0 => random.pick(&[1, 2, 363, 364]),
        _ => (i64::from(d) + random.between(-12, 8)).clamp(1, 364),
    };
    let length = match random.below(3) {
        0 => random.pick(&[1, 2, 3, 4, 364]),
        1 => random.between(5, 30),
        _ => random.between(5, 200),
    };
    let percentages = match random.below(8) {
        0 => [0; 11].map(|_: u8| random.pick(&[0, 200])),
        1 => [0; 11].map(|_: u8| random.pick(&[0, 1, 49, 50, 51, 99, 100, 101, 199, 200])),
        _ => [0; 11].map(|_: u8| random.between(0, 200) as u8),
    };
    Crop {
        code: capitals(random),
        year: year.clamp(1_950, 2_099) as u16,
        start: start as u16,
        full: (start + length).min(365) as u16,
        percentages,
    }
}

/// Radiation for a clear-day Q: mostly within it, some up to twice it, some at the borders 0.7, 1 and 2.
fn radiation(random: &mut Random, q: i128) -> i16 {
    let border = |tenths_of_q: i128| (tenths_of_q * q / 1_000_000_000).min(12_000) as i64;
    let s = match random.below(12) {
        0 => border(7) + random.between(-1, 2),
        1 => border(10) + random.between(-1, 2),
        2 => border(20) + random.between(-1, 1),
        3 | 4 => random.between(0, border(20)),
        _ => random.between(0, border(10)),
    };
    s.clamp(0, 12_000) as i16
}

/// A day that is mostly answered.
pub(super) fn ordinary(random: &mut Random, station: Station, (year, d): (u16, u16)) -> Case {
    let (low, high) = match random.below(4) {
        0 => (-94, 1_291),
        1 => (random.between(-94, 300), random.between(301, 1_291)),
        _ => {
            let middle = random.between(100, 900);
            (middle - 180, middle + 180)
        }
    };
    let mut three = [0; 3].map(|_: i64| random.between(low, high));
    three.sort_unstable();
    let [minimum, mean, maximum] = three.map(|f| f as i16);
    let dewpoint = match random.below(3) {
        0 => random.between(-94, maximum.into()),
        _ => random.between(low, maximum.into()),
    };
    let wind = match random.below(4) {
        0 => random.between(0, 9_999),
        1 => i64::from(station.wind_limit) + random.between(-2, 3),
        _ => random.between(0, 1_600),
    };
    let earlier = [0; 3].map(|_: i16| match random.below(8) {
        0 | 1 => None,
        2 => Some(random.between(-94, 1_291) as i16),
        _ => Some(random.between(low, high) as i16),
    });
    let day = Day {
        year,
        d,
        maximum,
        minimum,
        mean,
        dewpoint: dewpoint as i16,
        radiation: radiation(random, clear_day(&station, d)),
        wind: wind as i16,
    };
    Case {
        station,
        day,
        earlier,
    }
}
