//! The second implementation: scope document 01 and the change requests that have landed once more, in wide whole numbers
//! and in the documents' own order. It shares nothing with the proved library, so that an error in one of them shows as a
//! difference.

pub mod calendar;
pub mod crop;
pub mod log;
pub mod sheet;
pub mod station;
pub mod tables;
pub mod text;
pub mod totals;

pub use log::{answer_bytes, put, read_log, write};
pub use text::{refused_line, report};

use crate::{Day, Earlier, Station, Verdict, MISSING};
use std::ops::RangeInclusive;

const TEMPERATURE: RangeInclusive<i16> = -94..=1_291;
const RADIATION: RangeInclusive<i16> = 0..=12_000;
const WIND: RangeInclusive<i16> = 0..=9_999;

/// A reason to refuse a record, in words, and whether it holds of one.
pub type Reason<Of> = (&'static str, fn(&Of) -> bool);

/// A day handed in alone.
pub fn judge(station: &Station, day: &Day, earlier: &Earlier) -> Verdict {
    if !station::in_range(station) {
        Verdict::Refused(3)
    } else if calendar::number(day.year, day.d).is_none() {
        Verdict::Refused(6)
    } else {
        judge_dated(station, day, earlier)
    }
}

/// The reasons for refusal 7 since W4: a missing dew point is none.
pub const MISSING_READINGS: [Reason<Day>; 5] = [
    ("the maximum", |day| day.maximum == MISSING),
    ("the minimum", |day| day.minimum == MISSING),
    ("the mean", |day| day.mean == MISSING),
    ("the radiation", |day| day.radiation == MISSING),
    ("the wind run", |day| day.wind == MISSING),
];

fn other_reading_missing(day: &Day) -> bool {
    MISSING_READINGS.iter().any(|(_, holds)| holds(day))
}

/// The days of W4, in which the minimum takes the dew point's place.
pub fn dew_point_alone_missing(day: &Day) -> bool {
    day.dewpoint == MISSING && !other_reading_missing(day)
}

/// Refusals 7 to 10 or the figure, for a day whose date is good.
fn judge_dated(station: &Station, day: &Day, earlier: &Earlier) -> Verdict {
    if other_reading_missing(day) {
        return Verdict::Refused(7);
    }
    if !dew_point_alone_missing(day) {
        return judge_read(station, day, earlier);
    }
    let with_substitute = Day {
        dewpoint: day.minimum,
        ..*day
    };
    match judge_read(station, &with_substitute, earlier) {
        Verdict::Figure(figure) => Verdict::Estimated(figure),
        refused => refused,
    }
}

/// Refusals 8 to 10 or the figure, for a day that has all its readings.
fn judge_read(station: &Station, day: &Day, earlier: &Earlier) -> Verdict {
    let temperatures = [day.maximum, day.minimum, day.mean, day.dewpoint];
    let in_range = temperatures
        .iter()
        .chain(earlier.iter().flatten())
        .all(|f| TEMPERATURE.contains(f))
        && RADIATION.contains(&day.radiation)
        && WIND.contains(&day.wind);
    let in_order =
        day.minimum <= day.mean && day.mean <= day.maximum && day.dewpoint <= day.maximum;
    if !in_range {
        Verdict::Refused(8)
    } else if !in_order {
        Verdict::Refused(9)
    } else if 100_000_000 * i128::from(day.radiation) > 2 * sheet::clear_day(station, day.d) {
        Verdict::Refused(10)
    } else {
        Verdict::Figure(sheet::figure(station, day, earlier))
    }
}

#[cfg(test)]
mod tests {
    use super::*;
    use crate::ROUTINE_LIMIT;

    const LEVEL: Station = Station {
        code: *b"LEVL",
        c: [500, 0, 0, 0, 0],
        minimum: 50,
        elevation: 0,
        wind_limit: ROUTINE_LIMIT,
    };
    const WARM: Day = Day {
        year: 2007,
        d: 180,
        maximum: 900,
        minimum: 500,
        mean: 700,
        dewpoint: 480,
        radiation: 5_000,
        wind: 800,
    };
    const ALONE: Earlier = [None; 3];

    fn limited(wind_limit: u16) -> Station {
        Station {
            wind_limit,
            ..LEVEL
        }
    }

    fn refusal(station: Station, day: Day, earlier: Earlier) -> u32 {
        match judge(&station, &day, &earlier) {
            Verdict::Refused(number) => number,
            Verdict::Figure(_) | Verdict::Estimated(_) => 0,
        }
    }

    /// The other temperatures are these.
    fn without_dew_point(minimum: i16, mean: i16, maximum: i16) -> Day {
        Day {
            maximum,
            minimum,
            mean,
            dewpoint: MISSING,
            ..WARM
        }
    }

    #[test]
    fn twice_clear_day_passes_and_one_more_is_refused() {
        let bright = |radiation| refusal(LEVEL, Day { radiation, ..WARM }, ALONE);
        assert_eq!((bright(10_000), bright(10_001)), (0, 10));
    }

    #[test]
    fn the_first_reason_in_order_is_given() {
        let mut station = LEVEL;
        let mut day = Day {
            d: 366,
            wind: MISSING,
            maximum: 1_292,
            radiation: 10_001,
            ..WARM
        };
        station.code[3] = b'[';
        assert_eq!(refusal(station, day, ALONE), 3);
        assert_eq!(refusal(LEVEL, day, ALONE), 6);
        day.year = 2008;
        assert_eq!(refusal(LEVEL, day, ALONE), 7);
        day.wind = 0;
        assert_eq!(refusal(LEVEL, day, ALONE), 8);
        day.maximum = 600;
        assert_eq!(refusal(LEVEL, day, ALONE), 9);
        day.maximum = 1_291;
        assert_eq!(refusal(LEVEL, day, ALONE), 10);
    }

    #[test]
    fn an_earlier_mean_out_of_range_is_refused_with_8() {
        assert_eq!(refusal(LEVEL, WARM, [None, Some(1_292), None]), 8);
        assert_eq!(refusal(LEVEL, WARM, [Some(MISSING), None, None]), 8);
        let unordered = Day { mean: 901, ..WARM };
        assert_eq!(refusal(LEVEL, unordered, [None, None, Some(-95)]), 8);
    }

    #[test]
    fn the_minimum_takes_the_place_of_a_missing_dew_point() {
        let with = |dewpoint| judge(&LEVEL, &Day { dewpoint, ..WARM }, &[Some(640), None, None]);
        let figure = with(500).figure().expect("no refusal holds");
        assert_eq!(with(500), Verdict::Figure(figure));
        assert_eq!(with(MISSING), Verdict::Estimated(figure));
        assert_ne!(with(480).figure(), Some(figure));
        // One beside the mark is a dew point out of range.
        assert_eq!(with(MISSING + 1), Verdict::Refused(8));
    }

    #[test]
    fn any_other_missing_reading_is_refused_with_7() {
        let others: [fn(&mut Day); 5] = [
            |day| day.maximum = MISSING,
            |day| day.minimum = MISSING,
            |day| day.mean = MISSING,
            |day| day.radiation = MISSING,
            |day| day.wind = MISSING,
        ];
        let mut none = without_dew_point(500, 700, 900);
        for lose in others {
            for mut day in [WARM, without_dew_point(500, 700, 900)] {
                lose(&mut day);
                assert_eq!(refusal(LEVEL, day, ALONE), 7);
                assert!(!dew_point_alone_missing(&day));
            }
            lose(&mut none);
            assert_eq!(refusal(LEVEL, none, ALONE), 7);
        }
        assert!(!dew_point_alone_missing(&WARM));
        assert!(dew_point_alone_missing(&without_dew_point(500, 700, 900)));
    }

    #[test]
    fn the_minimum_in_the_dew_points_place_is_tested_as_any_other() {
        let refusals = |days: [Day; 2]| days.map(|day| refusal(LEVEL, day, ALONE));
        let coldest = [-95, -94].map(|minimum| without_dew_point(minimum, 300, 500));
        assert_eq!(refusals(coldest), [8, 0]);
        let hottest = [1_291, 1_292].map(|minimum| without_dew_point(minimum, 1_291, 1_291));
        assert_eq!(refusals(hottest), [0, 8]);
        let of_mean = [700, 701].map(|minimum| without_dew_point(minimum, 700, 900));
        assert_eq!(refusals(of_mean), [0, 9]);
        // Above the maximum, where a dew point may not be either.
        assert_eq!(
            refusals([
                without_dew_point(901, 700, 900),
                without_dew_point(700, 901, 900)
            ]),
            [9, 9]
        );
        let bright = [10_000, 10_001].map(|radiation| Day {
            radiation,
            ..without_dew_point(500, 700, 900)
        });
        assert_eq!(refusals(bright), [0, 10]);
        let earlier = [None, None, Some(1_292)];
        assert_eq!(refusal(LEVEL, without_dew_point(701, 700, 900), earlier), 8);
    }

    #[test]
    fn a_wind_run_above_the_limit_counts_as_the_limit() {
        let judged = |limit, wind| judge(&limited(limit), &Day { wind, ..WARM }, &ALONE);
        assert_eq!(judged(1_000, 1_300), judged(1_500, 1_000));
        assert_eq!(judged(1_000, 1_000), judged(1_500, 1_000));
        assert_ne!(judged(1_000, 1_300), judged(1_500, 1_300));
        assert_eq!(judged(1_500, 9_999), judged(1_500, 1_500));
    }

    #[test]
    fn a_station_field_at_its_ends() {
        let minimum = |minimum| refusal(Station { minimum, ..LEVEL }, WARM, ALONE);
        assert_eq!([49, 50, 200, 201].map(minimum), [3, 0, 0, 3]);
        let elevation = |elevation| refusal(Station { elevation, ..LEVEL }, WARM, ALONE);
        assert_eq!([0, 3_000, 3_001].map(elevation), [0, 0, 3]);
        let limit = |wind_limit| refusal(limited(wind_limit), WARM, ALONE);
        let limits = [0, 999, 1_000, 1_500, 1_501, 65_535];
        assert_eq!(limits.map(limit), [3, 3, 0, 0, 3, 3]);
    }
}
