//! Logs at the edges of the rules for months, crops, days without a dew point, and stations.
use super::cases::{dew_point_edges, lose_dew_point, without_dew_point};
use super::chance::{crop, ordinary, station};
use super::fields::{CROP_FIELDS, FIELDS, LOWEST_LIMIT, STATION_FIELDS};
use super::logs::{answered, crop_of_year, routine_station};
use super::records::{crop_record, day_record, limited_record, station_record};
use super::{Case, Random};
use crate::second::calendar::month_lengths;
use crate::{Crop, Day, Station, MISSING, ROUTINE_LIMIT};
use std::collections::BTreeSet;

/// Leap years and common ones, the calendar's first and its last among them, and 2000, the only leap century year that it has.
const MONTH_YEARS: [u16; 8] = [1_950, 1_951, 1_952, 1_999, 2_000, 2_008, 2_096, 2_099];

fn first_and_last_days(year: u16) -> Vec<(u16, u16)> {
    let mut before = 0;
    let mut dates = Vec::new();
    for length in month_lengths(year) {
        dates.extend([(year, before + 1), (year, before + length)]);
        before += length;
    }
    dates
}

/// A day that is answered if there is such a date; every third lacks its dew point.
fn answered_if_dated(random: &mut Random, station: Station, (year, d): (u16, u16)) -> Day {
    let day = Day {
        year,
        d,
        ..answered(random, station, (2_008, d.clamp(1, 366)))
    };
    if d.is_multiple_of(3) {
        without_dew_point(day)
    } else {
        day
    }
}

/// The edges of W5's months, in logs for each of some years: every day of the year and the numbers beside them, with a crop;
/// the first and the last day of each month; those of the next year behind them; those at one station, then refused, then
/// answered again; and those of each month in a block of their own, twice.
pub fn month_edges(random: &mut Random) -> Vec<Vec<u8>> {
    let mut logs = Vec::new();
    for year in MONTH_YEARS {
        let station = station(random);
        let mut on = |dates: Vec<(u16, u16)>| -> Vec<Day> {
            let day = |date| answered_if_dated(random, station, date);
            dates.into_iter().map(day).collect()
        };
        let whole = on((0..=367).map(|d| (year, d)).collect());
        let ends = on(first_and_last_days(year));
        let of_next = on(first_and_last_days(year + 1));
        let refused = ends.iter().map(|day| Day {
            wind: MISSING,
            ..*day
        });
        let refused: Vec<Day> = refused.collect();
        let opening = station_record(&station);
        let block = |days: &[Day]| -> Vec<u8> {
            let records = days.iter().flat_map(day_record);
            opening.iter().copied().chain(records).collect()
        };
        let crop = crop_record(&crop_of_year(random, year));
        let of_whole = &block(&whole)[opening.len()..];
        logs.push([&opening[..], &crop, of_whole].concat());
        logs.push(block(&ends));
        logs.push(block(&[&ends[..], &of_next].concat()));
        logs.push([&ends, &refused, &ends].map(|days| block(days)).concat());
        let twice = |month: &[Day]| block(month).repeat(2);
        logs.push(ends.chunks(2).flat_map(twice).collect());
    }
    logs
}

/// A log of one crop and days of its year: those of its stages, and those beside its start and its end.
fn log_about(random: &mut Random, station: Station, crop: &Crop) -> Vec<u8> {
    let stage = crop.full.saturating_sub(crop.start) / 10;
    let stages = (0..10).map(|i| crop.start.saturating_add(i * stage));
    let ends = [crop.start, crop.full].into_iter();
    let about_ends = ends.flat_map(|d| [d.saturating_sub(1), d, d.saturating_add(1)]);
    let dates: BTreeSet<u16> = stages.chain(about_ends).collect();
    let mut log = station_record(&station);
    log.extend(crop_record(crop));
    for d in dates {
        let Case { mut day, .. } = ordinary(random, station, (crop.year, d));
        if random.one_in(6) {
            lose_dew_point(random, &mut day);
        }
        log.extend(day_record(&day));
    }
    log
}

/// S and F at their ends, beside them, and far out.
const SPAN_ENDS: [u16; 13] = [
    0, 1, 2, 3, 182, 183, 363, 364, 365, 366, 367, 32_768, 65_535,
];

/// Logs of one crop each. First every value of every field's range, one beyond, and the special ones, the other fields
/// kept; then S and F at every two ends, whole, cut off in the crop, and without a station.
pub fn crop_edges(random: &mut Random) -> Vec<Vec<u8>> {
    let station = station(random);
    let (year, start) = (random.pick(&[2_007, 2_008]), random.between(2, 163) as u16);
    let kept = Crop {
        // A tenth of it is a whole number of days, so that every stage has its day.
        full: start + 10 * random.between(2, 20) as u16,
        start,
        ..crop(random, (year, start))
    };
    let opening = station_record(&station).len();
    let mut logs = Vec::new();
    for field in &CROP_FIELDS {
        for value in field.values().chain(field.special.iter().copied()) {
            let mut crop = kept;
            (field.set)(&mut crop, value);
            logs.push(log_about(random, station, &crop));
        }
    }
    for (start, full) in SPAN_ENDS.iter().flat_map(|&s| SPAN_ENDS.map(|f| (s, f))) {
        let year = random.pick(&[1_950, 2_000, 2_007, 2_008, 2_099]);
        let crop = Crop {
            year,
            start,
            full,
            ..kept
        };
        let whole = log_about(random, station, &crop);
        logs.push(whole[..opening + 21].to_vec());
        logs.push(whole[opening..].to_vec());
        logs.push(whole);
    }
    logs
}

/// The record of a crop whose season has the days about the 180th of 2008.
fn in_season(random: &mut Random) -> Vec<u8> {
    let crop = Crop {
        year: 2_008,
        start: 100,
        full: 300,
        ..crop(random, (2_008, 180))
    };
    crop_record(&crop).to_vec()
}

/// Logs of one station, with a crop and without: each day of `dew_point_edges`, with a day before it and one after it that
/// takes up its mean.
pub fn dew_point_logs(random: &mut Random) -> Vec<Vec<u8>> {
    let mut logs = Vec::new();
    for Case { station, day, .. } in dew_point_edges(random) {
        let [before, after] = [180, 182].map(|d| answered(random, station, (2_008, d)));
        let days = [before, day, after].map(|day| day_record(&day)).concat();
        let opening = station_record(&station);
        logs.push([&opening[..], &days].concat());
        logs.push([opening, in_season(random), days].concat());
    }
    logs
}

/// Logs of one station and days with wind runs below its limit, at it and above: each field of the station at its edges,
/// and every limit of the range and one beyond each end. Each is of kind 8, and of kind 1 where the limit is the routine's;
/// it stands alone, and behind a block with a crop and the lowest limit. And a record of kind 8 that is cut off before its
/// limit and inside.
pub fn station_edges(random: &mut Random) -> Vec<Vec<u8>> {
    let station = routine_station(random);
    let days = [180, 181, 182, 183].map(|d| answered(random, station, (2_008, d)));
    let block = |station: &Station, record: &[u8]| {
        let mut block = record.to_vec();
        for (day, above) in days.iter().zip([-1, 0, 1, 250]) {
            let wind = (i64::from(station.wind_limit) + above) as i16;
            block.extend(day_record(&Day { wind, ..*day }));
        }
        block
    };
    let limits = LOWEST_LIMIT - 1..=ROUTINE_LIMIT + 1;
    let mut stations: Vec<Station> = limits
        .map(|wind_limit| Station {
            wind_limit,
            ..station
        })
        .collect();
    for field in &FIELDS[..STATION_FIELDS] {
        stations.extend(field.edges().iter().map(|&value| {
            let mut case = Case {
                station,
                day: days[0],
                earlier: [None; 3],
            };
            (field.set)(&mut case, value);
            case.station
        }));
    }
    let lowest = Station {
        wind_limit: LOWEST_LIMIT,
        ..station
    };
    let opening = [station_record(&lowest), in_season(random)].concat();
    let before = block(&lowest, &opening);
    let mut logs = [19, 20].map(|end| opening[..end].to_vec()).to_vec();
    for station in &stations {
        let records = [station_record(station), limited_record(station).to_vec()];
        for record in BTreeSet::from(records) {
            let whole = block(station, &record);
            logs.push([&before[..], &whole].concat());
            logs.push(whole);
        }
    }
    logs
}
