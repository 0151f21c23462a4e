//! Logs without a fault, of any number of records, of one length, and those with the longest answers and the longest report.
use super::cases::{case_of, without_dew_point};
use super::chance::{about_month_end, crop, date, ordinary, station};
use super::fields::{HIGHEST_TEMPERATURE, LOWEST_TEMPERATURE};
use super::records::{crop_record, day_record, limited_record, station_record};
use super::{Case, Random};
use crate::second::judge;
use crate::{Crop, Day, Station, Verdict, MISSING, ROUTINE_LIMIT};

/// Mostly the next day; gaps of a few days, of months and of years, the same day and the day before; day 366 in any year.
fn next_date(random: &mut Random, (year, d): (u16, u16)) -> (u16, u16) {
    if random.one_in(60) {
        let next = about_month_end(random);
        return (
            year + random.pick(&[0, 0, 0, 1]) + u16::from(next <= d),
            next,
        );
    }
    let step = match random.below(30) {
        0 => -1,
        1 => 0,
        2..=7 => random.between(2, 5) as i32,
        _ => 1,
    };
    let next = i32::from(d) + step;
    if next > 366 || (next == 366 && random.one_in(2)) {
        (year + 1, 1)
    } else {
        (year, next.max(0) as u16)
    }
}

/// How many records of each kind a log has; of its stations, `limited` are of kind 8.
struct Records {
    stations: usize,
    limited: usize,
    crops: usize,
    days: usize,
}

impl Records {
    /// Takes one of the stations, of either kind, and opens its block, whose days follow the date.
    fn open(&mut self, random: &mut Random, log: &mut Vec<u8>) -> (Station, (u16, u16)) {
        let mut block = station(random);
        if random.below(self.stations) < self.limited {
            self.limited -= 1;
            log.extend(limited_record(&block));
        } else {
            block.wind_limit = ROUTINE_LIMIT;
            log.extend(station_record(&block));
        }
        self.stations -= 1;
        (block, date(random))
    }
}

/// A log with so many records of each kind, all of them in order; its days are those of `case`.
fn log(random: &mut Random, mut left: Records) -> Vec<u8> {
    let mut log = Vec::with_capacity(21 * left.stations + 22 * left.crops + 17 * left.days);
    let (mut block, mut today) = left.open(random, &mut log);
    while left.stations + left.crops + left.days > 0 {
        let next = random.below(left.stations + left.crops + left.days);
        if next < left.stations {
            (block, today) = left.open(random, &mut log);
        } else if next < left.stations + left.crops {
            log.extend(crop_record(&crop(random, today)));
            left.crops -= 1;
        } else {
            today = next_date(random, today);
            log.extend(day_record(&case_of(random, block, today).day));
            left.days -= 1;
        }
    }
    log
}

/// A log without a fault of up to so many days.
pub fn sound_log(random: &mut Random, most: usize) -> Vec<u8> {
    let days = random.below(most);
    let stations = 1 + random.below(days / 8 + 1);
    let records = Records {
        stations,
        limited: random.below(stations + 1),
        crops: random.below(days / 6 + 2),
        days,
    };
    log(random, records)
}

/// A log without a fault that is just so many bytes long, where up to fifty crops, up to fifty stations of kind 8 and
/// records of 19 and 17 bytes can make that up.
pub fn log_of_length(random: &mut Random, length: usize) -> Option<Vec<u8>> {
    let (crops, limited) = (random.below(51), random.below(51));
    let rest = length.checked_sub(22 * crops + 21 * limited)?;
    let fits = |others: &usize| (rest - 19 * others).is_multiple_of(17);
    let others = (1..=rest / 19).find(fits)?;
    let records = Records {
        stations: limited + others,
        limited,
        crops,
        days: (rest - 19 * others) / 17,
    };
    Some(log(random, records))
}

/// A station with the routine's limit, whose record is of kind 1.
pub(super) fn routine_station(random: &mut Random) -> Station {
    Station {
        wind_limit: ROUTINE_LIMIT,
        ..station(random)
    }
}

/// A day of a station that has a figure, whatever the earlier means.
pub(super) fn answered(random: &mut Random, station: Station, date: (u16, u16)) -> Day {
    loop {
        let Case { day, .. } = ordinary(random, station, date);
        if let Verdict::Figure(_) = judge(&station, &day, &[None; 3]) {
            return day;
        }
    }
}

/// A crop of every day of a year but the 366th.
pub(super) fn crop_of_year(random: &mut Random, year: u16) -> Crop {
    Crop {
        year,
        start: 1,
        full: 365,
        ..crop(random, (year, 1))
    }
}

/// One station of kind 1, and a crop for each year's days from 1 to 365: with eleven crops, 3,839 days fit, each with a
/// figure, the mark of a day without a dew point, and a crop figure. No log has longer answers.
pub fn answered_log(random: &mut Random) -> Vec<u8> {
    let station = routine_station(random);
    let mut log = station_record(&station);
    let dates = (1_950..=2_099).flat_map(|year| (1..=365).map(move |d| (year, d)));
    for (year, d) in dates.take(3_839) {
        if d == 1 {
            log.extend(crop_record(&crop_of_year(random, year)));
        }
        let day = without_dew_point(answered(random, station, (year, d)));
        log.extend(day_record(&day));
    }
    log
}

/// Two stations of kind 1, a crop for each of their years, and a day without a dew point in each month: with 290 crops,
/// 3,477 days fit, each with a month line beside its own line, its mark and its crop figure. One station has too few months
/// in the calendar; a third one, or a second day in a month, gives less than the day of another month that it takes the room
/// of. The days are hot, dry and windy, so that either season has over a thousand inches. No log has a longer report, as long
/// as no crop figure has ten inches.
pub fn monthly_log(random: &mut Random) -> Vec<u8> {
    let mut log = Vec::new();
    let mut days = 0;
    for _ in 0..2 {
        log.extend(station_record(&routine_station(random)));
        for year in 1_950..2_095 {
            log.extend(crop_record(&crop_of_year(random, year)));
            // About the middle of each month.
            for d in (15..=345).step_by(30).take(3_477 - days) {
                log.extend(day_record(&Day {
                    year,
                    d,
                    maximum: random.between(1_200, HIGHEST_TEMPERATURE.into()) as i16,
                    minimum: random.between(LOWEST_TEMPERATURE.into(), 0) as i16,
                    mean: random.between(0, 100) as i16,
                    dewpoint: MISSING,
                    radiation: random.between(0, 500) as i16,
                    wind: random.between(ROUTINE_LIMIT.into(), 9_999) as i16,
                }));
                days += 1;
            }
        }
    }
    log
}
