//! What is timed: days that are answered, each alone and in logs, with what they are checked against.
use crate::routine::Readings;
use crate::LOG_SIZES;
use compare::days::{self, Case, Random};
use compare::office::{self, Handed};
use compare::second::{self, calendar, log, sheet};
use compare::{plain, Crop, Day, Earlier, Outcome, Station, Verdict, ROUTINE_LIMIT};

/// A station whose clear-day curve lies near the published one of LIDW, at any elevation, with the routine's wind limit.
pub fn station(random: &mut Random) -> Station {
    Station {
        code: [0; 4].map(|_| random.between(b'A'.into(), b'Z'.into()) as u8),
        c: [
            random.between(130, 180) as i16,
            random.between(1_700, 1_900) as i16,
            614,
            -396,
            590,
        ],
        minimum: random.between(50, 200) as u16,
        elevation: random.between(0, 3_000) as u16,
        wind_limit: ROUTINE_LIMIT,
    }
}

/// Weather that is answered: temperatures of the season, any dew point up to the maximum, radiation up to the clear day's.
fn weather(random: &mut Random, station: &Station, year: u16, d: u16) -> Day {
    let turn = (f64::from(d) - 15.0) / 365.0 * std::f64::consts::TAU;
    let mean = 500 - (270.0 * turn.cos()) as i64 + random.between(-180, 180);
    let maximum = mean + random.between(0, 250);
    // None near 70 per cent, where single precision may take the other pair of cloud constants.
    let share = match random.between(5, 95) {
        low @ ..=68 => low,
        high => high + 4,
    };
    let clear_tenths = (sheet::clear_day(station, d) / 100_000_000) as i64;
    Day {
        year,
        d,
        maximum: maximum as i16,
        minimum: (mean - random.between(0, 250)).max(-94) as i16,
        mean: mean as i16,
        dewpoint: random.between(-94, maximum) as i16,
        radiation: (clear_tenths * share / 100) as i16,
        wind: random.between(0, 3_000) as i16,
    }
}

/// One day of the measured array; in one of 16 some of the earlier means are missing.
pub fn alone(random: &mut Random, station: Station) -> Case {
    let (year, d) = (random.between(1_950, 2_099), random.between(1, 365));
    let day = weather(random, &station, year as u16, d as u16);
    let gaps = random.one_in(16);
    let earlier = [0; 3].map(|_| {
        let mean = i64::from(day.mean) + random.between(-100, 100);
        (!gaps || random.one_in(2)).then_some(mean.clamp(-94, 1_291) as i16)
    });
    Case {
        station,
        day,
        earlier,
    }
}

/// The measured days, and the same days as the library and as the routine take them: nothing is converted while the time runs, and each
/// contender passes over an array of its own.
pub struct Timed {
    pub cases: Vec<Case>,
    pub handed: Vec<Handed>,
    pub double: Vec<Readings<f64>>,
    #[cfg(has_fortran)]
    pub single: Vec<Readings<f32>>,
}

impl Timed {
    pub fn new(cases: Vec<Case>) -> Self {
        Timed {
            handed: cases.iter().map(handed).collect(),
            double: cases
                .iter()
                .map(|case| Readings::new(case, |value| value))
                .collect(),
            #[cfg(has_fortran)]
            single: cases
                .iter()
                .map(|case| Readings::new(case, |value| value as f32))
                .collect(),
            cases,
        }
    }
}

/// A log of one station and consecutive days, and the same days as the plain version and the routine take them.
pub struct Log {
    pub bytes: Vec<u8>,
    pub cases: Vec<Case>,
    pub double: Vec<Readings<f64>>,
    pub expected: Vec<u8>,
    pub report: String,
}

impl Log {
    /// As many whole records as fit.
    pub fn of_size(size: usize, station: Station, random: &mut Random) -> Self {
        let mut bytes = days::station_record(&station);
        let mut cases = Vec::new();
        let mut earlier: Earlier = [None; 3];
        for (year, d) in (1_950..=2_099).flat_map(|year| (1..=366).map(move |d| (year, d))) {
            if calendar::number(year, d).is_none() {
                continue;
            }
            let day = weather(random, &station, year, d);
            let record = days::day_record(&day);
            if bytes.len() + record.len() > size {
                break;
            }
            bytes.extend(record);
            cases.push(Case {
                station,
                day,
                earlier,
            });
            earlier = [Some(day.mean), earlier[0], earlier[1]];
        }
        let expected = log::answer_bytes(&bytes).expect("a log without a fault");
        Log {
            report: second::report(&bytes),
            bytes,
            double: cases
                .iter()
                .map(|case| Readings::new(case, |value| value))
                .collect(),
            cases,
            expected,
        }
    }

    pub fn check(&self) -> Result<(), String> {
        let mut answers = vec![0; self.expected.len()];
        let outcome = office::read_log(&self.bytes, &mut answers);
        if outcome != Outcome::Written(answers.len()) || answers != self.expected {
            return Err(format!("log of {} bytes: {outcome:?}", self.bytes.len()));
        }
        if answers_of_kind(3, &self.expected) != self.cases.len() {
            return Err("a day of a timed log has no figure".into());
        }
        check_report(&self.bytes)
    }
}

/// How many of the answers to one station, after its own of five bytes, are of a kind; each has nine.
fn answers_of_kind(kind: u8, answers: &[u8]) -> usize {
    let kinds = answers[5..].iter().step_by(9);
    kinds.filter(|of_answer| **of_answer == kind).count()
}

/// The answers and the report of a log are those of the second implementation.
pub fn check_report(bytes: &[u8]) -> Result<(), String> {
    let expected = log::answer_bytes(bytes).expect("a log without a fault");
    let report = second::report(bytes);
    let (mut answers, mut text) = (vec![0; expected.len()], vec![0; report.len()]);
    let outcome = office::report(bytes, &mut answers, &mut text);
    if outcome == Outcome::Written(text.len()) && answers == expected && text == report.as_bytes() {
        return Ok(());
    }
    Err(format!(
        "report of a log of {} bytes: {outcome:?}",
        bytes.len()
    ))
}

/// A full log of days in a year that the calendar lacks: each is read fast, and has a line all the same.
pub fn bad_dates(station: &Station, random: &mut Random) -> Vec<u8> {
    let mut bytes = days::station_record(station);
    let record = days::day_record(&weather(random, station, 1_949, 1));
    while bytes.len() + record.len() <= LOG_SIZES[LOG_SIZES.len() - 1] {
        bytes.extend(record);
    }
    bytes
}

/// A full log with a crop for each year, so that every day has a crop figure, and the same log without the crops.
pub struct CropLogs {
    pub with: Vec<u8>,
    pub without: Vec<u8>,
    pub days: usize,
}

impl CropLogs {
    pub fn new(station: &Station, random: &mut Random) -> Self {
        let with = days::station_record(station);
        let mut logs = CropLogs {
            without: with.clone(),
            with,
            days: 0,
        };
        for (year, d) in (1_950..=2_099).flat_map(|year| (1..=365).map(move |d| (year, d))) {
            if d == 1 {
                logs.with.extend(days::crop_record(&Crop {
                    code: *b"BEAN",
                    year,
                    start: 1,
                    full: 365,
                    percentages: [20, 22, 30, 45, 65, 90, 105, 107, 95, 60, 30],
                }));
            }
            let record = days::day_record(&weather(random, station, year, d));
            if logs.with.len() + record.len() > LOG_SIZES[LOG_SIZES.len() - 1] {
                break;
            }
            logs.with.extend(record);
            logs.without.extend(record);
            logs.days += 1;
        }
        logs
    }

    pub fn check(&self) -> Result<(), String> {
        let answers = log::answer_bytes(&self.with).expect("a log without a fault");
        if answers_of_kind(7, &answers) != self.days {
            return Err("a day of a timed log has no crop figure".into());
        }
        check_report(&self.with).and_then(|()| check_report(&self.without))
    }
}

fn handed(
    Case {
        station,
        day,
        earlier,
    }: &Case,
) -> Handed {
    Handed::new(station, day, earlier)
}

pub fn by_plain(
    Case {
        station,
        day,
        earlier,
    }: &Case,
) -> Verdict {
    plain::judge(station, day, earlier)
}
