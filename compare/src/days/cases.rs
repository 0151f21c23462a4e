//! Days handed in alone: by chance, at the borders of the rules, and with every value of every field.
use super::chance::{date, ordinary, station, PUBLISHED};
use super::fields::{FIELDS, HIGHEST_TEMPERATURE, LOWEST_TEMPERATURE, OTHER_READINGS};
use super::{Case, Random};
use crate::{Day, Station, MISSING, ROUTINE_LIMIT};

/// One to three fields at an end of their range, one beyond it, or at a value with a meaning of its own.
fn to_corners(random: &mut Random, case: &mut Case) {
    for _ in 0..random.between(1, 3) {
        let field = &FIELDS[random.below(FIELDS.len())];
        (field.set)(case, random.pick(&field.edges()));
    }
}

/// The four temperatures within one tenth of each other, so that each order is met and just missed.
fn to_order_border(random: &mut Random, case: &mut Case) {
    let f = random.between(-93, 1_290);
    let mut near = || (f + random.between(-1, 1)) as i16;
    case.day.maximum = near();
    case.day.minimum = near();
    case.day.mean = near();
    case.day.dewpoint = near();
}

pub fn without_dew_point(day: Day) -> Day {
    Day {
        dewpoint: MISSING,
        ..day
    }
}

/// The dew point missing, mostly alone.
pub(super) fn lose_dew_point(random: &mut Random, day: &mut Day) {
    *day = without_dew_point(*day);
    if random.one_in(8) {
        *random.pick(&OTHER_READINGS)(day) = MISSING;
    }
}

/// Clear-day radiation of a whole number of calories C and radiation of just 0.7, 1 or 2 times C, or beside it.
fn to_exact_ratio(random: &mut Random, case: &mut Case) {
    let (tenths, most) = random.pick(&[(7, 1_700), (10, 1_199), (20, 599)]);
    let c = random.between(200, most);
    let mut clear = c;
    match random.below(4) {
        0 => {
            case.station.c = [-1, 0, 0, 0, 0];
            clear = case.station.minimum.into();
        }
        1 => {
            case.day.d = 1;
            case.station.c = [c as i16, 0, 0, 0, random.between(-1, 1) as i16];
        }
        2 => case.station.c = [c as i16, 0, 0, 0, 0],
        _ => {
            // With d = 10a all terms are multiples of 10⁷; c2 makes their sum 10⁹ times a whole number.
            let a = random.between(1, 30);
            let c3 = random.between(-30, 30);
            let c4 = random.between(-3, 3);
            let c5 = random.between(-1, 1);
            let turn = random.between(-5, 5);
            let c2 = 100 * turn - (c3 * a + c4 * a.pow(2) + c5 * a.pow(3));
            case.day.d = 10 * a as u16;
            case.station.c = [c - turn * a, c2, c3, 10 * c4, 1_000 * c5].map(|c| c as i16);
        }
    }
    case.day.radiation = (tenths * clear + random.pick(&[-1, 0, 0, 1])) as i16;
}

/// Every bit of a case by chance.
fn anything(random: &mut Random) -> Case {
    let mut number = || random.bits() as i16;
    Case {
        station: Station {
            code: [number(), number(), number(), number()].map(|letter| letter as u8),
            c: [number(), number(), number(), number(), number()],
            minimum: number() as u16,
            elevation: number() as u16,
            wind_limit: number() as u16,
        },
        day: Day {
            year: number() as u16,
            d: number() as u16,
            maximum: number(),
            minimum: number(),
            mean: number(),
            dewpoint: number(),
            radiation: number(),
            wind: number(),
        },
        earlier: [number(), number(), number()].map(|mean| (mean % 2 == 0).then_some(mean)),
    }
}

pub(super) fn case_of(random: &mut Random, station: Station, date: (u16, u16)) -> Case {
    let mut case = ordinary(random, station, date);
    match random.below(20) {
        0 => to_order_border(random, &mut case),
        1..=3 => to_corners(random, &mut case),
        _ => {}
    }
    if random.one_in(6) {
        lose_dew_point(random, &mut case.day);
    }
    case
}

/// A day handed in alone, answered more often than not.
pub fn case(random: &mut Random) -> Case {
    if random.one_in(50) {
        return anything(random);
    }
    let station = station(random);
    let date = date(random);
    let mut case = case_of(random, station, date);
    if random.one_in(10) {
        to_exact_ratio(random, &mut case);
    }
    case
}

/// Two days whose 23,622A/(100M) is a half, which chance hardly meets: the latent heat of the mean 993 shares the
/// factors 31 and 127 with 23,622.
pub fn halves() -> [Case; 2] {
    let half = |d, [maximum, minimum, dewpoint, radiation, wind, earlier]: [i16; 6]| Case {
        station: Station {
            code: *b"LIDW",
            c: PUBLISHED[0],
            minimum: 100,
            elevation: 497,
            wind_limit: ROUTINE_LIMIT,
        },
        day: Day {
            year: 2007,
            d,
            maximum,
            minimum,
            mean: 993,
            dewpoint,
            radiation,
            wind,
        },
        earlier: [Some(earlier), None, None],
    };
    [
        half(218, [1_080, 703, 599, 5_882, 248, 900]),
        half(168, [1_062, 789, 361, 5_041, 1_360, 867]),
    ]
}

/// Days whose figures lie far from the equation. The first has the largest difference that chance has met. The others were found by
/// climbing from day to day: the first of them lies farthest from the equation at an end of the enclosures, and the other from the
/// equation itself. Their clear-day sum is below the minimum, which takes its place.
pub fn far_from_equation() -> [Case; 3] {
    let far = |code: &[u8; 4], of_station: [i16; 3], (year, d), readings: [i16; 6], earlier| {
        let [c1, clear_minimum, elevation] = of_station;
        let [maximum, minimum, mean, dewpoint, radiation, wind] = readings;
        Case {
            station: Station {
                code: *code,
                c: [c1, 0, 0, 0, 0],
                minimum: clear_minimum as u16,
                elevation: elevation as u16,
                wind_limit: ROUTINE_LIMIT,
            },
            day: Day {
                year,
                d,
                maximum,
                minimum,
                mean,
                dewpoint,
                radiation,
                wind,
            },
            earlier,
        }
    };
    [
        far(
            b"RIQT",
            [102, 108, 1_565],
            (2_093, 193),
            [1_263, 543, 583, 138, 1_515, 6_508],
            [Some(148), Some(405), None],
        ),
        far(
            b"HIGH",
            [-1, 50, 2_986],
            (2_008, 185),
            [1_291, 359, 360, -89, 997, 1_488],
            [Some(-88), Some(-92), Some(-92)],
        ),
        far(
            b"HIGH",
            [-1, 50, 2_977],
            (2_008, 186),
            [1_291, 350, 350, -94, 1_000, 1_499],
            [Some(-91), None, None],
        ),
    ]
}

/// Every value of every field's range and one beyond, the other fields kept; each day with its dew point and without.
pub fn sweep(random: &mut Random) -> impl Iterator<Item = Case> {
    let station = station(random);
    let date = date(random);
    let kept = ordinary(random, station, date);
    FIELDS.iter().flat_map(move |field| {
        field.values().flat_map(move |value| {
            let mut case = kept;
            (field.set)(&mut case, value);
            let day = without_dew_point(case.day);
            [case, Case { day, ..case }]
        })
    })
}

/// The edges of W4's rule. First a day with every set of its readings missing; then, without a dew point: the minimum and
/// all temperatures at the ends of their range and beside them, the three temperatures within one tenth of each other, and
/// radiation of twice clear-day and beside it.
pub fn dew_point_edges(random: &mut Random) -> Vec<Case> {
    let clear = random.between(200, 599) as i16;
    let station = Station {
        c: [clear, 0, 0, 0, 0],
        ..station(random)
    };
    let Case { day, earlier, .. } = ordinary(random, station, (2_008, 181));
    let mut days = Vec::new();
    for set in 0..1 << OTHER_READINGS.len() {
        let mut day = day;
        for (place, reading) in OTHER_READINGS.iter().enumerate() {
            if set >> place & 1 == 1 {
                *reading(&mut day) = MISSING;
            }
        }
        days.extend([day, without_dew_point(day)]);
    }
    let kept = without_dew_point(day);
    let with = |[minimum, mean, maximum]: [i16; 3]| Day {
        maximum,
        minimum,
        mean,
        ..kept
    };
    for end in [LOWEST_TEMPERATURE, HIGHEST_TEMPERATURE] {
        for f in end - 1..=end + 1 {
            days.extend([[f, day.mean, day.maximum], [f, end, end], [f; 3]].map(with));
        }
    }
    for below in -1..=1 {
        for above in -1..=1 {
            days.push(with([day.mean + below, day.mean, day.mean + above]));
        }
    }
    for above in -1..=1 {
        let radiation = 20 * clear + above;
        days.push(Day { radiation, ..kept });
    }
    let case = |day| Case {
        station,
        day,
        earlier,
    };
    days.into_iter().map(case).collect()
}
