//! The step sheet and its refusals in plain i64, as one would write them without a proof: what the proved library's speed
//! is measured against. By the ranges of the readings every intermediate value fits in i64, with a factor of two to spare
//! at the narrowest place, the square of V4.
use crate::{Day, Earlier, Station, Verdict, MISSING, ROUTINE_LIMIT};
use std::ops::RangeInclusive;

// ALBEDO, A1, AW, BW and PRESSURE, from the sources of the library's tables.
include!(concat!(env!("OUT_DIR"), "/tables.rs"));

const TEMPERATURE: RangeInclusive<i16> = -94..=1_291;
const RADIATION: RangeInclusive<i16> = 0..=12_000;
const WIND: RangeInclusive<i16> = 0..=9_999;
const CLEAR_MINIMUM: RangeInclusive<u16> = 50..=200;
const ELEVATION: RangeInclusive<u16> = 0..=3_000;
const WIND_LIMIT: RangeInclusive<u16> = 1_000..=ROUTINE_LIMIT;
const YEAR: RangeInclusive<u16> = 1_950..=2_099;

/// Parts of a whole in the sheet's fractions.
const BILLION: i64 = 1_000_000_000;

/// A day handed in alone: its figure, or the first of 3, 6, 7, 8, 9 and 10 that holds.
#[inline(never)]
pub fn judge(station: &Station, day: &Day, earlier: &Earlier) -> Verdict {
    match figure(station, day, earlier) {
        Ok(figure) if day.dewpoint == MISSING => Verdict::Estimated(figure),
        Ok(figure) => Verdict::Figure(figure),
        Err(number) => Verdict::Refused(number),
    }
}

fn figure(station: &Station, day: &Day, earlier: &Earlier) -> Result<u32, u32> {
    refuse(!station_in_range(station), 3)?;
    refuse(!good_date(day.year, day.d), 6)?;
    // A minimum that is missing too leaves its mark here, and the day is refused with 7.
    let dewpoint = if day.dewpoint == MISSING {
        day.minimum
    } else {
        day.dewpoint
    };
    let temperatures = [day.maximum, day.minimum, day.mean, dewpoint];
    let missing =
        temperatures.contains(&MISSING) || day.radiation == MISSING || day.wind == MISSING;
    refuse(missing, 7)?;
    let in_range = temperatures
        .iter()
        .all(|reading| TEMPERATURE.contains(reading))
        && RADIATION.contains(&day.radiation)
        && WIND.contains(&day.wind)
        && earlier
            .iter()
            .flatten()
            .all(|mean| TEMPERATURE.contains(mean));
    refuse(!in_range, 8)?;
    let disordered = day.minimum > day.mean || day.mean > day.maximum || dewpoint > day.maximum;
    refuse(disordered, 9)?;

    let s = i64::from(day.radiation);
    let q = clear_day(station, day.d);
    refuse(100_000_000 * s > 2 * q, 10)?;

    let m = i64::from(day.mean);
    let slope = slope(m);
    let latent_heat = 15_006_000 - 787 * (m - 320);
    let pressure = i64::from(PRESSURE[usize::from(station.elevation)]);
    let psychrometric = 603_000_000_000 * pressure / (622 * latent_heat);
    let w1 = BILLION * slope / (slope + psychrometric);
    let w2 = BILLION - w1;

    let of_day = usize::from(day.d) - 1;
    let at_maximum = vapour_pressure(i64::from(day.maximum));
    let at_minimum = vapour_pressure(i64::from(day.minimum));
    let at_dewpoint = vapour_pressure(i64::from(dewpoint));

    let root = whole_root(
        10_000_000 * at_dewpoint as u64,
        184 * powers(i64::from(dewpoint)).2 as u64 / 1_000,
    ) as i64;
    let emittance = i64::from(A1[of_day]) - 139 * root / 100;
    let longwave = emittance * black_body(day) / BILLION * cloud_factor(s, q) / BILLION;
    let net_radiation = (BILLION - i64::from(ALBEDO[of_day])) * (41_868 * s) / BILLION - longwave;
    let heat = net_radiation - soil_heat(m, earlier);

    let wind = i64::from(day.wind).min(station.wind_limit.into());
    let wind_function = i64::from(AW[of_day]) + i64::from(BW[of_day]) * 16_093 * wind / 100_000;
    let deficit = (at_maximum + at_minimum) / 2 - at_dewpoint;
    let transfer = deficit / 100 * wind_function / BILLION * 643 / 100;

    let energy = (w1 * heat + w2 * transfer) / BILLION;
    if energy <= 0 {
        return Ok(0);
    }
    let unit = 100 * latent_heat;
    Ok(((2 * 23_622 * energy + unit) / (2 * unit)) as u32)
}

fn refuse(holds: bool, number: u32) -> Result<(), u32> {
    if holds {
        Err(number)
    } else {
        Ok(())
    }
}

fn station_in_range(station: &Station) -> bool {
    station.code.iter().all(u8::is_ascii_uppercase)
        && CLEAR_MINIMUM.contains(&station.minimum)
        && ELEVATION.contains(&station.elevation)
        && WIND_LIMIT.contains(&station.wind_limit)
}

fn good_date(year: u16, d: u16) -> bool {
    YEAR.contains(&year) && (1..=year_length(year)).contains(&d)
}

/// Days of a Gregorian year.
fn year_length(year: u16) -> u16 {
    let leap = year.is_multiple_of(4) && (!year.is_multiple_of(100) || year.is_multiple_of(400));
    if leap {
        366
    } else {
        365
    }
}

/// U, V2 and V4 of the sheet, from which the vapour pressure and its slope both start.
fn powers(f: i64) -> (i64, i64, i64) {
    let u = 41 * f + 67_600;
    let v2 = u * u / 10;
    (u, v2, v2 * v2 / BILLION)
}

fn vapour_pressure(f: i64) -> i64 {
    let (_, _, v4) = powers(f);
    let v8 = v4 * v4 / BILLION;
    (v8 - 1_900 * (f + 160) + 1_316_000) * 338_639 / 100_000
}

fn slope(mean: i64) -> i64 {
    let (u, v2, v4) = powers(mean);
    let v6 = v4 * v2 / BILLION;
    let v7 = v6 * u / 100_000;
    v7 / 5 - 116_000
}

/// Newton's steps from a first guess above zero, as the library takes them.
fn whole_root(n: u64, guess: u64) -> u64 {
    let mut root = (guess + n / guess) / 2;
    while n / root < root {
        root = (root + n / root) / 2;
    }
    root
}

/// The clear-day radiation, never below the station's minimum.
fn clear_day(station: &Station, d: u16) -> i64 {
    let d = i64::from(d);
    let [c1, c2, c3, c4, c5] = station.c.map(i64::from);
    let polynomial =
        BILLION * c1 + d * (1_000_000 * c2 + d * (100_000 * c3 + d * (1_000 * c4 + d * c5)));
    polynomial.max(BILLION * i64::from(station.minimum))
}

/// K: the 0.70 is tested on the exact ratio, not on the rounded one.
fn cloud_factor(s: i64, q: i64) -> i64 {
    let ratio = 100_000_000_000_000 * s / (q / 1_000);
    if BILLION * s > 7 * q {
        1_126 * ratio / 1_000 - 70_000_000
    } else {
        1_017 * ratio / 1_000 - 60_000_000
    }
}

/// B: the black-body radiation at the mean of the two fourth powers.
fn black_body(day: &Day) -> i64 {
    let fourth = |reading: i16| {
        let n = 50 * (i64::from(reading) - 320) + 245_844;
        let square = n * n / 100;
        square * square
    };
    4_903 * ((fourth(day.maximum) + fourth(day.minimum)) / 1_000_000) / 13_122_000
}

fn soil_heat(mean: i64, earlier: &Earlier) -> i64 {
    let present = earlier.iter().flatten().count() as i64;
    let sum: i64 = earlier.iter().flatten().copied().map(i64::from).sum();
    if present == 0 {
        0
    } else {
        1_885_000 * (present * mean - sum) / (9 * present)
    }
}
