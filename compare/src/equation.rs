//! The unrounded equation of scope document 01, with the wind limits of W2 and W4's substitute for a missing dew point, in
//! double precision. It takes nothing from the step sheet.
use crate::{Day, Earlier, Station};

fn fahrenheit(tenths: i16) -> f64 {
    f64::from(tenths) / 10.0
}

fn celsius(tenths: i16) -> f64 {
    (fahrenheit(tenths) - 32.0) / 1.8
}

fn y(tenths: i16) -> f64 {
    0.00738 * celsius(tenths) + 0.8072
}

fn vapour_pressure(tenths: i16) -> f64 {
    3.38639 * (y(tenths).powi(8) - 0.000019 * (fahrenheit(tenths) + 16.0).abs() + 0.001316)
}

/// C in whole billionths of a calorie: c1 to c5 are whole in their units, so nothing is lost.
fn clear_day(station: &Station, d: u16) -> i64 {
    let units = [1_000_000_000, 1_000_000, 100_000, 1_000, 1];
    let terms = station.c.iter().zip(units).zip(0..);
    let sum: i64 = terms
        .map(|((&c, unit), power)| i64::from(c) * unit * i64::from(d).pow(power))
        .sum();
    sum.max(i64::from(station.minimum) * 1_000_000_000)
}

/// The numbers that the equation takes from curves and from a root: α, a1, aw and bw at the day of the year, the pressure P at the
/// elevation in kPa, and x, whose square is ea.
#[derive(Clone, Copy, Debug)]
pub struct Fractions {
    pub albedo: f64,
    pub a1: f64,
    pub aw: f64,
    pub bw: f64,
    pub pressure: f64,
    pub x: f64,
}

impl Fractions {
    /// The formulas' own, unrounded.
    pub fn of_formulas(station: &Station, day: &Day) -> Self {
        let d = f64::from(day.d);
        let bell = |x: f64| (-x * x).exp();
        let elevation = f64::from(station.elevation);
        Fractions {
            albedo: 0.29 + 0.06 * (d + 97.92).to_radians().sin(),
            a1: 0.26 + 0.1 * bell(0.0154 * (d - 177.0)),
            aw: 0.4 + 1.4 * bell((d - 173.0) / 58.0),
            bw: 0.007 + 0.004 * bell((d - 243.0) / 80.0),
            pressure: 101.3 * ((576_000.0 - 13.0 * elevation) / 576_000.0).powf(5.257),
            x: ea(day).sqrt(),
        }
    }
}

/// The vapour pressure at the dew point.
pub fn ea(day: &Day) -> f64 {
    vapour_pressure(day.dewpoint_or_substitute())
}

/// The value in inches of a day that none of the refusals holds of.
pub fn inches(station: &Station, day: &Day, earlier: &Earlier) -> f64 {
    let fractions = Fractions::of_formulas(station, day);
    inches_with(&fractions, station, day, earlier)
}

/// The same with other fractions, such as the ends of their enclosures.
pub fn inches_with(fractions: &Fractions, station: &Station, day: &Day, earlier: &Earlier) -> f64 {
    let Fractions {
        albedo,
        a1,
        aw,
        bw,
        pressure,
        x,
    } = *fractions;
    let ea = ea(day);
    let delta = 0.2 * y(day.mean).powi(7) - 0.000116;
    let l = 2.501 - 0.002361 * celsius(day.mean);
    let gamma = 0.001005 * pressure / (0.622 * l);

    let r = f64::from(day.radiation) / 10.0;
    let billionths = clear_day(station, day.d);
    let c = billionths as f64 / 1e9;
    // R > 0.7C on whole numbers: the equation's choices are exact.
    let k = if i64::from(day.radiation) * 1_000_000_000 > 7 * billionths {
        1.126 * r / c - 0.07
    } else {
        1.017 * r / c - 0.06
    };

    let fourth = |tenths| (celsius(tenths) + 273.16).powi(4);
    let b = 4.903e-9 * (fourth(day.maximum) + fourth(day.minimum)) / 2.0;
    let rn = 0.041868 * (1.0 - albedo) * r - (a1 - 0.139 * x) * b * k;

    let present: Vec<f64> = earlier
        .iter()
        .flatten()
        .map(|&mean| celsius(mean))
        .collect();
    let g = if present.is_empty() {
        0.0
    } else {
        0.377 * (celsius(day.mean) - present.iter().sum::<f64>() / present.len() as f64)
    };

    let u = (f64::from(day.wind) / 10.0).min(f64::from(station.wind_limit) / 10.0);
    let deficit = (vapour_pressure(day.maximum) + vapour_pressure(day.minimum)) / 2.0 - ea;
    let t = 6.43 * (aw + 1.6093 * bw * u) * deficit;

    (0.03937 * (delta * (rn - g) + gamma * t) / ((delta + gamma) * l)).max(0.0)
}

#[cfg(test)]
mod tests {
    use super::inches;
    use crate::{Day, MISSING};

    #[test]
    fn two_days_worked_with_fifty_digits() {
        let worked = [0.247_649_976_487_703_14, 0.394_049_893_431_268_8];
        for (case, expected) in crate::days::halves().iter().zip(worked) {
            let value = inches(&case.station, &case.day, &case.earlier);
            assert!((value - expected).abs() < 1e-14);
        }
    }

    #[test]
    fn a_wind_run_above_the_limit_counts_as_the_limit() {
        let [mut case, _] = crate::days::halves();
        let mut value = |wind_limit, wind| {
            (case.station.wind_limit, case.day.wind) = (wind_limit, wind);
            inches(&case.station, &case.day, &case.earlier)
        };
        assert_eq!(value(1_000, 1_001), value(1_500, 1_000));
        assert_eq!(value(1_000, 999), value(1_500, 999));
        assert!(value(1_001, 1_001) > value(1_000, 1_001));
    }

    #[test]
    fn the_minimum_takes_the_place_of_a_missing_dew_point() {
        for case in crate::days::halves() {
            let with = |dewpoint| {
                let day = Day {
                    dewpoint,
                    ..case.day
                };
                inches(&case.station, &day, &case.earlier)
            };
            assert_eq!(with(MISSING), with(case.day.minimum));
            assert!(with(MISSING) < with(case.day.minimum - 1));
        }
    }
}
