//! A third opinion: the formulas of the published routine ETPCOMP (source document 000) with its constants, order
//! and names, in double precision where the routine has single precision.
//!
//! Known differences from scope document 01 and its change requests, which decide:
//! - the routine caps the ratio of radiation to clear-day radiation at one;
//! - its day number X has no leap day: 29 February and 1 March share 60, and later days are one lower;
//! - it tests 0.70 on the computed ratio, so a ratio of just 0.70 may fall on either side;
//! - its wind limit is 150 miles for every station;
//! - it refuses a day without a dew point: here it is handed the minimum in its place.
//!
//! It refuses missing readings only. The guards ABS(VAPDP) and RSO = 0 never act within the accepted ranges.
use crate::{Day, Earlier, Station};

#[derive(Clone, Copy, PartialEq, Eq)]
pub enum Known {
    Nothing,
    Ceiling,
    LeapDay,
    Border,
    WindLimit,
    Several,
}

impl Known {
    pub const ALL: [(Known, &str); 6] = [
        (Known::Nothing, "no known difference"),
        (Known::Ceiling, "ratio above the routine's ceiling of one"),
        (Known::LeapDay, "after 29 February, which X does not count"),
        (Known::Border, "ratio within 1e-9 of 0.70"),
        (
            Known::WindLimit,
            "wind run above a station's limit below the routine's 150 miles",
        ),
        (Known::Several, "more than one of these four"),
    ];
}

pub struct Opinion {
    pub inches: f64,
    pub known: Known,
}

fn to_celsius(fahrenheit: f64) -> f64 {
    5.0 * (fahrenheit - 32.0) / 9.0
}

fn vapour_pressure(t: f64) -> f64 {
    3.38639 * ((0.00738 * t + 0.8072).powf(8.0) - 0.000019 * (1.8 * t + 48.0).abs() + 0.001316)
}

pub fn etpcomp(station: &Station, day: &Day, earlier: &Earlier) -> Opinion {
    let tenths = |value: i16| f64::from(value) / 10.0;
    let wr_value = tenths(day.wind).min(150.0);
    let sr_value = tenths(day.radiation);
    let tmean = to_celsius(tenths(day.mean));
    let tmax = to_celsius(tenths(day.maximum));
    let tmin = to_celsius(tenths(day.minimum));
    let tdew = to_celsius(tenths(day.dewpoint_or_substitute()));
    let kmax = tmax + 273.16;
    let kmin = tmin + 273.16;
    let solar = sr_value * 0.041868;
    let u2 = wr_value * 1.6093;

    let plambda = 2.501 - 0.002361 * tmean;
    let dd = 0.2 * (0.00738 * tmean + 0.8072).powf(7.0) - 0.000116;
    let pp = 101.3 * ((288.0 - 0.0065 * f64::from(station.elevation)) / 288.0).powf(5.257);
    let gg = 0.001005 * pp / (0.622 * plambda);
    let fact1 = dd / (dd + gg);
    let fact2 = 1.0 - fact1;

    let mut preav = 0.0;
    let mut kount = 0.0;
    for &mm_save in earlier.iter().flatten() {
        preav += tenths(mm_save);
        kount += 1.0;
    }
    if kount == 0.0 {
        preav = tenths(day.mean);
    } else {
        preav /= kount;
    }
    let htflux = (tmean - to_celsius(preav)) * 0.377;

    let vapmn = vapour_pressure(tmin);
    let vapmx = vapour_pressure(tmax);
    let vapdp = vapour_pressure(tdew);

    // Of the years 1950 to 2099 every fourth is a leap year.
    let after_leap_day = day.year.is_multiple_of(4) && day.d > 60;
    let x = f64::from(day.d - u16::from(after_leap_day));

    let [c1, c2, c3, c4, c5] = station.c.map(f64::from);
    let clrad =
        c1 + c2 * 1e-3 * x + c3 * 1e-4 * x.powi(2) + c4 * 1e-6 * x.powi(3) + c5 * 1e-9 * x.powi(4);
    let rso = clrad.max(f64::from(station.minimum)) * 0.041868;

    let a1 = 0.26 + 0.1 * (-(0.0154 * (x - 177.0)).powi(2)).exp();
    let emit = a1 - 0.139 * vapdp.abs().sqrt();
    let rbo = emit * 4.903e-9 * (kmax.powi(4) + kmin.powi(4)) / 2.0;
    let albedo = 0.29 + 0.06 * (x + 97.92).to_radians().sin();

    let ratio = solar / rso;
    let sol = ratio.min(1.0);
    let (a, b) = if sol > 0.70 {
        (1.126, -0.07)
    } else {
        (1.017, -0.06)
    };
    let rb = rbo * (a * sol + b);
    let rn = (1.0 - albedo) * solar - rb;

    let vapde = (vapmn + vapmx) * 0.5 - vapdp;
    let aw = 0.4 + 1.4 * (-((x - 173.0) / 58.0).powi(2)).exp();
    let bw = 0.007 + 0.004 * (-((x - 243.0) / 80.0).powi(2)).exp();
    let wf = aw + bw * u2;

    let etp_lamb = fact1 * (rn - htflux) + fact2 * 6.43 * wf * vapde;
    let differences = [
        (ratio > 1.0, Known::Ceiling),
        (after_leap_day, Known::LeapDay),
        ((ratio - 0.70).abs() < 1e-9, Known::Border),
        (station.limits(day), Known::WindLimit),
    ];
    let mut acting = differences.iter().filter(|(acts, _)| *acts);
    let known = match (acting.next(), acting.next()) {
        (None, _) => Known::Nothing,
        (Some((_, one)), None) => *one,
        _ => Known::Several,
    };
    Opinion {
        inches: (etp_lamb * 0.03937 / plambda).max(0.0),
        known,
    }
}

#[cfg(test)]
mod tests {
    use super::{etpcomp, Known};
    use crate::days::halves;
    use crate::{equation, MISSING};

    #[test]
    fn the_equation_where_nothing_differs() {
        for mut case in halves() {
            for dewpoint in [case.day.dewpoint, MISSING] {
                case.day.dewpoint = dewpoint;
                let opinion = etpcomp(&case.station, &case.day, &case.earlier);
                let value = equation::inches(&case.station, &case.day, &case.earlier);
                assert!(opinion.known == Known::Nothing && (opinion.inches - value).abs() < 1e-14);
            }
        }
    }

    #[test]
    fn the_leap_day_is_not_counted() {
        let [mut case, _] = halves();
        let before = etpcomp(&case.station, &case.day, &case.earlier).inches;
        (case.day.year, case.day.d) = (2008, case.day.d + 1);
        let opinion = etpcomp(&case.station, &case.day, &case.earlier);
        assert!(opinion.known == Known::LeapDay && opinion.inches == before);
    }

    #[test]
    fn the_limit_of_a_station_is_not_known() {
        let [mut case, _] = halves();
        let mut known = |wind_limit, wind, year| {
            case.station.wind_limit = wind_limit;
            (case.day.wind, case.day.year) = (wind, year);
            etpcomp(&case.station, &case.day, &case.earlier).known
        };
        assert!(known(1_000, 1_000, 2007) == Known::Nothing);
        assert!(known(1_000, 1_001, 2007) == Known::WindLimit);
        assert!(known(1_000, 1_001, 2008) == Known::Several);
        assert!(known(1_500, 1_501, 2007) == Known::Nothing);
    }
}
