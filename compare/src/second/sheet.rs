//! The step sheet of scope document 01, line by line, in its order and letters, with the wind limit of W2.
use super::tables::TABLES;
use crate::{Day, Earlier, Station};

const BILLION: i128 = 1_000_000_000;

/// Division to the next lower whole number. The divisions that the document marks ÷0 are Rust's own `/`.
fn down(number: i128, by: i128) -> i128 {
    number.div_euclid(by)
}

fn u(f: i128) -> i128 {
    41 * f + 67_600
}

/// V7 and V8.
fn powers(f: i128) -> (i128, i128) {
    let u = u(f);
    let v2 = down(u * u, 10);
    let v4 = down(v2 * v2, BILLION);
    let v8 = down(v4 * v4, BILLION);
    let v6 = down(v4 * v2, BILLION);
    let v7 = down(v6 * u, 100_000);
    (v7, v8)
}

/// Without the absolute value since W6: f + 160 is above zero at every temperature in range.
fn vapour_pressure(f: i128) -> i128 {
    let (_, v8) = powers(f);
    down((v8 - 1_900 * (f + 160) + 1_316_000) * 338_639, 100_000)
}

fn slope(m: i128) -> i128 {
    let (v7, _) = powers(m);
    down(v7, 5) - 116_000
}

fn latent_heat(m: i128) -> i128 {
    15_006_000 - 787 * (m - 320)
}

fn psychrometric(m: i128, elevation: u16) -> i128 {
    let p = TABLES.pressure[usize::from(elevation)];
    down(603_000_000_000 * p, 622 * latent_heat(m))
}

/// Q, not below the station's minimum.
pub fn clear_day(station: &Station, d: u16) -> i128 {
    let [c1, c2, c3, c4, c5] = station.c.map(i128::from);
    let d = i128::from(d);
    let q = BILLION * c1
        + 1_000_000 * c2 * d
        + 100_000 * c3 * d.pow(2)
        + 1_000 * c4 * d.pow(3)
        + c5 * d.pow(4);
    q.max(BILLION * i128::from(station.minimum))
}

/// K. The choice is made on s and Q themselves, not on the rounded ratio.
fn cloud_factor(s: i128, q: i128) -> i128 {
    let rho = down(100_000 * BILLION * s, down(q, 1_000));
    if BILLION * s > 7 * q {
        down(1_126 * rho, 1_000) - 70_000_000
    } else {
        down(1_017 * rho, 1_000) - 60_000_000
    }
}

fn absolute(f: i128) -> i128 {
    50 * (f - 320) + 245_844
}

fn black_body(maximum: i128, minimum: i128) -> i128 {
    let fourth = |f| down(absolute(f).pow(2), 100).pow(2);
    let both = down(fourth(maximum) + fourth(minimum), 1_000_000);
    down(4_903 * both, 13_122_000)
}

fn soil_heat(m: i128, earlier: &Earlier) -> i128 {
    let k = earlier.iter().flatten().count() as i128;
    let z: i128 = earlier.iter().flatten().copied().map(i128::from).sum();
    if k == 0 {
        0
    } else {
        1_885_000 * (k * m - z) / (9 * k)
    }
}

/// A, the latent heat that the day's water takes up.
fn evaporation(station: &Station, day: &Day, earlier: &Earlier) -> i128 {
    let [maximum, minimum, m, dewpoint, s, w] = [
        day.maximum,
        day.minimum,
        day.mean,
        day.dewpoint,
        day.radiation,
        day.wind,
    ]
    .map(i128::from);
    let of_day = |table: &[i128]| table[usize::from(day.d) - 1];

    let ea = vapour_pressure(dewpoint);
    let d = slope(m);
    let g = psychrometric(m, station.elevation);
    let w1 = down(BILLION * d, d + g);
    let w2 = BILLION - w1;

    let k = cloud_factor(s, clear_day(station, day.d));
    let b = black_body(maximum, minimum);
    let r = (10_000_000 * ea).isqrt();
    let emittance = of_day(&TABLES.a1) - down(139 * r, 100);
    let rb = emittance * b / BILLION * k / BILLION;
    let rn = down((BILLION - of_day(&TABLES.albedo)) * 41_868 * s, BILLION) - rb;
    let h = rn - soil_heat(m, earlier);

    let w = w.min(station.wind_limit.into());
    let wf = of_day(&TABLES.aw) + down(of_day(&TABLES.bw) * 16_093 * w, 100_000);
    let v = down(vapour_pressure(maximum) + vapour_pressure(minimum), 2) - ea;
    let t = v / 100 * wf / BILLION * 643 / 100;

    (w1 * h + w2 * t) / BILLION
}

/// The figure of a day that none of the refusals holds of.
pub fn figure(station: &Station, day: &Day, earlier: &Earlier) -> u32 {
    let a = evaporation(station, day, earlier);
    let latent = latent_heat(day.mean.into());
    if a <= 0 {
        return 0;
    }
    // The nearest with halves up is what lies below the quotient and a half.
    let nearest = down(2 * 23_622 * a + 100 * latent, 200 * latent);
    u32::try_from(nearest).expect("a figure has four bytes")
}

#[cfg(test)]
mod tests {
    use super::super::TEMPERATURE;
    use super::*;
    use crate::ROUTINE_LIMIT;

    const LIDW: Station = Station {
        code: *b"LIDW",
        c: [154, 1_760, 614, -396, 590],
        minimum: 100,
        elevation: 497,
        wind_limit: ROUTINE_LIMIT,
    };

    #[test]
    fn proved_at_the_freezing_point() {
        assert_eq!((u(320), powers(320).1), (80_720, 180_239_188));
        assert_eq!(vapour_pressure(320), 611_728_285);
        assert_eq!(slope(320), 44_541_876);
        assert_eq!(absolute(320), 245_844);
        assert_eq!(latent_heat(320), 15_006_000);
        assert_eq!(psychrometric(320, 0), 65_444_240);
    }

    /// Over every accepted temperature and elevation: why there is no refusal 11 and no absolute value (W6).
    #[test]
    fn proved_least_values() {
        let temperatures = || TEMPERATURE.map(i128::from);
        let g =
            |elevation| temperatures().map(move |m| (psychrometric(m, elevation), m, elevation));
        assert_eq!(temperatures().map(|f| (f + 160, f)).min(), Some((66, -94)));
        assert_eq!(
            temperatures().map(|m| (slope(m), m)).min(),
            Some((8_438_616, -94))
        );
        assert_eq!(
            (0..=3_000).flat_map(g).min(),
            Some((44_307_428, -94, 3_000))
        );
    }

    #[test]
    fn proved_latent_heat_at_fifty_degrees() {
        assert_eq!(latent_heat(500), 14_864_340);
    }

    #[test]
    fn proved_clear_day_and_its_border() {
        let q = clear_day(&LIDW, 180);
        assert_eq!(q, 770_046_400_000);
        let rho = |s| 100_000 * BILLION * s / (q / 1_000);
        assert_eq!(
            cloud_factor(5_390, q),
            1_017 * rho(5_390) / 1_000 - 60_000_000
        );
        assert_eq!(
            cloud_factor(5_391, q),
            1_126 * rho(5_391) / 1_000 - 70_000_000
        );
    }

    #[test]
    fn proved_cloud_factors() {
        assert_eq!(cloud_factor(3_500, 500 * BILLION), 651_900_000);
        assert_eq!(cloud_factor(3_501, 500 * BILLION), 718_425_200);
    }

    #[test]
    fn halves_go_up() {
        for case in crate::days::halves() {
            let a = evaporation(&case.station, &case.day, &case.earlier);
            let halves = 200 * latent_heat(case.day.mean.into());
            assert_eq!(2 * 23_622 * a % halves, halves / 2);
            let figure = figure(&case.station, &case.day, &case.earlier);
            assert_eq!(i128::from(figure), 2 * 23_622 * a / halves + 1);
        }
    }

    #[test]
    fn the_minimum_takes_the_place_of_a_lower_clear_day() {
        let dark = Station {
            c: [-32_768; 5],
            ..LIDW
        };
        assert_eq!(clear_day(&dark, 366), 100 * BILLION);
    }
}
