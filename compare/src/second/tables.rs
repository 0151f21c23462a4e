//! The constant tables of scope document 01, from their formulas in double precision.
use std::sync::LazyLock;

/// Day tables in billionths, day 1 first; the pressure in tenths of a pascal, sea level first.
pub struct Tables {
    pub albedo: Vec<i128>,
    pub a1: Vec<i128>,
    pub aw: Vec<i128>,
    pub bw: Vec<i128>,
    pub pressure: Vec<i128>,
}

pub static TABLES: LazyLock<Tables> = LazyLock::new(|| Tables {
    albedo: of_days(|d| 290e6 + 60e6 * (d + 97.92).to_radians().sin()),
    a1: of_days(|d| 260e6 + 100e6 * bell(0.0154 * (d - 177.0))),
    aw: of_days(|d| 400e6 + 1_400e6 * bell((d - 173.0) / 58.0)),
    bw: of_days(|d| 7e6 + 4e6 * bell((d - 243.0) / 80.0)),
    pressure: (0..=3_000)
        .map(|e| 1_013_000.0 * ((576_000.0 - 13.0 * f64::from(e)) / 576_000.0).powf(5.257))
        .map(nearest)
        .collect(),
});

fn of_days(value: impl Fn(f64) -> f64) -> Vec<i128> {
    (1..=366).map(|d| nearest(value(f64::from(d)))).collect()
}

/// exp(-x²), the curve of three of the tables.
fn bell(x: f64) -> f64 {
    (-x * x).exp()
}

/// Double precision is trusted only away from the halves: its own error here is below a millionth of a unit.
fn nearest(value: f64) -> i128 {
    let part = value - value.floor();
    assert!(
        (part - 0.5).abs() > 1e-6,
        "{value}: too near a half to be rounded in double precision"
    );
    value.round() as i128
}

#[cfg(test)]
mod tests {
    use super::TABLES;

    #[test]
    fn proved_entries() {
        assert_eq!(TABLES.a1[177 - 1], 360_000_000);
        assert_eq!(TABLES.aw[173 - 1], 1_800_000_000);
        assert_eq!(TABLES.bw[243 - 1], 11_000_000);
        assert_eq!(TABLES.pressure[0], 1_013_000);
    }

    #[test]
    #[should_panic(expected = "too near a half")]
    fn a_half_is_not_rounded_silently() {
        super::nearest(260_000_000.500_000_4);
    }
}
