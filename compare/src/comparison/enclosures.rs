//! The ends of the enclosures. The bound is for all fractions α, a1, aw, bw and P within half a unit of the tables' entries at once,
//! and for every x between two neighbouring multiples of 10⁻⁸ whose squares have ea between them. Here each figure is held to
//! the equation at every combination of their ends; the entries are those of the second implementation's own tables.
use super::tally::Largest;
use super::{Size, ALLOWED};
use crate::days::{self, Case, Random};
use crate::equation::{self, Fractions};
use crate::office;
use crate::second::tables::TABLES;

#[derive(Default)]
pub(super) struct EnclosureTally {
    days: u64,
    above_zero: u64,
    combinations: u64,
    largest: Largest<Case>,
}

impl EnclosureTally {
    /// A day with a figure, at every combination of ends; one that is refused is passed over.
    fn check(&mut self, case: &Case) -> Result<(), String> {
        let Case {
            station,
            day,
            earlier,
        } = case;
        let Some(figure) = office::judge(station, day, earlier).figure() else {
            return Ok(());
        };
        self.days += 1;
        self.above_zero += u64::from(figure > 0);
        for fractions in ends(case) {
            let inches = equation::inches_with(&fractions, station, day, earlier);
            let difference = (f64::from(figure) - 10_000.0 * inches).abs();
            if difference > ALLOWED {
                return Err(format!(
                    "figure {figure} is {difference} from the equation, more than {ALLOWED}, with {fractions:?}\n{case:?}"
                ));
            }
            self.combinations += 1;
            self.largest.take(difference, case);
        }
        Ok(())
    }

    pub(super) fn print(&self) {
        println!(
            "ends of the enclosures: {} answered days, with a figure above zero {}, {} combinations",
            self.days, self.above_zero, self.combinations
        );
        self.largest
            .print("from the equation at ends of the enclosures");
    }

    /// Six enclosures have at least 64 combinations of ends.
    pub(super) fn all_reached(&self) -> Result<(), String> {
        if self.above_zero == 0 || self.combinations < 64 * self.days {
            return Err("the ends of the enclosures were not tried".into());
        }
        Ok(())
    }
}

/// Every combination of the ends of a day's six enclosures.
fn ends(case: &Case) -> impl Iterator<Item = Fractions> {
    let day = usize::from(case.day.d) - 1;
    let entries = [
        (TABLES.albedo[day], 1e9),
        (TABLES.a1[day], 1e9),
        (TABLES.aw[day], 1e9),
        (TABLES.bw[day], 1e9),
        (TABLES.pressure[usize::from(case.station.elevation)], 1e4),
    ];
    let ends_of_x = ends_of_root(equation::ea(&case.day));
    (0..1 << entries.len()).flat_map(move |set: u32| {
        let mut place = 0;
        let [albedo, a1, aw, bw, pressure] = entries.map(|(entry, units)| {
            let half = if set >> place & 1 == 1 { 0.5 } else { -0.5 };
            place += 1;
            (entry as f64 + half) / units
        });
        let with = move |x| Fractions {
            albedo,
            a1,
            aw,
            bw,
            pressure,
            x,
        };
        ends_of_x.clone().into_iter().map(with)
    })
}

/// The two neighbouring multiples of 10⁻⁸ whose squares have ea between them. Where the root is a multiple itself there are two
/// such pairs; one that double precision cannot tell from a multiple, its error here being below a millionth, counts as one.
fn ends_of_root(ea: f64) -> Vec<f64> {
    let root = 1e8 * ea.sqrt();
    let nearest = root.round();
    let multiples = if (root - nearest).abs() < 1e-6 {
        vec![nearest - 1.0, nearest, nearest + 1.0]
    } else {
        vec![root.floor(), root.ceil()]
    };
    multiples.into_iter().map(|x| x / 1e8).collect()
}

pub(super) fn compare_enclosures(size: &Size) -> Result<EnclosureTally, String> {
    let mut random = Random::new(4);
    let mut tally = EnclosureTally::default();
    for case in days::halves().iter().chain(&days::far_from_equation()) {
        tally.check(case)?;
    }
    while tally.days < size.enclosures {
        tally.check(&days::case(&mut random))?;
    }
    Ok(tally)
}

#[cfg(test)]
mod tests {
    use super::*;

    #[test]
    fn the_formulas_fractions_lie_between_the_ends() {
        let fields: [fn(&Fractions) -> f64; 6] = [
            |it| it.albedo,
            |it| it.a1,
            |it| it.aw,
            |it| it.bw,
            |it| it.pressure,
            |it| it.x,
        ];
        for case in days::halves() {
            let own = Fractions::of_formulas(&case.station, &case.day);
            let ends: Vec<_> = ends(&case).collect();
            assert_eq!(ends.len(), 64);
            for (field, unit) in fields.iter().zip([1e-9, 1e-9, 1e-9, 1e-9, 1e-4, 1e-8]) {
                let of_ends = ends.iter().map(field);
                let (low, high) = (
                    of_ends.clone().fold(9e9, f64::min),
                    of_ends.fold(0.0, f64::max),
                );
                assert!(low <= field(&own) && field(&own) <= high);
                assert!((high - low - unit).abs() < unit * 1e-4);
            }
        }
    }

    #[test]
    fn a_day_is_farther_than_the_bound_of_the_must_fail_edit() {
        let mut tally = EnclosureTally::default();
        for case in days::far_from_equation() {
            tally.check(&case).expect("it is within the bound");
        }
        // The edit bound_below_a_known_day has 0.5074.
        assert!(tally.largest.difference > 0.5074);
    }

    #[test]
    fn a_day_is_farther_from_the_equation_itself_than_chance_has_met() {
        let [by_chance, _, climbed] = days::far_from_equation().map(|case| {
            let figure = office::judge(&case.station, &case.day, &case.earlier).figure();
            let inches = equation::inches(&case.station, &case.day, &case.earlier);
            (f64::from(figure.expect("it is answered")) - 10_000.0 * inches).abs()
        });
        assert!((by_chance - 0.504_459).abs() < 1e-6);
        assert!((climbed - 0.506_330).abs() < 1e-6);
    }

    #[test]
    fn a_root_that_is_a_multiple_has_both_its_neighbours() {
        assert_eq!(ends_of_root(0.25), [0.499_999_99, 0.5, 0.500_000_01]);
        assert_eq!(ends_of_root(5.0), [2.236_067_97, 2.236_067_98]);
    }
}
