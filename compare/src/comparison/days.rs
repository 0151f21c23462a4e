//! Days handed in alone: the library's verdict against the second implementation's, and each figure against the unrounded
//! equation and the published routine.
use super::dew_points::DewPointTally;
use super::tally::{ByOneReason, Largest, LIMITED};
use super::{Size, ALLOWED};
use crate::days::{self, Case, Random};
use crate::routine::{self, Known};
use crate::second::station;
use crate::{equation, office, second, Day, Verdict};

#[derive(Default)]
struct Opinions {
    count: u64,
    largest: f64,
}

impl Opinions {
    fn take(&mut self, difference: f64) {
        self.count += 1;
        self.largest = self.largest.max(difference);
    }
}

#[derive(Default)]
pub(super) struct DayTally {
    days: u64,
    answered: u64,
    above_zero: u64,
    /// Those that are `LIMITED`.
    pub(super) limited: u64,
    pub(super) refused: [u64; 13],
    pub(super) refused_for_station: ByOneReason,
    pub(super) refused_for_earlier: u64,
    pub(super) dew_points: DewPointTally,
    largest: Largest<Case>,
    /// Of the estimated days.
    largest_estimated: Largest<Case>,
    opinions: [Opinions; Known::ALL.len()],
}

impl DayTally {
    fn check(&mut self, case: &Case) -> Result<(), String> {
        let Case {
            station,
            day,
            earlier,
        } = case;
        let given = office::judge(station, day, earlier);
        let expected = second::judge(station, day, earlier);
        if given != expected {
            return Err(format!(
                "a day handed in alone: {given:?}, the second implementation {expected:?}\n{case:?}"
            ));
        }
        if second::dew_point_alone_missing(day) {
            check_substitute(given, case)?;
        }
        self.days += 1;
        self.dew_points.count(day, given);
        match given {
            Verdict::Figure(figure) => {
                let difference = self.check_figure(figure, case)?;
                self.largest.take(difference, case);
                Ok(())
            }
            Verdict::Estimated(figure) => {
                let difference = self.check_figure(figure, case)?;
                self.largest_estimated.take(difference, case);
                Ok(())
            }
            Verdict::Refused(number) => {
                self.refused[number as usize] += 1;
                if number == 3 {
                    self.refused_for_station.count(&station::REASONS, station);
                }
                let alone = second::judge(station, day, &[None; 3]);
                self.refused_for_earlier += u64::from(alone != given);
                Ok(())
            }
        }
    }

    /// A figure against the equation and the routine; its difference from the equation.
    fn check_figure(&mut self, figure: u32, case: &Case) -> Result<f64, String> {
        self.answered += 1;
        self.above_zero += u64::from(figure > 0);
        let Case {
            station,
            day,
            earlier,
        } = case;
        self.limited += u64::from(station.limits(day));
        let away = |inches: f64| (f64::from(figure) - 10_000.0 * inches).abs();
        let beyond = |from: &str, by: f64| {
            format!("figure {figure} is {by} from {from}, more than {ALLOWED}\n{case:?}")
        };

        let from_equation = away(equation::inches(station, day, earlier));
        if from_equation > ALLOWED {
            return Err(beyond("the equation", from_equation));
        }

        let opinion = routine::etpcomp(station, day, earlier);
        let difference = away(opinion.inches);
        if opinion.known == Known::Nothing && difference > ALLOWED {
            return Err(beyond("the published routine", difference));
        }
        self.opinions[opinion.known as usize].take(difference);
        Ok(from_equation)
    }

    pub(super) fn print(&self) {
        println!(
            "days handed in alone: {}, answered {}, with a figure above zero {}",
            self.days, self.answered, self.above_zero
        );
        println!("  {LIMITED}: {}", self.limited);
        for number in [3, 6, 7, 8, 9, 10] {
            println!("  refusal {number}: {}", self.refused[number]);
        }
        for (reason, met) in self.refused_for_station.met(&station::REASONS) {
            println!("  refusal 3 for {reason} alone: {met}");
        }
        println!(
            "  refusal 8 for an earlier mean: {}",
            self.refused_for_earlier
        );
        self.dew_points.print("figures with the mark of W4");
        self.largest.print("from the equation");
        self.largest_estimated
            .print("of an estimated day from the equation with the substitute");
        println!("the published routine, in 0.0001 inch:");
        for (known, what) in Known::ALL {
            let Opinions { count, largest } = self.opinions[known as usize];
            println!("  {what}: {count} days, largest difference {largest:.4}");
        }
    }
}

/// A day without a dew point is judged as the day with the minimum in its place, but for the mark.
fn check_substitute(given: Verdict, case: &Case) -> Result<(), String> {
    let day = Day {
        dewpoint: case.day.minimum,
        ..case.day
    };
    let substituted = office::judge(&case.station, &day, &case.earlier);
    let expected = match substituted {
        Verdict::Figure(figure) => Verdict::Estimated(figure),
        other => other,
    };
    if given != expected {
        return Err(format!(
            "a day without a dew point: {given:?}, with the minimum in its place {substituted:?}\n{case:?}"
        ));
    }
    Ok(())
}

pub(super) fn compare_days(size: &Size) -> Result<DayTally, String> {
    let mut random = Random::new(1);
    let mut tally = DayTally::default();
    for case in days::halves() {
        tally.check(&case)?;
    }
    for _ in 0..size.sweeps {
        for case in days::sweep(&mut random) {
            tally.check(&case)?;
        }
        for case in days::dew_point_edges(&mut random) {
            tally.check(&case)?;
        }
    }
    while tally.days < size.days {
        tally.check(&days::case(&mut random))?;
    }
    Ok(tally)
}
