//! What became of days without a dew point (W4), handed in alone or in a log.
use super::tally::ByOneReason;
use crate::{second, Day, Verdict, MISSING};

/// The refusals that can be given to a day with the minimum in the dew point's place, once its date is good.
const WITH_SUBSTITUTE: [usize; 3] = [8, 9, 10];

/// How another reading can be missing.
const MISSING_WITH: [&str; 2] = ["alone", "and the dew point"];

/// What became of the days that W4 is about.
#[derive(Default)]
pub(super) struct DewPointTally {
    estimated: u64,
    /// Those that were refused with the dew point alone missing.
    refused: [u64; 13],
    /// Those that were refused with 7 for one other reading.
    refused_for_reading: [ByOneReason; MISSING_WITH.len()],
}

impl DewPointTally {
    pub(super) fn count(&mut self, day: &Day, verdict: Verdict) {
        match verdict {
            Verdict::Estimated(_) => self.estimated += 1,
            Verdict::Refused(7) => {
                let by_reading =
                    &mut self.refused_for_reading[usize::from(day.dewpoint == MISSING)];
                by_reading.count(&second::MISSING_READINGS, day);
            }
            Verdict::Refused(number) if second::dew_point_alone_missing(day) => {
                self.refused[number as usize] += 1;
            }
            _ => {}
        }
    }

    pub(super) fn print(&self, estimates: &str) {
        println!("  {estimates}: {}", self.estimated);
        for number in WITH_SUBSTITUTE {
            println!(
                "  refusal {number} with the dew point alone missing: {}",
                self.refused[number]
            );
        }
        for (with, by_reading) in MISSING_WITH.iter().zip(&self.refused_for_reading) {
            for (reading, met) in by_reading.met(&second::MISSING_READINGS) {
                println!("  refusal 7 for {reading} {with}: {met}");
            }
        }
    }

    pub(super) fn all_reached(&self, of: &str) -> Result<(), String> {
        if self.estimated == 0 {
            return Err(format!("no day {of} without a dew point was estimated"));
        }
        for number in WITH_SUBSTITUTE {
            if self.refused[number] == 0 {
                return Err(format!(
                    "refusal {number} of a day {of} with the dew point alone missing was never reached"
                ));
            }
        }
        for (with, by_reading) in MISSING_WITH.iter().zip(&self.refused_for_reading) {
            let readings = by_reading.met(&second::MISSING_READINGS);
            if let Some((reading, _)) = readings.iter().find(|(_, met)| *met == 0) {
                return Err(format!(
                    "refusal 7 of a day {of} for {reading} {with} was never reached"
                ));
            }
        }
        Ok(())
    }
}
