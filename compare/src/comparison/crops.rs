//! Crop figures of days in logs: each against what is promised of it, and how the days stood to their crops.
use super::tally::{ByOneReason, Largest};
use super::CROP_ALLOWED;
use crate::second::{self, crop, log::Judged};
use crate::{equation, Verdict};

/// Whether a day without a dew point has a crop figure after its answer of kind 9.
pub(super) fn has_estimated_crop(judged: &Judged) -> bool {
    matches!(judged.verdict, Verdict::Estimated(_)) && judged.crop_figure().is_some()
}

/// How a day of an accepted log can stand to the crop in force.
pub(super) const STANDINGS: [&str; 7] = [
    "answered at S",
    "answered between S and F",
    "answered at F",
    "answered before S",
    "answered after F",
    "answered in another year",
    "refused",
];

#[derive(Default)]
pub(super) struct CropTally {
    /// The logs that were refused with 13.
    pub(super) refused: ByOneReason,
    pub(super) standings: [u64; STANDINGS.len()],
    pub(super) figures: u64,
    /// Those of estimated days.
    pub(super) estimated: u64,
    /// Those that were a whole number and a half before they were rounded.
    pub(super) halves: u64,
    largest: Largest<Judged>,
}

impl CropTally {
    pub(super) fn count_refused(&mut self, record: &[u8]) {
        let crop = second::log::crop(&record[1..]);
        self.refused.count(&crop::REASONS, &crop);
    }

    /// A day's crop figure against what is promised of it.
    pub(super) fn check(&mut self, judged: &Judged) -> Result<(), String> {
        let Judged {
            station,
            day,
            earlier,
            crop: Some(crop),
            verdict,
        } = judged
        else {
            return Ok(());
        };
        self.standings[match verdict {
            Verdict::Refused(_) => 6,
            _ if day.year != crop.year => 5,
            _ if day.d > crop.full => 4,
            _ if day.d < crop.start => 3,
            _ if day.d == crop.full => 2,
            _ if day.d > crop.start => 1,
            _ => 0,
        }] += 1;
        let percentage = crop::percentage(crop, day.year, day.d);
        let (Some(reference), Some((numerator, l)), Some(figure)) =
            (verdict.figure(), percentage, judged.crop_figure())
        else {
            return Ok(());
        };
        self.figures += 1;
        self.estimated += u64::from(has_estimated_crop(judged));
        let hundredths = 100 * l;
        let twice = 2 * i128::from(reference) * numerator;
        self.halves += u64::from(twice % (2 * hundredths) == hundredths);

        if u64::from(figure) > 2 * u64::from(reference) {
            return Err(format!(
                "crop figure {figure} is above twice the figure {reference}\n{judged:?}"
            ));
        }
        let value = 10_000.0 * equation::inches(station, day, earlier) * numerator as f64;
        let difference = (f64::from(figure) - value / hundredths as f64).abs();
        if difference > CROP_ALLOWED {
            return Err(format!(
                "crop figure {figure} is {difference} from the equation's value times the percentage, \
                 more than {CROP_ALLOWED}\n{judged:?}"
            ));
        }
        self.largest.take(difference, judged);
        Ok(())
    }

    pub(super) fn print(&self) {
        for (reason, met) in self.refused.met(&crop::REASONS) {
            println!("  refusal 13 for {reason} alone: {met} logs");
        }
        for (standing, met) in STANDINGS.iter().zip(self.standings) {
            println!("  with a crop, {standing}: {met} days");
        }
        println!(
            "  crop figures: {}, of them {} rounded up from a half, {} after an answer of kind 9",
            self.figures, self.halves, self.estimated
        );
        self.largest
            .print("of a crop figure from the equation's value times the percentage");
    }
}
