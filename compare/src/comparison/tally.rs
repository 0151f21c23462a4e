//! What the parts of the comparison count with: the largest difference met, and how often a refusal had one reason alone.
use crate::second::Reason;
use std::collections::BTreeMap;
use std::fmt::Debug;

/// The largest difference from the equation, and the day that has it.
pub(super) struct Largest<Of> {
    pub(super) difference: f64,
    day: Option<Of>,
}

impl<Of> Default for Largest<Of> {
    fn default() -> Self {
        Largest {
            difference: 0.0,
            day: None,
        }
    }
}

impl<Of: Copy + Debug> Largest<Of> {
    pub(super) fn take(&mut self, difference: f64, day: &Of) {
        if difference > self.difference || self.day.is_none() {
            *self = Largest {
                difference,
                day: Some(*day),
            };
        }
    }

    pub(super) fn print(&self, what: &str) {
        println!(
            "largest difference {what}: {:.6} of 0.0001 inch",
            self.difference
        );
        if let Some(day) = &self.day {
            println!("  {day:?}");
        }
    }
}

/// A day with a figure that its station's own limit enters.
pub(super) const LIMITED: &str = "answered with a wind run cut by a limit below the routine's";

/// How often a refusal was given for one of its reasons alone, by the reason.
#[derive(Default)]
pub(super) struct ByOneReason(BTreeMap<&'static str, u64>);

impl ByOneReason {
    pub(super) fn count<Of>(&mut self, reasons: &[Reason<Of>], of: &Of) {
        let holding: Vec<_> = reasons.iter().filter(|(_, holds)| holds(of)).collect();
        if let [(reason, _)] = holding[..] {
            *self.0.entry(reason).or_default() += 1;
        }
    }

    /// Each of the reasons, those that were not met too.
    pub(super) fn met<Of>(&self, reasons: &[Reason<Of>]) -> Vec<(&'static str, u64)> {
        let met = |reason| self.0.get(reason).copied().unwrap_or_default();
        let names = reasons.iter().map(|(reason, _)| *reason);
        names.map(|reason| (reason, met(reason))).collect()
    }
}
