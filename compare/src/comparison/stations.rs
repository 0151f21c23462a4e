//! What the stations of logs were: their kinds, the reasons they were refused for, and the days that their limits entered.
use super::tally::{ByOneReason, LIMITED};
use crate::second::{self, log::Judged, station};

/// The kinds of station records.
pub(super) const STATION_KINDS: [u8; 2] = [1, 8];

#[derive(Default)]
pub(super) struct StationTally {
    /// The stations of accepted logs, by their kinds, and those of them that end a crop.
    kinds: [u64; STATION_KINDS.len()],
    pub(super) behind_crop: [u64; STATION_KINDS.len()],
    /// The logs that were refused with 3.
    pub(super) refused: ByOneReason,
    /// The days that are `LIMITED`.
    pub(super) limited: u64,
}

impl StationTally {
    pub(super) fn count(&mut self, log: &[u8]) {
        for opening in second::log::openings(log).expect("the log is accepted") {
            let kind = STATION_KINDS.iter().position(|kind| *kind == opening.kind);
            let kind = kind.expect("a station's kind");
            self.kinds[kind] += 1;
            self.behind_crop[kind] += u64::from(opening.behind_crop);
        }
    }

    pub(super) fn count_refused(&mut self, record: &[u8]) {
        let station = second::log::station(record[0], &record[1..]);
        self.refused.count(&station::REASONS, &station);
    }

    pub(super) fn count_day(&mut self, judged: &Judged) {
        let answered = judged.verdict.figure().is_some();
        self.limited += u64::from(answered && judged.station.limits(&judged.day));
    }

    pub(super) fn print(&self) {
        for ((kind, met), behind) in STATION_KINDS.iter().zip(self.kinds).zip(self.behind_crop) {
            println!("  stations of kind {kind} in accepted logs: {met}, behind a crop {behind}");
        }
        for (reason, met) in self.refused.met(&station::REASONS) {
            println!("  refusal 3 for {reason} alone: {met} logs");
        }
        println!("  {LIMITED}: {} days", self.limited);
    }
}
