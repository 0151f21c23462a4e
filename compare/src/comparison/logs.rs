//! Logs: what the library returns for each and every byte of each answer buffer, against the second implementation; the reports
//! and the tallies of what the logs were about stand in modules of their own.
use super::crops::{has_estimated_crop, CropTally};
use super::dew_points::DewPointTally;
use super::lent::Lent;
use super::months::MonthTally;
use super::reports::{Read, ReportTally};
use super::stations::StationTally;
use super::{in_hex, Size, LONGEST_LOG};
use crate::days::{self, Random};
use crate::{office, second, Outcome, Verdict};
use std::collections::BTreeSet;

#[derive(Default)]
pub(super) struct LogTally {
    logs: u64,
    accepted: u64,
    calls: u64,
    pub(super) refused: [u64; 14],
    /// The logs for which a buffer had room for all but the crop figures of estimated days, as was enough before W4.
    pub(super) too_short_since_estimates: u64,
    days: u64,
    pub(super) days_refused: [u64; 13],
    pub(super) dew_points: DewPointTally,
    pub(super) stations: StationTally,
    pub(super) crops: CropTally,
    pub(super) months: MonthTally,
    pub(super) reports: ReportTally,
}

impl LogTally {
    fn check(&mut self, log: &[u8]) -> Result<(), String> {
        let answers = second::answer_bytes(log);
        let report = second::report(log);
        self.logs += 1;
        let needed = match &answers {
            Ok(answers) => {
                self.accepted += 1;
                self.stations.count(log);
                answers.len()
            }
            Err((number, offset)) => {
                self.refused[*number as usize] += 1;
                match *number {
                    3 => self.stations.count_refused(&log[*offset..]),
                    13 => self.crops.count_refused(&log[*offset..]),
                    _ => {}
                }
                0
            }
        };
        let judged = second::log::judged(log).unwrap_or_default();
        let of_estimated = judged.iter().filter(|judged| has_estimated_crop(judged));
        let before_estimates = needed - 9 * of_estimated.count();
        self.too_short_since_estimates += u64::from(before_estimates < needed);
        // A day's answers have at most one byte more than its record, so the last length is always more than is needed.
        for length in BTreeSet::from([
            0,
            before_estimates,
            needed.saturating_sub(1),
            needed,
            needed + 1,
            log.len() + log.len() / 17 + 5,
        ]) {
            for turned in [false, true] {
                self.check_buffer(log, &answers, length, turned)
                    .and_then(|read| self.reports.check(log, &report, length, turned, &read))
                    .map_err(|difference| {
                        format!("answer buffer of {length}: {difference}\n{}", in_hex(log))
                    })?;
            }
        }
        // The library's answers are these days' answers, as they were found to be the same.
        for judged in &judged {
            self.days += 1;
            if let Verdict::Refused(number) = judged.verdict {
                self.days_refused[number as usize] += 1;
            }
            self.dew_points.count(&judged.day, judged.verdict);
            self.stations.count_day(judged);
            self.crops.check(judged)?;
        }
        self.months.count(&report);
        Ok(())
    }

    fn check_buffer(
        &mut self,
        log: &[u8],
        answers: &Result<Vec<u8>, second::log::Fault>,
        length: usize,
        turned: bool,
    ) -> Result<Read, String> {
        let mut buffer = Lent::new(turned, length);
        let mut expected_buffer = buffer.clone();
        let outcome = office::read_log(log, buffer.lend());
        let expected = second::write(answers, expected_buffer.lend());
        if outcome != expected {
            return Err(format!(
                "{outcome:?}, the second implementation {expected:?}"
            ));
        }
        buffer.same_as(&expected_buffer)?;
        self.refused[12] += u64::from(matches!(outcome, Outcome::Refused(12, _)));
        self.calls += 1;
        Ok(Read { outcome, buffer })
    }

    pub(super) fn print(&self) {
        println!(
            "logs: {}, accepted {}, read into {} buffers",
            self.logs, self.accepted, self.calls
        );
        for number in [1, 2, 3, 4, 5, 13] {
            println!("  refusal {number}: {} logs", self.refused[number]);
        }
        println!(
            "  refusal 12: {} buffers, in {} logs one that was long enough before days were estimated",
            self.refused[12], self.too_short_since_estimates
        );
        println!("  days in accepted logs: {}", self.days);
        for number in [6, 7, 8, 9, 10] {
            println!("  refusal {number}: {} days", self.days_refused[number]);
        }
        self.dew_points.print("answers of kind 9");
        self.stations.print();
        self.crops.print();
        self.months.print();
        self.reports.print();
    }
}

/// The longest log, one byte less and more, far too long ones, faults at the far end, the longest answers and the longest
/// report.
pub(super) fn full_logs(random: &mut Random) -> Vec<Vec<u8>> {
    let answered = days::answered_log(random);
    let monthly = days::monthly_log(random);
    let mut made = |length| days::log_of_length(random, length).expect("records fill it");
    let full = made(LONGEST_LOG);
    let mut logs = vec![
        made(LONGEST_LOG - 1),
        full[..LONGEST_LOG - 1].to_vec(),
        vec![0; LONGEST_LOG + 1],
        vec![1; 140_000],
    ];
    for after in [0, 1, 2, 6, 8, 9, 255] {
        logs.push([&full[..], &[after]].concat());
        logs.push([&full[..LONGEST_LOG - 17], &[after]].concat());
    }
    logs.push([&full[..], &full[..]].concat());
    logs.push(full);
    logs.push(answered);
    logs.push(monthly);
    logs
}

pub(super) fn compare_logs(size: &Size) -> Result<LogTally, String> {
    let mut random = Random::new(2);
    let mut tally = LogTally::default();
    tally.check(&[])?;
    for _ in 0..size.cut_logs {
        let log = days::sound_log(&mut random, 24);
        for end in 0..=log.len() {
            tally.check(&log[..end])?;
        }
    }
    for _ in 0..size.full_logs {
        for log in full_logs(&mut random) {
            tally.check(&log)?;
        }
    }
    for _ in 0..size.edges {
        for log in days::crop_edges(&mut random) {
            tally.check(&log)?;
        }
        for log in days::station_edges(&mut random) {
            tally.check(&log)?;
        }
        for log in days::dew_point_logs(&mut random) {
            tally.check(&log)?;
        }
        for log in days::month_edges(&mut random) {
            tally.check(&log)?;
        }
    }
    while tally.logs < size.logs {
        let most = if random.one_in(100) { 1_000 } else { 60 };
        let log = days::sound_log(&mut random, most);
        tally.check(&log)?;
        tally.check(&days::damaged(&mut random, log))?;
        tally.check(&days::loose_bytes(&mut random, 200))?;
    }
    Ok(tally)
}
