//! What the lines of totals in reports were about: which months and which days of them, and how a block's months stood.
use crate::second::calendar;
use std::collections::BTreeSet;

/// The years and months of a block's month lines, in order.
type Months = Vec<(u16, u16)>;

/// Whether the months of a log's blocks stand to each other in some way.
type StandSo = fn(&[Months]) -> bool;

/// The ways that the report must have been compared in.
const MONTH_STANDINGS: [(&str, StandSo); 4] = [
    ("no answered day in a block", |blocks| {
        blocks.iter().any(Vec::is_empty)
    }),
    ("December and the next January in a block", |blocks| {
        blocks.iter().any(|months| {
            let mut neighbours = months.windows(2);
            neighbours.any(|two| (two[0].1, two[1]) == (12, (two[0].0 + 1, 1)))
        })
    }),
    ("one month of two years in a block", |blocks| {
        blocks.iter().any(|months| {
            let of_year: BTreeSet<u16> = months.iter().map(|(_, month)| *month).collect();
            of_year.len() < months.len()
        })
    }),
    ("a block's last month first in the next block", |blocks| {
        let mut neighbours = blocks.windows(2);
        neighbours.any(|two| !two[0].is_empty() && two[0].last() == two[1].first())
    }),
];

const KINDS_OF_YEARS: [&str; 2] = ["common", "leap"];

/// What the totals of reports were about.
#[derive(Default)]
pub(super) struct MonthTally {
    months: u64,
    seasons: u64,
    /// For each kind of year and each month, how often its first day was answered, and its last.
    ends: [[[u64; 2]; 12]; KINDS_OF_YEARS.len()],
    /// The reports of each standing.
    standings: [u64; MONTH_STANDINGS.len()],
}

impl MonthTally {
    /// A report of the second implementation that was found to be the library's or the program's.
    pub(super) fn count(&mut self, report: &str) {
        let number = |digits: &str| -> u16 { digits.parse().expect("digits") };
        let mut blocks: Vec<Months> = Vec::new();
        let mut months = Months::new();
        for line in report.lines().skip(1) {
            match line.split(' ').collect::<Vec<_>>()[..] {
                [_, "ALL", _, _] => blocks.push(std::mem::take(&mut months)),
                // A day's line with W4's mark has five fields too, but three digits for its day.
                [_, year, month, _, _] if month.len() == 2 => {
                    months.push((number(year), number(month)));
                }
                [_, year, d, inches, ..] if !inches.starts_with('R') => {
                    self.count_day(number(year), number(d));
                }
                _ => {}
            }
        }
        self.seasons += blocks.len() as u64;
        self.months += blocks.iter().map(|months| months.len() as u64).sum::<u64>();
        for (met, (_, holds)) in self.standings.iter_mut().zip(MONTH_STANDINGS) {
            *met += u64::from(holds(&blocks));
        }
    }

    fn count_day(&mut self, year: u16, d: u16) {
        let (month, day) = calendar::month_and_day(year, d);
        let place = usize::from(month) - 1;
        let [first, last] = &mut self.ends[usize::from(calendar::is_leap(year))][place];
        *first += u64::from(day == 1);
        *last += u64::from(day == calendar::month_lengths(year)[place]);
    }

    pub(super) fn print(&self) {
        println!(
            "  lines of months: {}, of seasons: {}",
            self.months, self.seasons
        );
        for (years, by_month) in KINDS_OF_YEARS.iter().zip(&self.ends) {
            let least = by_month.iter().flatten().min();
            println!(
                "  each month's first day and last day answered in {years} years: at least {} times",
                least.expect("a year has months")
            );
        }
        for ((standing, _), met) in MONTH_STANDINGS.iter().zip(self.standings) {
            println!("  {standing}: {met} reports");
        }
    }

    pub(super) fn all_reached(&self, of: &str) -> Result<(), String> {
        for (years, by_month) in KINDS_OF_YEARS.iter().zip(&self.ends) {
            for (month, [first, last]) in (1..).zip(by_month) {
                if *first == 0 || *last == 0 {
                    return Err(format!(
                        "no report {of} had the first or the last day of month {month} in {years} years"
                    ));
                }
            }
        }
        for ((standing, _), met) in MONTH_STANDINGS.iter().zip(self.standings) {
            if met == 0 {
                return Err(format!("no report {of} had {standing}"));
            }
        }
        Ok(())
    }
}
