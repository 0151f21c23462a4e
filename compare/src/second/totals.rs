//! W5's totals of a block: how many days it answered and the sum of their figures, by month and in all.
use super::calendar;
use super::log::Answer;
use std::collections::BTreeMap;

/// Answered days, and the sum of their figures in 0.0001 inch.
#[derive(Clone, Copy, Debug, Default, PartialEq, Eq)]
pub struct Total {
    pub days: u64,
    pub sum: u64,
}

impl Total {
    fn of_day(figure: u32) -> Self {
        Total {
            days: 1,
            sum: figure.into(),
        }
    }

    fn add(&mut self, other: Total) {
        self.days += other.days;
        self.sum += other.sum;
    }
}

/// The total of each month with an answered day, by year and month: a refused day and a crop figure add nothing.
pub fn months(block: &[Answer]) -> BTreeMap<(u16, u16), Total> {
    let mut months: BTreeMap<_, Total> = BTreeMap::new();
    for answer in block {
        let Answer::Day { year, d, verdict } = answer else {
            continue;
        };
        if let Some(figure) = verdict.figure() {
            let (month, _) = calendar::month_and_day(*year, *d);
            let total = months.entry((*year, month)).or_default();
            total.add(Total::of_day(figure));
        }
    }
    months
}

/// The months added.
pub fn season(months: &BTreeMap<(u16, u16), Total>) -> Total {
    let mut season = Total::default();
    for month in months.values() {
        season.add(*month);
    }
    season
}

#[cfg(test)]
mod tests {
    use super::*;
    use crate::Verdict;

    fn day(year: u16, d: u16, verdict: Verdict) -> Answer {
        Answer::Day { year, d, verdict }
    }

    #[test]
    fn the_sums_are_those_of_the_answered_days() {
        let block = [
            Answer::Station(*b"LIDW"),
            day(2008, 31, Verdict::Figure(1_000)),
            day(2008, 32, Verdict::Refused(7)),
            day(2008, 59, Verdict::Estimated(200)),
            Answer::Crop {
                code: *b"BEAN",
                figure: 400,
            },
            day(2008, 60, Verdict::Figure(30)),
            day(2008, 61, Verdict::Refused(10)),
            day(2009, 32, Verdict::Figure(5)),
        ];
        let months = months(&block);
        let total = |days, sum| Total { days, sum };
        let expected = [
            ((2008, 1), total(1, 1_000)),
            ((2008, 2), total(2, 230)),
            ((2009, 2), total(1, 5)),
        ];
        assert!(months.clone().into_iter().eq(expected));
        assert_eq!(season(&months), total(4, 1_235));
    }

    #[test]
    fn a_sum_above_thirty_two_bits() {
        let block = [1, 2].map(|d| day(2007, d, Verdict::Figure(u32::MAX)));
        let total = Total {
            days: 2,
            sum: 8_589_934_590,
        };
        assert_eq!(season(&months(&block)), total);
    }

    #[test]
    fn a_refused_date_needs_no_month() {
        let block = [day(7, 65_535, Verdict::Refused(6))];
        assert!(months(&block).is_empty());
        assert_eq!(season(&months(&block)), Total { days: 0, sum: 0 });
    }
}
