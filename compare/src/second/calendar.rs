//! The calendar of scope document 01: which dates there are, and the number of a date among all of them; and W5's months.

pub fn is_leap(year: u16) -> bool {
    year.is_multiple_of(4) && (!year.is_multiple_of(100) || year.is_multiple_of(400))
}

fn days_in(year: u16) -> u16 {
    if is_leap(year) {
        366
    } else {
        365
    }
}

/// The days from the beginning of 1950 up to this date, or none if the calendar has no such date.
pub fn number(year: u16, d: u16) -> Option<i32> {
    if !(1950..=2099).contains(&year) || !(1..=days_in(year)).contains(&d) {
        return None;
    }
    let years_before: i32 = (1950..year).map(|year| i32::from(days_in(year))).sum();
    Some(years_before + i32::from(d))
}

/// The days that each month of a year has.
pub fn month_lengths(year: u16) -> [u16; 12] {
    let february = if is_leap(year) { 29 } else { 28 };
    [31, february, 31, 30, 31, 30, 31, 31, 30, 31, 30, 31]
}

/// The month of a date that the calendar has, and its day of the month, both from 1: each month that is over takes its
/// length off.
pub fn month_and_day(year: u16, d: u16) -> (u16, u16) {
    let mut day = d;
    for (month, length) in (1..).zip(month_lengths(year)) {
        if day <= length {
            return (month, day);
        }
        day -= length;
    }
    panic!("{year} has no day {d}");
}

#[cfg(test)]
mod tests {
    use super::*;

    #[test]
    fn the_calendar_has_no_gap_and_ends_with_2099() {
        let all: Vec<i32> = (0..=u16::MAX)
            .flat_map(|year| (0..=367).filter_map(move |d| number(year, d)))
            .collect();
        assert!(all.iter().copied().eq(1..=150 * 365 + 37));
    }

    #[test]
    fn day_366_only_in_leap_years() {
        assert!(number(2000, 366).is_some() && number(2008, 366).is_some());
        assert!(number(2007, 366).is_none() && number(2100, 1).is_none());
    }

    /// The days before each month and before the next year, as source document 000 lists them.
    const BEFORE: [u16; 13] = [0, 31, 59, 90, 120, 151, 181, 212, 243, 273, 304, 334, 365];

    #[test]
    fn the_months_are_those_of_the_list() {
        for year in 1_950..=2_099 {
            let mut before = BEFORE;
            for from_march in &mut before[2..] {
                *from_march += u16::from(is_leap(year));
            }
            for (month, ends) in (1..).zip(before.windows(2)) {
                for (day, d) in (1..).zip(ends[0] + 1..=ends[1]) {
                    assert_eq!(month_and_day(year, d), (month, day));
                }
            }
            assert_eq!(before[12], days_in(year));
        }
    }

    #[test]
    fn the_end_of_february() {
        let about = |year| [59, 60, 61].map(|d| month_and_day(year, d));
        assert_eq!(about(2008), [(2, 28), (2, 29), (3, 1)]);
        assert_eq!(about(2000), about(2008));
        assert_eq!(about(2007), [(2, 28), (3, 1), (3, 2)]);
    }

    #[test]
    fn the_ends_of_the_year() {
        assert_eq!(month_and_day(2007, 1), (1, 1));
        assert_eq!(month_and_day(2007, 365), (12, 31));
        assert_eq!(month_and_day(2008, 365), (12, 30));
        assert_eq!(month_and_day(2008, 366), (12, 31));
    }

    #[test]
    #[should_panic(expected = "2007 has no day 366")]
    fn a_date_that_is_none_has_no_month() {
        month_and_day(2007, 366);
    }
}
