//! The report of a log as text, as scope document 01 lays it out, with the lines of W1's crop figures, W4's mark and the
//! lines of W5's totals.
use super::log::{answers, Answer};
use super::totals::{self, Total};
use crate::Verdict;

fn inches(figure: impl Into<u64>) -> String {
    let figure = figure.into();
    format!("{}.{:04}", figure / 10_000, figure % 10_000)
}

fn shown(verdict: &Verdict) -> String {
    match verdict {
        Verdict::Figure(figure) => inches(*figure),
        Verdict::Refused(number) => format!("R{number}"),
        Verdict::Estimated(figure) => format!("{} E", inches(*figure)),
    }
}

fn letters(code: &[u8]) -> String {
    String::from_utf8_lossy(code).into_owned()
}

/// The one line of a log that is refused, or whose answers do not fit their buffer.
pub fn refused_line(number: u32, value: usize) -> String {
    format!("REFUSED {number} {value}\n")
}

/// The line of an answer in this station's block; its own answer has none.
pub(super) fn answer_line(station: &str, answer: &Answer) -> Option<String> {
    match answer {
        Answer::Station(_) => None,
        Answer::Day { year, d, verdict } => {
            Some(format!("{station} {year:04} {d:03} {}\n", shown(verdict)))
        }
        Answer::Crop { code, figure } => Some(format!("{} {}\n", letters(code), inches(*figure))),
    }
}

/// The lines of a block's months, in date order, and the season's.
fn total_lines(station: &str, block: &[Answer]) -> String {
    let shown = |total: &Total| format!("{} {}", total.days, inches(total.sum));
    let months = totals::months(block);
    let mut text = String::new();
    for ((year, month), total) in &months {
        text += &format!("{station} {year:04} {month:02} {}\n", shown(total));
    }
    text + &format!("{station} ALL {}\n", shown(&totals::season(&months)))
}

/// The lines of a station's answer and those up to the next station's: each answer's, then those of the totals.
fn block_lines(block: &[Answer]) -> String {
    let [Answer::Station(code), ..] = block else {
        panic!("a block begins with its station's answer");
    };
    let station = letters(code);
    let of_answers = block
        .iter()
        .filter_map(|answer| answer_line(&station, answer));
    of_answers.collect::<String>() + &total_lines(&station, block)
}

/// The report of a log with room for all its answers.
pub fn report(log: &[u8]) -> String {
    let answers = match answers(log) {
        Err((number, offset)) => return refused_line(number, offset),
        Ok(answers) => answers,
    };
    let blocks = answers.chunk_by(|_, next| !matches!(next, Answer::Station(_)));
    let lines: String = blocks.map(block_lines).collect();
    format!("STN YEAR DAY ET\n{lines}")
}

#[cfg(test)]
mod tests {
    use super::*;
    use crate::days::{
        answered_log, crop_record, day_record, monthly_log, sound_log, without_dew_point, Random,
    };
    use crate::second::answer_bytes;
    use crate::{Crop, Day, MISSING};

    const WORKED: &[u8] = b"\x01LIDW\x00\x9a\x06\xe0\x02\x66\xfe\x74\x02\x4e\x00\x64\x01\xf1\
        \x02\x07\xd8\x00\x0a\x00\xc8\x00\xc8\x00\xc8\x00\xc8\x00\x00\x80\x00\
        \x02\x07\xd8\x00\x0b\x00\xc8\x00\xc8\x00\xc8\x00\xc8\x00\x00\x80\x00\
        \x02\x07\xd8\x00\x0c\x01\x40\x01\x40\x01\x40\x01\x40\x00\x00\x00\x00";

    /// A mild day. With one mean for all days no soil heat enters, so that each has its figure whatever came before.
    fn on(year: u16, d: u16) -> Day {
        Day {
            year,
            d,
            maximum: 600,
            minimum: 300,
            mean: 450,
            dewpoint: 250,
            radiation: 1_000,
            wind: 1_200,
        }
    }

    fn refused(year: u16, d: u16) -> Day {
        Day {
            wind: MISSING,
            ..on(year, d)
        }
    }

    /// The worked log's station under this code, and days.
    fn block(code: &[u8; 4], days: &[Day]) -> Vec<u8> {
        let records = days.iter().flat_map(day_record);
        let mut log: Vec<u8> = WORKED[..19].iter().copied().chain(records).collect();
        log[1..5].copy_from_slice(code);
        log
    }

    /// The lines after the header.
    fn lines(log: &[u8]) -> Vec<String> {
        let text = report(log);
        let lines = text.strip_prefix("STN YEAR DAY ET\n");
        lines.expect("a header").lines().map(String::from).collect()
    }

    #[test]
    fn the_worked_log() {
        assert_eq!(
            report(WORKED),
            "STN YEAR DAY ET\nLIDW 2008 010 R7\nLIDW 2008 011 R7\nLIDW 2008 012 0.0000\n\
             LIDW 2008 01 1 0.0000\nLIDW ALL 1 0.0000\n"
        );
    }

    #[test]
    fn a_crop_figure_has_a_line_of_its_own() {
        let crop = b"\x06BEAN\x07\xd8\x00\x0a\x00\x14\x32\x32\x32\x32\x32\x32\x32\x32\x32\x32\x32";
        let weather = [700u16, 500, 600, 400, 1_500, 1_000].map(u16::to_be_bytes);
        let log = [&WORKED[..19], crop, &WORKED[53..58], &weather.concat()].concat();
        assert_eq!(
            report(&log),
            "STN YEAR DAY ET\nLIDW 2008 012 0.0599\nBEAN 0.0300\n\
             LIDW 2008 01 1 0.0599\nLIDW ALL 1 0.0599\n"
        );
    }

    #[test]
    fn a_day_without_a_dew_point_has_a_mark() {
        let mut log = WORKED.to_vec();
        log[64..66].copy_from_slice(b"\x80\x00");
        assert_eq!(
            report(&log),
            "STN YEAR DAY ET\nLIDW 2008 010 R7\nLIDW 2008 011 R7\nLIDW 2008 012 0.0000 E\n\
             LIDW 2008 01 1 0.0000\nLIDW ALL 1 0.0000\n"
        );
        assert_eq!(shown(&Verdict::Estimated(123_045)), "12.3045 E");
    }

    #[test]
    fn a_leap_years_end() {
        let days = [
            (2008, 335),
            (2008, 336),
            (2008, 365),
            (2008, 366),
            (2009, 1),
        ];
        let log = block(b"LIDW", &days.map(|(year, d)| on(year, d)));
        let expected = [
            "LIDW 2008 335 0.0676",
            "LIDW 2008 336 0.0671",
            "LIDW 2008 365 0.0650",
            "LIDW 2008 366 0.0653",
            "LIDW 2009 001 0.0572",
            "LIDW 2008 11 1 0.0676",
            "LIDW 2008 12 3 0.1974",
            "LIDW 2009 01 1 0.0572",
            "LIDW ALL 5 0.3222",
        ];
        assert_eq!(lines(&log), expected);
    }

    #[test]
    fn february_of_a_common_year_and_of_a_leap_year() {
        let days = [
            (2007, 31),
            (2007, 32),
            (2007, 59),
            (2007, 60),
            (2008, 59),
            (2008, 60),
            (2008, 61),
        ];
        let log = block(b"LIDW", &days.map(|(year, d)| on(year, d)));
        let expected = [
            "LIDW 2007 031 0.0686",
            "LIDW 2007 032 0.0689",
            "LIDW 2007 059 0.0762",
            "LIDW 2007 060 0.0765",
            "LIDW 2008 059 0.0762",
            "LIDW 2008 060 0.0765",
            "LIDW 2008 061 0.0767",
            "LIDW 2007 01 1 0.0686",
            "LIDW 2007 02 2 0.1451",
            "LIDW 2007 03 1 0.0765",
            "LIDW 2008 02 2 0.1527",
            "LIDW 2008 03 1 0.0767",
            "LIDW ALL 7 0.5196",
        ];
        assert_eq!(lines(&log), expected);
    }

    #[test]
    fn a_block_without_an_answered_day() {
        let zeros = "LIDW ALL 0 0.0000";
        assert_eq!(lines(&block(b"LIDW", &[])), [zeros]);
        let log = block(b"LIDW", &[refused(2008, 10), on(2007, 366)]);
        let expected = ["LIDW 2008 010 R7", "LIDW 2007 366 R6", zeros];
        assert_eq!(lines(&log), expected);
    }

    #[test]
    fn a_block_has_its_own_totals() {
        let days = [on(2008, 31), on(2008, 32)];
        let log = [
            block(b"LIDW", &days),
            block(b"HIGH", &days[1..]),
            block(b"NONE", &[]),
            block(b"LIDW", &days[1..]),
        ]
        .concat();
        let expected = [
            "LIDW 2008 031 0.0686",
            "LIDW 2008 032 0.0689",
            "LIDW 2008 01 1 0.0686",
            "LIDW 2008 02 1 0.0689",
            "LIDW ALL 2 0.1375",
            "HIGH 2008 032 0.0689",
            "HIGH 2008 02 1 0.0689",
            "HIGH ALL 1 0.0689",
            "NONE ALL 0 0.0000",
            "LIDW 2008 032 0.0689",
            "LIDW 2008 02 1 0.0689",
            "LIDW ALL 1 0.0689",
        ];
        assert_eq!(lines(&log), expected);
    }

    #[test]
    fn an_estimated_day_counts_and_a_refused_one_and_a_crop_figure_do_not() {
        let crop = Crop {
            code: *b"BEAN",
            year: 2008,
            start: 120,
            full: 130,
            percentages: [200; 11],
        };
        let days = [
            on(2008, 120),
            refused(2008, 121),
            without_dew_point(on(2008, 122)),
            on(2008, 122),
        ];
        let mut log = block(b"LIDW", &days);
        log.splice(19..19, crop_record(&crop));
        let expected = [
            "LIDW 2008 120 0.1040",
            "BEAN 0.2080",
            "LIDW 2008 121 R7",
            "LIDW 2008 122 0.0933 E",
            "BEAN 0.1866",
            "LIDW 2008 122 R6",
            "LIDW 2008 04 1 0.1040",
            "LIDW 2008 05 1 0.0933",
            "LIDW ALL 2 0.1973",
        ];
        assert_eq!(lines(&log), expected);
    }

    #[test]
    fn a_month_of_over_ten_inches() {
        let hot = |d| Day {
            maximum: 1_050,
            mean: 800,
            radiation: 6_500,
            ..on(2008, d)
        };
        let days: Vec<Day> = (183..=213).map(hot).collect();
        let lines = lines(&block(b"LIDW", &days));
        let expected = ["LIDW 2008 07 31 14.1196", "LIDW ALL 31 14.1196"];
        assert_eq!(lines[31..], expected);
    }

    #[test]
    fn the_sample_of_months() {
        let expected = [
            "LIDW 2007 362 0.0134",
            "LIDW 2007 363 0.0151",
            "LIDW 2007 364 0.0176",
            "LIDW 2007 365 0.0179",
            "LIDW 2008 001 0.0113",
            "LIDW 2008 002 0.0110",
            "LIDW 2008 003 R7",
            "LIDW 2008 058 0.0585",
            "LIDW 2008 059 0.0637",
            "WHEA 0.0191",
            "LIDW 2008 060 0.0562 E",
            "WHEA 0.0171",
            "LIDW 2008 061 0.0571",
            "WHEA 0.0175",
            "LIDW 2008 062 0.0683",
            "WHEA 0.0212",
            "LIDW 2007 12 4 0.0640",
            "LIDW 2008 01 2 0.0223",
            "LIDW 2008 02 3 0.1784",
            "LIDW 2008 03 2 0.1254",
            "LIDW ALL 11 0.3901",
            "HIGH 2008 059 R7",
            "HIGH 2008 060 R7",
            "HIGH ALL 0 0.0000",
        ];
        let log = include_bytes!("../../../samples/months.log");
        assert_eq!(lines(log), expected);
    }

    #[test]
    fn a_season_is_what_the_months_and_the_days_above_it_say() {
        let number = |digits: &str| -> u64 { digits.parse().expect("digits") };
        let figure = |inches: &str| number(&inches.replace('.', ""));
        let mut random = Random::new(5);
        for _ in 0..200 {
            let (mut of_days, mut of_months) = ((0, 0), (0, 0));
            for line in lines(&sound_log(&mut random, 60)) {
                match line.split(' ').collect::<Vec<_>>()[..] {
                    [_, "ALL", days, sum] => {
                        let season = (number(days), figure(sum));
                        assert_eq!((of_days, of_months), (season, season));
                        (of_days, of_months) = ((0, 0), (0, 0));
                    }
                    // A day's line with the mark has five fields too, but three digits for the day.
                    [_, _, month, days, sum] if month.len() == 2 => {
                        of_months.0 += number(days);
                        of_months.1 += figure(sum);
                    }
                    [_, _, _, inches, ..] if !inches.starts_with('R') => {
                        of_days.0 += 1;
                        of_days.1 += figure(inches);
                    }
                    _ => {}
                }
            }
            assert_eq!((of_days, of_months), ((0, 0), (0, 0)));
        }
    }

    #[test]
    fn the_header_alone_and_a_refused_log() {
        assert_eq!(report(&[]), "STN YEAR DAY ET\n");
        assert_eq!(report(&WORKED[..69]), "REFUSED 2 53\n");
        assert_eq!(refused_line(12, 32), "REFUSED 12 32\n");
    }

    /// The lengths of a log, its answers and its report.
    fn lengths(log: &[u8]) -> [usize; 3] {
        let answers = answer_bytes(log).expect("no fault");
        [log.len(), answers.len(), report(log).len()]
    }

    #[test]
    fn the_longest_answers_and_the_longest_report() {
        let of_days = answered_log(&mut Random::new(4));
        assert_eq!(lengths(&of_days), [65_524, 69_107, 137_326]);
        let of_months = monthly_log(&mut Random::new(4));
        assert_eq!(lengths(&of_months), [65_527, 62_596, 198_253]);
    }

    #[test]
    fn long_and_short_numbers() {
        let mut log = WORKED[..36].to_vec();
        log[20..24].copy_from_slice(&[0, 7, 0xFF, 0xFF]);
        assert_eq!(lines(&log), ["LIDW 0007 65535 R6", "LIDW ALL 0 0.0000"]);
        assert_eq!(shown(&Verdict::Figure(123_045)), "12.3045");
        assert_eq!(inches(42_949_672_950_000u64), "4294967295.0000");
    }
}
