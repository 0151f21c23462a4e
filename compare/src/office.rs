//! The proved library's four functions, safe to call: their contracts ask nothing of the numbers, and slices give the pointers.
use crate::{Day, Earlier, Outcome, Station, Verdict};

// The declarations of crates/exports/fuortwem.h, its parameter names too.
extern "C" {
    fn fuortwem_version() -> u32;

    fn fuortwem_judge(
        first: u8,
        second: u8,
        third: u8,
        fourth: u8,
        c1: i16,
        c2: i16,
        c3: i16,
        c4: i16,
        c5: i16,
        clear_minimum: u16,
        elevation: u16,
        wind_limit: u16,
        year: u16,
        d: u16,
        maximum: i16,
        minimum: i16,
        mean: i16,
        dewpoint: i16,
        radiation: i16,
        wind: i16,
        has_one: u8,
        one: i16,
        has_two: u8,
        two: i16,
        has_three: u8,
        three: i16,
    ) -> u64;

    fn fuortwem_read_log(
        log: *const u8,
        log_length: usize,
        answers: *mut u8,
        answers_length: usize,
    ) -> u64;

    fn fuortwem_report(
        log: *const u8,
        log_length: usize,
        answers: *mut u8,
        answers_length: usize,
        text: *mut u8,
        text_length: usize,
    ) -> u64;
}

/// The library's version.
pub fn version() -> u32 {
    // SAFETY: the function takes nothing.
    unsafe { fuortwem_version() }
}

/// In a verdict's high half, the mark of an estimated figure. No refusal has this number.
pub const ESTIMATED: u32 = 256;

/// The refusal's number in the high half (0 for none) and the value in the low half.
#[inline]
fn halves(returned: u64) -> (u32, u32) {
    ((returned >> 32) as u32, returned as u32)
}

/// A day as the library takes it: the numbers of its fields.
#[derive(Clone, Copy)]
pub struct Handed {
    code: [u8; 4],
    c: [i16; 5],
    clear_minimum: u16,
    elevation: u16,
    wind_limit: u16,
    year: u16,
    d: u16,
    readings: [i16; 6],
    has: [u8; 3],
    means: [i16; 3],
}

impl Handed {
    pub fn new(station: &Station, day: &Day, earlier: &Earlier) -> Self {
        Handed {
            code: station.code,
            c: station.c,
            clear_minimum: station.minimum,
            elevation: station.elevation,
            wind_limit: station.wind_limit,
            year: day.year,
            d: day.d,
            readings: [
                day.maximum,
                day.minimum,
                day.mean,
                day.dewpoint,
                day.radiation,
                day.wind,
            ],
            has: earlier.map(|mean| mean.is_some().into()),
            means: earlier.map(|mean| mean.unwrap_or(0)),
        }
    }

    /// The verdict in one number, as the library returns it.
    #[inline]
    pub fn judged(&self) -> u64 {
        let [first, second, third, fourth] = self.code;
        let [c1, c2, c3, c4, c5] = self.c;
        let [maximum, minimum, mean, dewpoint, radiation, wind] = self.readings;
        let [has_one, has_two, has_three] = self.has;
        let [one, two, three] = self.means;
        // SAFETY: the function has no pointers, and its contract asks nothing of its numbers.
        unsafe {
            fuortwem_judge(
                first,
                second,
                third,
                fourth,
                c1,
                c2,
                c3,
                c4,
                c5,
                self.clear_minimum,
                self.elevation,
                self.wind_limit,
                self.year,
                self.d,
                maximum,
                minimum,
                mean,
                dewpoint,
                radiation,
                wind,
                has_one,
                one,
                has_two,
                two,
                has_three,
                three,
            )
        }
    }
}

/// A day handed in alone.
#[inline]
pub fn judge(station: &Station, day: &Day, earlier: &Earlier) -> Verdict {
    match halves(Handed::new(station, day, earlier).judged()) {
        (0, figure) => Verdict::Figure(figure),
        (ESTIMATED, figure) => Verdict::Estimated(figure),
        (number, _) => Verdict::Refused(number),
    }
}

fn outcome(returned: u64) -> Outcome {
    match halves(returned) {
        (0, length) => Outcome::Written(length as usize),
        (number, place) => Outcome::Refused(number, place as usize),
    }
}

/// A log read to its end or refused.
#[inline]
pub fn read_log(log: &[u8], answers: &mut [u8]) -> Outcome {
    // SAFETY: a slice's pointer is not null, even where it is empty; the log may be read for its length and the answers read
    // and written for theirs during the call, and what is borrowed for writing overlaps nothing. The contract asks no more.
    let returned =
        unsafe { fuortwem_read_log(log.as_ptr(), log.len(), answers.as_mut_ptr(), answers.len()) };
    outcome(returned)
}

/// A log's report: the length of the text, or 12 with the length that the text buffer needs.
#[inline]
pub fn report(log: &[u8], answers: &mut [u8], text: &mut [u8]) -> Outcome {
    // SAFETY: as for `read_log`; the text is borrowed for writing too, so that no two of the three overlap.
    let returned = unsafe {
        fuortwem_report(
            log.as_ptr(),
            log.len(),
            answers.as_mut_ptr(),
            answers.len(),
            text.as_mut_ptr(),
            text.len(),
        )
    };
    outcome(returned)
}
