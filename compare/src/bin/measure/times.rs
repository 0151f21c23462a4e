//! The times: contenders in turn, the best pass of each, and their ratios.
use crate::routine::Readings;
use crate::timed::{by_plain, CropLogs, Log, Timed};
use crate::{KIBIBYTE, LOG_SIZES, PASSES};
use compare::office::{self, Handed};
use compare::second::{self, log};
use std::fmt;
use std::hint::black_box;
use std::time::Instant;

/// The best time of each pass in nanoseconds; the contenders take turns, so that a busy moment of the machine meets all.
fn best(contenders: &mut [&mut dyn FnMut()]) -> Vec<f64> {
    let mut best = vec![f64::INFINITY; contenders.len()];
    for _ in 0..PASSES {
        for (contender, best) in contenders.iter_mut().zip(&mut best) {
            let start = Instant::now();
            contender();
            *best = best.min(start.elapsed().as_nanos() as f64);
        }
    }
    best
}

/// One pass of `work` over `items`, none of it dropped by the compiler.
fn each<Item, Answer>(items: &[Item], work: impl Fn(&Item) -> Answer) {
    for item in items {
        black_box(work(black_box(item)));
    }
}

pub struct Ratio {
    name: String,
    measured: f64,
    wanted: Wanted,
}

enum Wanted {
    AtMost(f64),
    AtLeast(f64),
    Nothing,
}

fn ratio(name: &str, measured: f64, wanted: Wanted) -> Ratio {
    let name = name.into();
    Ratio {
        name,
        measured,
        wanted,
    }
}

impl fmt::Display for Ratio {
    fn fmt(&self, f: &mut fmt::Formatter) -> fmt::Result {
        write!(f, "{:<52}{:>8.2}", self.name, self.measured)?;
        let (wanted, reached) = match self.wanted {
            Wanted::AtMost(limit) => (format!("at most {limit}"), self.measured <= limit),
            Wanted::AtLeast(limit) => (format!("at least {limit}"), self.measured >= limit),
            Wanted::Nothing => return Ok(()),
        };
        let verdict = if reached { "reached" } else { "NOT REACHED" };
        write!(f, "  {wanted:<14}{verdict}")
    }
}

pub fn measure_days(timed: &Timed) -> Vec<Ratio> {
    let names = [
        "judge of the proved library",
        "the same sheet in plain i64",
        "the routine's formulas in f64",
        "the routine in Fortran, single precision",
    ];
    let times = best(&mut [
        &mut || each(&timed.handed, Handed::judged),
        &mut || each(&timed.cases, by_plain),
        &mut || each(&timed.double, Readings::<f64>::inches),
        #[cfg(has_fortran)]
        &mut || each(&timed.single, Readings::<f32>::inches),
    ]);
    println!("\n{:<52}{:>8}", "A day handed in alone", "ns a day");
    for (name, time) in names.iter().zip(&times) {
        println!("{name:<52}{:>8.1}", time / timed.cases.len() as f64);
    }
    let [office, plain, routine, fortran @ ..] = &times[..] else {
        return Vec::new();
    };
    let mut ratios = vec![
        ratio("judge / plain", office / plain, Wanted::Nothing),
        ratio("routine in f64 / judge", routine / office, Wanted::Nothing),
    ];
    ratios.extend(fortran.iter().map(|fortran| {
        ratio(
            "routine in Fortran / judge",
            fortran / office,
            Wanted::Nothing,
        )
    }));
    ratios
}

/// What is timed of one log, all sizes in turn.
struct LogTimes {
    not_cleared: f64,
    cleared: f64,
    report: f64,
    plain: f64,
    routine: f64,
    plain_pass: f64,
}

/// The buffers that are lent for one log, each of the length needed.
struct Buffers {
    answers: Vec<u8>,
    cleared: Vec<u8>,
    reported: Vec<u8>,
    text: Vec<u8>,
}

impl Buffers {
    fn new(log: &Log) -> Self {
        let answers = vec![0; log.expected.len()];
        Buffers {
            cleared: answers.clone(),
            reported: answers.clone(),
            answers,
            text: vec![0; log.report.len()],
        }
    }
}

/// The six ways over one log, each a pass of its own; the buffers are lent to the first three.
fn ways<'a>(log: &'a Log, buffers: &'a mut Buffers) -> [Box<dyn FnMut() + 'a>; 6] {
    let Buffers {
        answers,
        cleared,
        reported,
        text,
    } = buffers;
    let read = |buffer: &mut [u8]| black_box(office::read_log(black_box(&log.bytes), buffer));
    [
        Box::new(move || {
            read(black_box(&mut *answers));
        }),
        Box::new(move || {
            black_box(&mut *cleared).fill(0);
            read(black_box(&mut *cleared));
        }),
        Box::new(move || {
            let (answers, text) = (black_box(&mut *reported), black_box(&mut *text));
            black_box(office::report(black_box(&log.bytes), answers, text));
        }),
        Box::new(|| each(&log.cases, by_plain)),
        Box::new(|| each(&log.double, Readings::<f64>::inches)),
        Box::new(|| {
            let bytes = black_box(&log.bytes).iter();
            black_box(bytes.map(|&byte| u64::from(byte)).sum::<u64>());
        }),
    ]
}

fn time_logs(logs: &[Log]) -> Vec<LogTimes> {
    let mut buffers: Vec<_> = logs.iter().map(Buffers::new).collect();
    let mut ways: Vec<_> = logs
        .iter()
        .zip(&mut buffers)
        .flat_map(|(log, buffers)| ways(log, buffers))
        .collect();
    let mut contenders: Vec<&mut dyn FnMut()> =
        ways.iter_mut().map(|way| &mut **way as _).collect();
    best(&mut contenders)
        .chunks(6)
        .map(|times| LogTimes {
            not_cleared: times[0],
            cleared: times[1],
            report: times[2],
            plain: times[3],
            routine: times[4],
            plain_pass: times[5],
        })
        .collect()
}

pub fn measure_logs(logs: &[Log]) -> Vec<Ratio> {
    println!(
        "\n{:<40}{:>8}{:>12}{:>10}{:>10}",
        "A log read whole", "KiB", "us a log", "MB/s", "ns a day"
    );
    let times = time_logs(logs);
    let mut ratios = Vec::new();
    for ((log, size), times) in logs.iter().zip(LOG_SIZES).zip(&times) {
        let kibibytes = size / KIBIBYTE;
        let named = [
            ("read_log, answer buffer not cleared", times.not_cleared),
            ("read_log, answer buffer cleared first", times.cleared),
            ("its report, no buffer cleared", times.report),
            ("its days by the same sheet in plain i64", times.plain),
            ("its days by the routine in f64", times.routine),
            ("a plain pass that adds up its bytes", times.plain_pass),
        ];
        for (name, time) in named {
            println!(
                "{name:<40}{kibibytes:>8}{:>12.2}{:>10.1}{:>10.1}",
                time / 1e3,
                log.bytes.len() as f64 / time * 1e3,
                time / log.cases.len() as f64,
            );
        }
        ratios.push(ratio(
            &format!("its days by the routine / read_log, {kibibytes} KiB"),
            times.routine / times.not_cleared,
            Wanted::AtLeast(2.5),
        ));
        ratios.push(ratio(
            &format!("read_log / its days by the plain sheet, {kibibytes} KiB"),
            times.not_cleared / times.plain,
            Wanted::Nothing,
        ));
        ratios.push(ratio(
            &format!("report / read_log, {kibibytes} KiB"),
            times.report / times.not_cleared,
            Wanted::AtMost(3.0),
        ));
    }
    let [_, half, entire] = &times[..] else {
        return ratios;
    };
    let growth = entire.not_cleared / half.not_cleared;
    ratios.push(ratio(
        "read_log of 64 KiB / of 32 KiB",
        growth,
        Wanted::AtMost(2.1),
    ));
    ratios
}

/// The best times of `read_log` and of the report, for each of these logs in turn.
fn read_and_report<const LOGS: usize>(logs: [&[u8]; LOGS]) -> [(f64, f64); LOGS] {
    let mut ways: Vec<Box<dyn FnMut() + '_>> = Vec::new();
    for bytes in logs {
        let mut answers = vec![0; log::answer_bytes(bytes).map_or(0, |answers| answers.len())];
        let mut reported = answers.clone();
        let mut text = vec![0; second::report(bytes).len()];
        ways.push(Box::new(move || {
            black_box(office::read_log(black_box(bytes), black_box(&mut answers)));
        }));
        ways.push(Box::new(move || {
            let (answers, text) = (black_box(&mut reported), black_box(&mut text));
            black_box(office::report(black_box(bytes), answers, text));
        }));
    }
    let mut contenders: Vec<&mut dyn FnMut()> =
        ways.iter_mut().map(|way| &mut **way as _).collect();
    let times = best(&mut contenders);
    std::array::from_fn(|place| (times[2 * place], times[2 * place + 1]))
}

/// The report of a full log of this sort against the log read alone.
pub fn measure_report(sort: &str, bytes: &[u8]) -> Ratio {
    let [(read, report)] = read_and_report([bytes]);
    ratio(
        &format!("report / read_log, 64 KiB {sort}"),
        report / read,
        Wanted::Nothing,
    )
}

pub fn measure_crops(crops: &CropLogs) -> [Ratio; 3] {
    let [with, without] = read_and_report([&crops.with, &crops.without]);
    println!(
        "\n{:<52}{:>12}{:>10}",
        format!("{} days, with a crop and without", crops.days),
        "us a log",
        "ns a day"
    );
    let named = [
        ("read_log, each day with a crop figure", with.0),
        ("read_log of the same days without the crops", without.0),
        ("the report, each day with a crop figure", with.1),
        ("the report of the same days without the crops", without.1),
    ];
    for (name, time) in named {
        println!(
            "{name:<52}{:>12.2}{:>10.1}",
            time / 1e3,
            time / crops.days as f64
        );
    }
    [
        ("read_log with a crop / without", with.0 / without.0),
        ("report with a crop / without", with.1 / without.1),
        ("report / read_log, with a crop", with.1 / with.0),
    ]
    .map(|(name, measured)| ratio(name, measured, Wanted::Nothing))
}
