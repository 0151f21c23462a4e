//! The speed of the proved library, in one run and as ratios: a log read whole, and a day judged alone, against the same
//! sheet in plain Rust and against the published routine's floating-point formulas; a log's report against the log read
//! alone; and a log with a crop all year against the same log without. Every answer that is timed is checked first; a wrong
//! one is the only reason for a failing exit status.
mod answers;
mod routine;
mod timed;
mod times;

use answers::{check_random, check_timed};
use compare::days::{self, Random};
use std::process::ExitCode;
use timed::{alone, bad_dates, check_report, station, CropLogs, Log, Timed};
use times::{measure_crops, measure_days, measure_logs, measure_report};

/// Days of the measured array, and how often each contender passes over it; the best pass counts.
const DAYS: usize = 4_096;
const PASSES: usize = 300;
/// Random days, refused ones among them, on which the library and the plain version must agree.
const CHECKED: usize = 1_000_000;
const KIBIBYTE: usize = 1_024;
const LOG_SIZES: [usize; 3] = [16 * KIBIBYTE, 32 * KIBIBYTE, 64 * KIBIBYTE];

fn main() -> ExitCode {
    let mut random = Random::new(17);
    let stations = [0; 64].map(|_| station(&mut random));
    let timed = Timed::new(
        (0..DAYS)
            .map(|place| alone(&mut random, stations[place % stations.len()]))
            .collect(),
    );
    let logs = LOG_SIZES.map(|size| Log::of_size(size, stations[0], &mut random));
    let bad_dates = bad_dates(&stations[0], &mut random);
    let crops = CropLogs::new(&stations[0], &mut random);
    let monthly = days::monthly_log(&mut random);

    println!("Processor: {}", processor());
    let checked = check_random(&mut random)
        .and_then(|report| check_timed(&timed).map(|()| report))
        .and_then(|report| logs.iter().try_for_each(Log::check).map(|()| report))
        .and_then(|report| check_report(&bad_dates).map(|()| report))
        .and_then(|report| crops.check().map(|()| report))
        .and_then(|report| check_report(&monthly).map(|()| report));
    match checked {
        Ok(report) => println!("{report}"),
        Err(wrong) => {
            println!("WRONG: {wrong}");
            return ExitCode::FAILURE;
        }
    }
    let mut ratios = measure_days(&timed);
    ratios.extend(measure_logs(&logs));
    ratios.push(measure_report("of bad dates", &bad_dates));
    ratios.push(measure_report("with the longest report", &monthly));
    ratios.extend(measure_crops(&crops));
    println!("\n{:<52}{:>8}  to reach", "Ratio", "measured");
    for ratio in ratios {
        println!("{ratio}");
    }
    ExitCode::SUCCESS
}

fn processor() -> String {
    let information = std::fs::read_to_string("/proc/cpuinfo").unwrap_or_default();
    information
        .lines()
        .find_map(|line| line.strip_prefix("model name")?.split_once(": "))
        .map_or("unknown".into(), |(_, name)| name.into())
}
