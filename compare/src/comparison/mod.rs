//! The comparison of the proved library and its report program with the second implementation, with the unrounded equation
//! and with the published routine. The first difference ends a run; a run in which something was never reached fails too.
mod crops;
mod days;
mod dew_points;
mod enclosures;
mod lent;
mod logs;
mod months;
mod program;
mod reports;
mod stations;
mod tally;
mod without_report;

use crate::second::{crop, station};
use crate::table_text;
use crops::STANDINGS;
use days::{compare_days, DayTally};
use enclosures::{compare_enclosures, EnclosureTally};
use logs::{compare_logs, LogTally};
use program::{compare_program, ProgramTally, LOG_KINDS};
use reports::{REPORTS, TEXT_BUFFERS};
use stations::STATION_KINDS;
use std::process::ExitCode;
use std::time::Instant;
use tally::LIMITED;

/// How much is compared.
pub struct Size {
    days: u64,
    enclosures: u64,
    sweeps: u64,
    logs: u64,
    cut_logs: u64,
    full_logs: u64,
    edges: u64,
}

pub const SHORT: Size = Size {
    days: 20_000_000,
    enclosures: 20_000,
    sweeps: 6,
    logs: 100_000,
    cut_logs: 20,
    full_logs: 4,
    edges: 1,
};

pub const LONG: Size = Size {
    days: 400_000_000,
    enclosures: 1_000_000,
    sweeps: 60,
    logs: 1_500_000,
    cut_logs: 200,
    full_logs: 40,
    edges: 20,
};

/// How far a figure is proved to lie from the equation at most, in 0.0001 inch.
const ALLOWED: f64 = 0.515;
/// The same for a crop figure and the equation's value times the percentage: twice the above, and its own rounding.
const CROP_ALLOWED: f64 = 1.53;

const LONGEST_LOG: usize = 65_536;
/// The header and two blocks: 3,477 days with a figure, a mark, a crop figure and a month line, and two season lines.
const LONGEST_REPORT: usize = 198_253;

/// Compares, and prints what was compared and how long it took; a failing status where there is a difference, or where something
/// was never reached.
pub fn compare(size: &Size) -> ExitCode {
    let start = Instant::now();
    let result = run(size);
    let seconds = start.elapsed().as_secs_f64();
    match result {
        Ok(()) => {
            println!("no difference; {seconds:.1} s");
            ExitCode::SUCCESS
        }
        Err(difference) => {
            eprintln!("the comparison FAILED after {seconds:.1} s\n{difference}");
            ExitCode::FAILURE
        }
    }
}

fn run(size: &Size) -> Result<(), String> {
    println!("tables: {} entries are the same", table_text::compare()?);
    let program = compare_program()?;
    program.print();
    let days = compare_days(size)?;
    days.print();
    let enclosures = compare_enclosures(size)?;
    enclosures.print();
    let logs = compare_logs(size)?;
    logs.print();
    all_reached(&days, &enclosures, &logs, &program)
}

fn in_hex(log: &[u8]) -> String {
    let digits: String = log.iter().map(|byte| format!("{byte:02x}")).collect();
    format!("log of {} bytes: {digits}", log.len())
}

/// Fails if a refusal that can be given was never met, a kind of station never accepted, a wind run never cut by a limit
/// below the routine's, the ends of the enclosures never tried, nothing of some sort became of a day without a dew point, a day
/// never stood in some way to a crop, no report had an end of some month or months that stand in some way to each other, a kind
/// of report was never written to a kind of text buffer, or the report program never run on a kind of log.
fn all_reached(
    days: &DayTally,
    enclosures: &EnclosureTally,
    logs: &LogTally,
    program: &ProgramTally,
) -> Result<(), String> {
    let of_days = [3, 6, 7, 8, 9, 10].map(|number| (number, "days alone", days.refused[number]));
    let of_logs = [1, 2, 3, 4, 5, 12, 13].map(|number| (number, "logs", logs.refused[number]));
    let in_logs =
        [6, 7, 8, 9, 10].map(|number| (number, "days in logs", logs.days_refused[number]));
    let for_earlier = [(8, "earlier means", days.refused_for_earlier)];
    let all = of_days
        .iter()
        .chain(&of_logs)
        .chain(&in_logs)
        .chain(&for_earlier);
    for (number, of, met) in all {
        if *met == 0 {
            return Err(format!("refusal {number} of {of} was never reached"));
        }
    }
    let (stations, crops) = (&logs.stations, &logs.crops);
    let by_reason = [
        (
            "3 of days alone",
            days.refused_for_station.met(&station::REASONS),
        ),
        ("3 of logs", stations.refused.met(&station::REASONS)),
        ("13 of logs", crops.refused.met(&crop::REASONS)),
    ];
    for (refusal, reasons) in by_reason {
        if let Some((reason, _)) = reasons.iter().find(|(_, met)| *met == 0) {
            return Err(format!(
                "refusal {refusal} for {reason} alone was never reached"
            ));
        }
    }
    for (kind, met) in STATION_KINDS.iter().zip(stations.behind_crop) {
        if met == 0 {
            return Err(format!(
                "no accepted log had a station of kind {kind} behind a crop"
            ));
        }
    }
    for (of, met) in [("alone", days.limited), ("in a log", stations.limited)] {
        if met == 0 {
            return Err(format!("no day {of} was {LIMITED}"));
        }
    }
    enclosures.all_reached()?;
    days.dew_points.all_reached("alone")?;
    logs.dew_points.all_reached("in a log")?;
    if logs.too_short_since_estimates == 0 {
        return Err("no buffer had room for all but the crop figures of estimated days".into());
    }
    for (standing, met) in STANDINGS.iter().zip(crops.standings) {
        if met == 0 {
            return Err(format!("no day with a crop was {standing}"));
        }
    }
    for (what, met) in [
        ("", crops.figures),
        (" that was a half", crops.halves),
        (" after an answer of kind 9", crops.estimated),
    ] {
        if met == 0 {
            return Err(format!("no crop figure{what} was met"));
        }
    }
    logs.months.all_reached("of the library")?;
    program.months.all_reached("of the program")?;
    for (kind, by_room) in REPORTS.iter().zip(logs.reports.0) {
        for ((room, _), met) in TEXT_BUFFERS.iter().zip(by_room) {
            if met == 0 {
                return Err(format!("no report {kind} had a text buffer {room}"));
            }
        }
    }
    for ((kind, _), met) in LOG_KINDS.iter().zip(program.met) {
        if met == 0 {
            return Err(format!("the report program met no log {kind}"));
        }
    }
    println!("every refusal from 1 to 13 was reached, but for 11, which is given to nothing");
    println!(
        "every kind of report met every text buffer, and the report program every kind of log"
    );
    Ok(())
}
