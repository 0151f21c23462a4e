//! The report program, run on logs: what it prints, byte by byte. The environment variable REPORT_PROGRAM names a program other
//! than ../crates/report/out/report.
use super::logs::full_logs;
use super::months::MonthTally;
use super::without_report::{compare_argument, runs_without_report, says};
use super::{in_hex, LONGEST_LOG, LONGEST_REPORT};
use crate::days::{self, Random};
use crate::second;
use std::io::{ErrorKind, Write};
use std::path::{Path, PathBuf};
use std::process::{ChildStdin, Command, Stdio};
use std::thread::sleep;
use std::time::Duration;

fn report_program() -> Result<PathBuf, String> {
    if let Some(named) = std::env::var_os("REPORT_PROGRAM") {
        return Ok(named.into());
    }
    let program = Path::new(env!("CARGO_MANIFEST_DIR")).join("../crates/report/out/report");
    if program.is_file() {
        return Ok(program);
    }
    Err("there is no crates/report/out/report: run `rt run <stdin` in crates/report first".into())
}

/// Writes a log in so many pieces, and then closes the pipe.
fn write_in_pieces(mut pipe: ChildStdin, log: &[u8], pieces: usize) -> std::io::Result<()> {
    for (i, piece) in log.chunks(log.len().div_ceil(pieces).max(1)).enumerate() {
        if i > 0 {
            // So that the reader has taken what came before, and does not get two pieces as one.
            sleep(Duration::from_millis(100));
        }
        pipe.write_all(piece)?;
    }
    Ok(())
}

/// What the report program prints for a log that comes to standard input in so many pieces. It must end well and print
/// nothing elsewhere.
fn printed(program: &Path, log: &[u8], pieces: usize) -> Result<Vec<u8>, String> {
    let trouble = |error: std::io::Error| format!("report program {}: {error}", program.display());
    let mut child = Command::new(program)
        .stdin(Stdio::piped())
        .stdout(Stdio::piped())
        .stderr(Stdio::piped())
        .spawn()
        .map_err(trouble)?;
    let input = child.stdin.take().expect("standard input is piped");
    std::thread::scope(|scope| {
        // Beside the reading, so that neither pipe can fill up and stop the other.
        let writing = scope.spawn(move || write_in_pieces(input, log, pieces));
        let output = child.wait_with_output().map_err(trouble)?;
        match writing.join().expect("writing does not panic") {
            // The program may stop reading as soon as it knows that a log is too long.
            Err(error) if error.kind() != ErrorKind::BrokenPipe => Err(trouble(error)),
            _ if output.status.success() && output.stderr.is_empty() => Ok(output.stdout),
            _ => Err(format!(
                "the report program: {}, standard error: {}\n{}",
                output.status,
                String::from_utf8_lossy(&output.stderr),
                in_hex(log)
            )),
        }
    })
}

fn samples() -> PathBuf {
    Path::new(env!("CARGO_MANIFEST_DIR")).join("../samples")
}

fn sample_logs() -> Result<Vec<Vec<u8>>, String> {
    let samples = samples();
    let trouble = |error: std::io::Error| format!("{}: {error}", samples.display());
    let mut logs = Vec::new();
    for entry in std::fs::read_dir(&samples).map_err(trouble)? {
        let path = entry.map_err(trouble)?.path();
        if path.extension().is_some_and(|extension| extension == "log") {
            logs.push(std::fs::read(path).map_err(trouble)?);
        }
    }
    if logs.is_empty() {
        return Err(format!("{}: no logs", samples.display()));
    }
    Ok(logs)
}

/// Whether a log, with its report, is of a kind.
type IsOfKind = fn(&[u8], &str) -> bool;

/// The kinds of logs that the report program must have been run on.
pub(super) const LOG_KINDS: [(&str, IsOfKind); 14] = [
    ("refusal 1", |_, report| report.starts_with("REFUSED 1 ")),
    ("refusal 2", |_, report| report.starts_with("REFUSED 2 ")),
    ("refusal 3", |_, report| report.starts_with("REFUSED 3 ")),
    ("refusal 4", |_, report| report.starts_with("REFUSED 4 ")),
    ("refusal 5", |_, report| report.starts_with("REFUSED 5 ")),
    ("refusal 13", |_, report| report.starts_with("REFUSED 13 ")),
    ("of no bytes", |log, _| log.is_empty()),
    ("of 65536 bytes, accepted", |log, report| {
        log.len() == LONGEST_LOG && !report.starts_with("REFUSED")
    }),
    ("of 65537 bytes", |log, _| log.len() == LONGEST_LOG + 1),
    ("longer", |log, _| log.len() > LONGEST_LOG + 1),
    ("with a station of kind 8, accepted", |log, _| {
        second::log::openings(log)
            .iter()
            .flatten()
            .any(|opening| opening.kind == 8)
    }),
    ("with a crop figure", |_, report| {
        report.lines().any(|line| line.split(' ').count() == 2)
    }),
    ("with an estimated day", |_, report| {
        report.lines().any(|line| line.ends_with(" E"))
    }),
    ("with a report of 198253 bytes", |_, report| {
        report.len() == LONGEST_REPORT
    }),
];

#[derive(Default)]
pub(super) struct ProgramTally {
    texts: u64,
    in_pieces: u64,
    without_report: u64,
    pub(super) met: [u64; LOG_KINDS.len()],
    pub(super) months: MonthTally,
}

impl ProgramTally {
    fn check_without_report(&mut self, program: &Path) -> Result<(), String> {
        let log = samples().join("worked.log");
        for argument in ["", "-h", "worked.log"] {
            compare_argument(program, &log, argument)?;
            self.without_report += 1;
        }
        let trouble = |error: std::io::Error| format!("a run that can print no report: {error}");
        for (what, mut run, said) in runs_without_report(program, &log).map_err(trouble)? {
            says(what, &mut run, said)?;
            self.without_report += 1;
        }
        Ok(())
    }

    fn check(&mut self, program: &Path, log: &[u8], pieces: usize) -> Result<(), String> {
        let given = printed(program, log, pieces)?;
        let expected = second::report(log);
        if given != expected.as_bytes() {
            return Err(format!(
                "the report program printed\n{}\nthe second implementation\n{expected}\n{}",
                String::from_utf8_lossy(&given),
                in_hex(log)
            ));
        }
        self.texts += 1;
        self.in_pieces += u64::from(pieces > 1);
        for (met, (_, is_of_kind)) in self.met.iter_mut().zip(LOG_KINDS) {
            *met += u64::from(is_of_kind(log, &expected));
        }
        self.months.count(&expected);
        Ok(())
    }

    pub(super) fn print(&self) {
        println!(
            "report program: {} texts are the same, {} of logs that came in pieces; {} runs print none and say why",
            self.texts, self.in_pieces, self.without_report
        );
        for (met, (kind, _)) in self.met.iter().zip(LOG_KINDS) {
            println!("  {kind}: {met} logs");
        }
        self.months.print();
    }
}

pub(super) fn compare_program() -> Result<ProgramTally, String> {
    let program = report_program()?;
    let mut random = Random::new(3);
    let samples = sample_logs()?;
    let mut logs = samples.clone();
    logs.push(Vec::new());
    logs.extend(full_logs(&mut random));
    logs.extend(days::month_edges(&mut random));
    for _ in 0..150 {
        let log = days::sound_log(&mut random, 60);
        logs.push(log.clone());
        logs.push(days::damaged(&mut random, log));
        logs.push(days::loose_bytes(&mut random, 60));
    }
    let mut tally = ProgramTally::default();
    for log in &logs {
        tally.check(&program, log, 1)?;
    }
    for log in &samples {
        tally.check(&program, log, 3)?;
    }
    tally.check_without_report(&program)?;
    Ok(tally)
}
