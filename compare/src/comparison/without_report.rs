//! Runs of the report program that can print no report: with an argument, an input that fails, or an output that takes nothing.
use std::fs::File;
use std::io::{Seek, Write};
use std::os::fd::OwnedFd;
use std::os::unix::net::UnixStream;
use std::path::Path;
use std::process::Command;

/// A connection that its other end reset behind these bytes: reading it fails there once, and from then on looks as if it
/// had ended.
fn reset_behind(bytes: &[u8]) -> std::io::Result<OwnedFd> {
    let (mut far, mut near) = UnixStream::pair()?;
    far.write_all(bytes)?;
    // What the other end leaves unread makes its close a reset.
    near.write_all(&[0])?;
    Ok(near.into())
}

const USAGE: &str = "usage: report < LOG\n";
const UNREAD: &str = "report: standard input cannot be read to its end\n";
const UNWRITTEN: &str = "report: standard output takes no more\n";

/// A run that can print no report: what the report program is handed, the run, and what it must say on standard error.
type WithoutReport = (&'static str, Command, &'static str);

/// The runs of the report program that can print no report. `log` is a sound one, which ends in a day.
pub(super) fn runs_without_report(
    program: &Path,
    log: &Path,
) -> std::io::Result<Vec<WithoutReport>> {
    let bytes = std::fs::read(log)?;
    let reading = |input: OwnedFd| {
        let mut run = Command::new(program);
        run.stdin(input);
        run
    };
    let by_shell = |script: &str| {
        let mut run = Command::new("sh");
        run.arg("-c")
            .arg(script)
            .arg(program)
            .stdin(File::open(log)?);
        std::io::Result::Ok(run)
    };
    let mut full = reading(File::open(log)?.into());
    full.stdout(File::options().write(true).open("/dev/full")?);
    let without_last_day = &bytes[..bytes.len() - 17];
    Ok(vec![
        (
            "a directory on standard input",
            reading(File::open("/")?.into()),
            UNREAD,
        ),
        (
            "a closed standard input",
            by_shell("exec \"$0\" <&-")?,
            UNREAD,
        ),
        (
            "a connection reset at once",
            reading(reset_behind(&[])?),
            UNREAD,
        ),
        (
            "a connection reset between two days",
            reading(reset_behind(without_last_day)?),
            UNREAD,
        ),
        (
            "a connection reset behind the last day",
            reading(reset_behind(&bytes)?),
            UNREAD,
        ),
        ("a full standard output", full, UNWRITTEN),
        (
            "a closed standard output",
            by_shell("exec \"$0\" >&-")?,
            UNWRITTEN,
        ),
    ])
}

/// A run must end well, print nothing and say this on standard error.
pub(super) fn says(what: &str, run: &mut Command, expected: &str) -> Result<(), String> {
    let trouble = |error: std::io::Error| format!("the report program with {what}: {error}");
    let output = run.output().map_err(trouble)?;
    if output.status.success() && output.stdout.is_empty() && output.stderr == expected.as_bytes() {
        return Ok(());
    }
    Err(format!(
        "the report program with {what}: {}, standard output: {}\nstandard error: {}\nexpected: {expected}",
        output.status,
        String::from_utf8_lossy(&output.stdout),
        String::from_utf8_lossy(&output.stderr)
    ))
}

/// The report program takes no argument: it must say so, and leave its input where it was.
pub(super) fn compare_argument(program: &Path, log: &Path, argument: &str) -> Result<(), String> {
    let what = format!("the argument {argument:?}");
    let trouble = |error: std::io::Error| format!("the report program with {what}: {error}");
    let mut input = File::open(log).map_err(trouble)?;
    let mut run = Command::new(program);
    run.arg(argument).stdin(input.try_clone().map_err(trouble)?);
    says(&what, &mut run, USAGE)?;
    match input.stream_position().map_err(trouble)? {
        0 => Ok(()),
        read => Err(format!("the report program with {what} read {read} bytes")),
    }
}
