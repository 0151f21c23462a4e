//! Compares the proved library and its report program with the second implementation: `compare short` or `compare long`.
use compare::comparison::{compare, LONG, SHORT};
use std::process::ExitCode;

fn main() -> ExitCode {
    match std::env::args().nth(1).as_deref() {
        Some("short") => compare(&SHORT),
        Some("long") => compare(&LONG),
        _ => {
            eprintln!("usage: compare short | compare long");
            ExitCode::from(2)
        }
    }
}
