//! The short comparison as a test. It has no harness, so that what was compared is printed. As with other tests, names among the
//! arguments choose: it is passed over where none of them is part of its own.
use compare::comparison::{compare, SHORT};
use std::process::ExitCode;

fn main() -> ExitCode {
    let names: Vec<String> = std::env::args().skip(1).collect();
    let mut names = names
        .iter()
        .filter(|name| !name.starts_with('-'))
        .peekable();
    if names.peek().is_some() && !names.any(|name| "short".contains(name.as_str())) {
        println!("the short comparison is passed over");
        return ExitCode::SUCCESS;
    }
    compare(&SHORT)
}
