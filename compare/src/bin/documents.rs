//! Checks the documents against the sources: `documents` prints each fault and fails where there is one, `documents print`
//! prints the table of what a reader has to believe, and `documents inner` the definitions that only inner contracts need.
use compare::documents::{believed::Believed, definitions::Specs, Files};
use compare::documents::{cited, contracts, edits, lengths, quoted, read, trace};
use std::path::Path;
use std::process::ExitCode;

fn main() -> ExitCode {
    let root = Path::new(env!("CARGO_MANIFEST_DIR")).join("..");
    let files = read(&root).expect("the files of the repository");
    let specs = Specs::read(&files);
    let contracts = contracts::read(&files, &specs);
    let believed = Believed::count(&specs, &contracts);
    match std::env::args().nth(1).as_deref() {
        None => return check(&files, &believed),
        Some("print") => println!("{}", believed.table.join("\n")),
        Some("inner") => believed.inner().iter().for_each(|it| println!("{it}")),
        Some(_) => {
            eprintln!("usage: documents | documents print | documents inner");
            return ExitCode::from(2);
        }
    }
    ExitCode::SUCCESS
}

fn check(files: &Files, believed: &Believed) -> ExitCode {
    let mut faults = Vec::new();
    let [definitions, quoted, names, rows, edits, lines] = [
        believed.check(files),
        quoted::check(files),
        cited::check(files),
        trace::check(files),
        edits::check(files),
        lengths::check(files),
    ]
    .map(|(found, count)| {
        faults.extend(found);
        count
    });
    faults.iter().for_each(|fault| println!("{fault}"));
    println!(
        "documents: {definitions} definitions, {quoted} quoted lines, {names} names, {rows} rows of the trace, {edits} edits, \
         {lines} lines; faults: {}",
        faults.len()
    );
    match faults[..] {
        [] => ExitCode::SUCCESS,
        _ => ExitCode::FAILURE,
    }
}
