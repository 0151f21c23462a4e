//! The documents against the sources: what a reader has to believe is counted, what is quoted and cited is looked up, the
//! table of the rules has each name in its column, and what stands in specs/ has to serve a promise or a contract. All of it
//! is done over the text.
pub mod believed;
pub mod cited;
pub mod contracts;
pub mod definitions;
pub mod edits;
pub mod functions;
pub mod lengths;
pub mod places;
pub mod quoted;
pub mod trace;

use std::collections::BTreeMap;
use std::fs;
use std::io;
use std::path::Path;

/// The statement of what is proved: all its blocks are quoted from the sources.
const PROOF: &str = "docs/PROOF.md";
/// The table from each rule to its proof, which has a check of its own.
const TRACE: &str = "docs/TRACE.md";
/// All that say how things are.
const DOCUMENTS: [&str; 9] = [
    PROOF,
    TRACE,
    "docs/LOG.md",
    "docs/COMPARISON.md",
    "docs/SPEED.md",
    "docs/DECISIONS.md",
    "docs/LINKING.md",
    "CONTRIBUTING.md",
    "README.md",
];
/// The landing notes say how things were, but for one section.
const LANDINGS: &str = "docs/landings/";
const AS_IT_IS: &str = "## What is proved";

/// The texts of the repository by their paths from its root.
pub type Files = BTreeMap<String, String>;

/// The faults that a check finds, each `path:line: what`, and how much it looked at.
pub type Checked = (Vec<String>, usize);

pub fn read(root: &Path) -> io::Result<Files> {
    let mut files = Files::new();
    read_below(root, "", &mut files)?;
    Ok(files)
}

/// The files and folders below a folder, but for what a build leaves, what is hidden from a listing and links: no source is
/// one of these.
fn read_below(folder: &Path, path: &str, files: &mut Files) -> io::Result<()> {
    for entry in fs::read_dir(folder)? {
        let entry = entry?;
        let (name, kind) = (entry.file_name(), entry.file_type()?);
        let name = name.to_string_lossy();
        let inner = format!("{path}{name}");
        let is_hidden = name.starts_with('.') && name != ".ci";
        if kind.is_file() && !is_hidden {
            // The sample logs are bytes, in which nothing is looked up.
            let text = String::from_utf8_lossy(&fs::read(entry.path())?).into();
            files.insert(inner, text);
        } else if kind.is_dir() && !is_hidden && !is_built(path, &name) {
            read_below(&entry.path(), &format!("{inner}/"), files)?;
        }
    }
    Ok(())
}

/// Whether a build leaves this folder: `target`, or `out` in a crate of crates/.
fn is_built(path: &str, name: &str) -> bool {
    let of = path.strip_prefix("crates/");
    let of = of.and_then(|it| it.strip_suffix('/'));
    name == "target" || name == "out" && of.is_some_and(|it| !it.contains('/'))
}

/// The text of a file, and none of one that is not there.
fn text<'a>(files: &'a Files, path: &str) -> &'a str {
    files.get(path).map_or("", |text| text)
}

/// What the documents say of how things are, with the lines where they stand: of a landing note one section, and of the trace
/// all but its table.
fn said(files: &Files) -> Vec<(&str, String)> {
    let mut said: Vec<(&str, String)> = Vec::new();
    for path in DOCUMENTS {
        let is_said = |line: &&str| path != TRACE || !line.starts_with('|');
        said.push((path, kept(text(files, path), is_said)));
    }
    for (path, note) in landings(files) {
        let mut is_within = false;
        let section = kept(note, |line| {
            if line.starts_with("## ") {
                is_within = *line == AS_IT_IS;
            }
            is_within
        });
        said.push((path, section));
    }
    said
}

fn landings(files: &Files) -> impl Iterator<Item = (&str, &str)> {
    let notes = files.iter().filter(|(path, _)| path.starts_with(LANDINGS));
    notes.map(|(path, note)| (path.as_str(), note.as_str()))
}

/// A document with its other lines empty.
fn kept(document: &str, mut is_kept: impl FnMut(&&str) -> bool) -> String {
    let lines = document.lines();
    let lines = lines.map(|line| if is_kept(&line) { line } else { "" });
    lines.flat_map(|line| [line, "\n"]).collect()
}

/// The lines of a document with their numbers, and of those in a block how that is marked.
fn lines_of(document: &str) -> Vec<(usize, Option<&str>, &str)> {
    let mut block = None;
    let mut lines = Vec::new();
    for (line, number) in document.lines().zip(1..) {
        match (line.strip_prefix("```"), block) {
            (Some(mark), None) => block = Some(mark),
            (Some(_), Some(_)) => block = None,
            (None, _) => lines.push((number, block, line)),
        }
    }
    lines
}

#[cfg(test)]
fn files(files: &[(&str, &str)]) -> Files {
    let owned = |&(path, text): &(&str, &str)| (path.into(), text.into());
    files.iter().map(owned).collect()
}

#[cfg(test)]
mod tests {
    use super::{files, is_built, said};

    #[test]
    fn what_a_build_leaves_is_no_source() {
        let built = [
            ("", "target"),
            ("compare/", "target"),
            ("crates/day/", "out"),
        ];
        assert!(built.iter().all(|(path, name)| is_built(path, name)));
        let others = [
            ("", "out"),
            ("crates/", "out"),
            ("crates/day/proofs/", "out"),
        ];
        assert!(!others.iter().any(|(path, name)| is_built(path, name)));
    }

    #[test]
    fn a_landing_note_says_how_things_are_in_one_section() {
        let note = "# W1\n`was`\n## What is proved\n`is`\n### Of days\n`too`\n## Times\n`then`\n";
        let files = files(&[
            ("docs/landings/W1.md", note),
            ("docs/TRACE.md", "text\n| row |\n"),
        ]);
        let found = said(&files);
        let of = |path| found.iter().find(|it| it.0 == path).map(|it| &*it.1);
        let section = "\n\n## What is proved\n`is`\n### Of days\n`too`\n\n\n";
        assert_eq!(of("docs/landings/W1.md"), Some(section));
        assert_eq!(of("docs/TRACE.md"), Some("text\n\n"));
        assert_eq!(of("README.md"), Some(""));
    }
}
