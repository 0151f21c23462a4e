//! The names that documents cite in backticks: a path is one of the repository's, a name that is said to stand in a file stands
//! there, and any other name is one that a source has.
use super::definitions::words;
use super::{lines_of, said, Checked, Files, DOCUMENTS};
use std::collections::BTreeSet;

pub fn check(files: &Files) -> Checked {
    let known: Vec<BTreeSet<&str>> = files.iter().map(names_in).collect();
    let (mut faults, mut count) = (Vec::new(), 0);
    for path in DOCUMENTS {
        if !files.contains_key(path) {
            faults.push(format!("{path}:1: there is no such document"));
        }
    }
    for (path, document) in said(files) {
        for (line, name) in spans(&document) {
            let is_there = if let Some((file, names)) = in_a_file(name) {
                names.iter().all(|it| stands_in(files, file, it))
            } else if is_name(name) {
                alternatives(name)
                    .iter()
                    .all(|it| is_known(files, &known, it))
            } else {
                continue;
            };
            count += 1;
            if !is_there {
                faults.push(format!("{path}:{line}: no such name or path: {name}"));
            }
        }
        for (line, file, name) in placed(&document) {
            count += 1;
            let there = format!("/{file}");
            let is_there = |path: &str| format!("/{path}").ends_with(&there);
            let mut such = files.iter().filter(|(path, _)| is_there(path));
            if !such.any(|it| defines(it, &name)) {
                faults.push(format!("{path}:{line}: {file} has no such name: {name}"));
            }
        }
        for (line, target) in links(path, &document) {
            count += 1;
            if !files.contains_key(&target) {
                faults.push(format!(
                    "{path}:{line}: a link that leads nowhere: {target}"
                ));
            }
        }
    }
    (faults, count)
}

/// The files that a document links to, by their paths from the root.
fn links(path: &str, document: &str) -> Vec<(usize, String)> {
    let mut found = Vec::new();
    for (number, _, line) in lines_of(document) {
        for target in line
            .split("](")
            .skip(1)
            .filter_map(|it| it.split(')').next())
        {
            let mut parts: Vec<&str> = path.split('/').collect();
            parts.pop();
            for part in target.split('/') {
                match part {
                    ".." => drop(parts.pop()),
                    part => parts.push(part),
                }
            }
            found.push((number, parts.join("/")));
        }
    }
    found
}

/// The names that are said to stand in a file: `File.antt`: `name`, `name`; and `name` in `path/File.antt`, at a line's end too.
fn placed(document: &str) -> Vec<(usize, String, String)> {
    let is_source = |span: &str| span.ends_with(".antt") || span.ends_with(".rt");
    let is_word = |span: &str| is_name(span) && !span.contains(['/', ':', '{', '.']);
    let mut found = Vec::new();
    for (number, paragraph) in paragraphs(document) {
        let parts: Vec<&str> = paragraph.split('`').collect();
        let mut file = "";
        for at in (1..parts.len()).step_by(2) {
            let (before, span) = (parts[at - 1], parts[at]);
            let last = if at > 2 { parts[at - 2] } else { "" };
            file = match before {
                ": " if is_source(last) => last,
                ", " => file,
                _ => "",
            };
            if !file.is_empty() && is_word(span) {
                found.push((number, file.to_owned(), span.to_owned()));
            }
            if before == " in " && is_source(span) && !span.contains('{') && is_word(last) {
                found.push((number, span.to_owned(), last.to_owned()));
            }
        }
    }
    found
}

/// The lines of a document that are in no block, those of a paragraph joined, each with its first line's number.
fn paragraphs(document: &str) -> Vec<(usize, String)> {
    let mut paragraphs: Vec<(usize, String)> = Vec::new();
    let mut last = 0;
    for (number, block, line) in lines_of(document) {
        let starts = line.starts_with(['|', '-', '#']) || number != last + 1;
        if block.is_some() || line.is_empty() {
            continue;
        }
        last = number;
        match paragraphs.last_mut() {
            Some((_, text)) if !starts => *text += &format!(" {line}"),
            _ => paragraphs.push((number, line.into())),
        }
    }
    paragraphs
}

/// Whether a source defines a name: in a file of definitions or proofs it stands in front of a colon, or behind `record` or `data`.
fn defines(file: (&String, &String), name: &str) -> bool {
    if !file.0.ends_with(".antt") {
        return names_in(file).contains(name);
    }
    file.1.lines().map(words).any(|words| {
        let at = words.iter().position(|word| *word == name);
        at.is_some_and(|at| match words[..at] {
            [.., "record" | "data"] => true,
            _ => words.get(at + 1) == Some(&":") && words[..at].iter().all(|it| MARKS.contains(it)),
        })
    })
}

pub(super) const MARKS: [&str; 3] = ["pub", "abbrev", "unfoldable"];

/// What stands in backticks outside of blocks, with the number of its line.
pub fn spans(document: &str) -> Vec<(usize, &str)> {
    let lines = lines_of(document).into_iter();
    lines
        .filter(|(_, block, _)| block.is_none())
        .flat_map(|(number, _, line)| {
            line.split('`')
                .skip(1)
                .step_by(2)
                .map(move |it| (number, it))
        })
        .collect()
}

/// What is no name: `axiom`, the word that no source may have; and what is in no repository, since a build or an installation
/// leaves it.
const NO_NAMES: [&str; 7] = [
    "axiom",
    "target/",
    "crates/exports/out/libexports.a",
    "crates/report/out/report",
    "lib/lib",
    "include/",
    "/usr/local",
];

/// A name has two letters or more, and no mark of a literal, of a command or of a pattern.
fn is_name(span: &str) -> bool {
    let is_pattern = ["..", "NAME", "CRATE"].iter().any(|it| span.contains(it));
    let letters = span.chars().filter(|it| it.is_alphabetic()).count();
    let is_literal = span.contains(|it: char| it.is_whitespace() || "=()[]<>&?\"$|".contains(it));
    let is_exempt = NO_NAMES.iter().any(|it| span.starts_with(it));
    letters >= 2 && !is_pattern && !is_literal && !is_exempt
}

/// `day/Edges: edges` is a name with its file, and the crate where others have such a file too; a file may have some names.
fn in_a_file(span: &str) -> Option<(&str, Vec<&str>)> {
    let (file, names) = span.split_once(": ")?;
    let is_file = |it: char| it.is_alphanumeric() || it == '/';
    let names: Vec<&str> = names.split(", ").collect();
    let are_words = !names.iter().any(|it| it.contains(char::is_whitespace));
    (file.chars().all(is_file) && are_words).then_some((file, names))
}

/// One file of proofs/ or specs/ has the name, of the crate and the folder that are given; where no crate is, only one has
/// such a file.
fn stands_in(files: &Files, file: &str, name: &str) -> bool {
    let (folder, file) = file.rsplit_once('/').unwrap_or(("crates", file));
    let (ending, folder) = (format!("/{file}.antt"), format!("/{folder}/"));
    let is_meant = |path: &str| path.ends_with(&ending) && format!("/{path}").contains(&folder);
    let such = files.iter().filter(|(path, _)| is_meant(path));
    let such: Vec<_> = such.collect();
    let crates: BTreeSet<_> = such
        .iter()
        .map(|(path, _)| path.split('/').nth(1))
        .collect();
    crates.len() == 1
        && such
            .iter()
            .any(|(path, text)| defines((*path, *text), name))
}

/// `a/{b,c}.antt` cites two.
pub fn alternatives(name: &str) -> Vec<String> {
    let (before, rest) = name.split_once('{').unwrap_or((name, ""));
    match rest.split_once('}') {
        Some((names, after)) => names
            .split(',')
            .map(|name| format!("{before}{name}{after}"))
            .collect(),
        None => vec![name.into()],
    }
}

/// A path may be cited from any folder on its way, as a proof is, `step/step`; what `step::start` names is in one file.
fn is_known(files: &Files, known: &[BTreeSet<&str>], name: &str) -> bool {
    let has_all = |names: &BTreeSet<&str>| name.split("::").all(|part| names.contains(part));
    let path = format!("/{}/", name.trim_end_matches('/'));
    let mut paths = files.keys().map(|path| format!("/{path}/"));
    known.iter().any(has_all) || paths.any(|it| it.contains(&path))
}

/// The words of a source without its comments, and the parts of its path. There are no words in a document; nor in an edit,
/// which says what is not so; nor in these files here, which have names that are made up; nor in tools/, which has names that
/// were.
fn names_in<'a>((path, text): (&'a String, &'a String)) -> BTreeSet<&'a str> {
    let mut names: BTreeSet<&str> = match path.rsplit('.').next() {
        Some("md" | "edit") => BTreeSet::new(),
        _ if path.starts_with("compare/src/documents/") => BTreeSet::new(),
        _ if path.starts_with("tools/") => BTreeSet::new(),
        Some("antt") => text.lines().flat_map(words).collect(),
        _ => text
            .lines()
            .flat_map(|line| line.split("//").take(1))
            .flat_map(|code| code.split(|it: char| !it.is_alphanumeric() && it != '_'))
            .collect(),
    };
    names.extend(path.split(['/', '.']));
    names
}

#[cfg(test)]
mod tests {
    use super::{check, defines, is_name, links, placed, spans};
    use crate::documents::{files, DOCUMENTS};

    #[test]
    fn what_is_a_name() {
        let names = ["judged", "at_least", "step::step", "a/b.rt", "≡-cross"];
        assert!(names.iter().all(|it| is_name(it)));
        let others = ["REFUSED 2 53", "With..", "W<n>.md", "must-fail/NAME.edit"];
        assert!(!others.iter().any(|it| is_name(it)));
        let others = ["d", "a=b", "f(x)", "?", "target/text", "axiom"];
        assert!(!others.iter().any(|it| is_name(it)));
        let others = [
            "crates/exports/out/libexports.a",
            "crates/report/out/report",
        ];
        assert!(!others.iter().any(|it| is_name(it)));
        let others = ["lib/libmade.a", "include/made.h", "/usr/local"];
        assert!(!others.iter().any(|it| is_name(it)));
        assert_eq!(spans("a `b` c `d`\n\n`e`"), [(1, "b"), (1, "d"), (3, "e")]);
    }

    #[test]
    fn names_that_are_said_to_stand_in_a_file() {
        let text =
            "`A.antt`: `ab`, `cd`; `ef`, `B.antt`\n\n`gh` in\n`b.rt`, `ij` in `A.antt`: `kl`";
        let expected = [
            (1, "A.antt", "ab"),
            (1, "A.antt", "cd"),
            (3, "b.rt", "gh"),
            (3, "A.antt", "ij"),
            (3, "A.antt", "kl"),
        ];
        let owned = expected.map(|(line, file, name)| (line, file.to_string(), name.to_string()));
        assert_eq!(placed(text), owned);
        let path = String::from("a.antt");
        let text = "pub ab : ℕ\nab = cd\n  ef : ℕ\ndata Gh : Type 0".into();
        let is_there = ["ab", "ef", "Gh", "cd", "ℕ"].map(|it| defines((&path, &text), it));
        assert_eq!(is_there, [true, true, true, false, false]);
    }

    #[test]
    fn links_lead_from_the_documents_folder() {
        let found = links("docs/A.md", "[a](b.md), [c](../d.md)\n[e](../x/f.md)");
        let owned = [(1, "docs/b.md"), (1, "d.md"), (2, "x/f.md")];
        assert_eq!(found, owned.map(|(line, path)| (line, path.to_string())));
    }

    #[test]
    fn names_are_found_in_the_code_and_in_the_paths() {
        let found =
            "`worked_day`, `log::step::start`, `step/step`, `crates/log/specs/`, `Log.antt`,\n\
            `log/specs/{Log,Walk}.antt`, `as_three`, `Log: worked_day`, `log/Walk: step`, \
            `log/specs/Walk: step, on`, `specs/Log: worked_day`";
        let missing = "`said`, `was`, `log::lib::start`, `step/start`, `Day.antt`, \
            `log/specs/{Log,Day}.antt`, `Log: step`, `Walk: step`, `log/Walk: on,off`, `proofs/Log: worked_day`";
        let files = files(&[
            ("README.md", &format!("{found}\n\n{missing}\n")),
            ("crates/log/must-fail/as_three.edit", "new: said"),
            ("crates/log/proofs/step/step/Answers.antt", ""),
            ("crates/log/specs/Log.antt", "pub worked_day : Day -- said"),
            ("crates/log/specs/Walk.antt", "pub step : ℕ\non : ℕ"),
            ("crates/text/specs/Walk.antt", "pub step : ℕ"),
            ("crates/log/src/lib.rt", "// said"),
            ("crates/log/src/step.rt", "pub fn start() {}"),
            ("tools/turn.py", "was"),
        ]);
        let (mut faults, count) = check(&files);
        let missing_documents = DOCUMENTS.len() - 1;
        let others = faults.split_off(missing_documents);
        assert!(faults.iter().all(|it| it.ends_with("no such document")));
        let named = missing.split(", ").map(|it| it.trim_matches('`'));
        let expected = named.map(|it| format!("README.md:4: no such name or path: {it}"));
        assert_eq!(others, expected.collect::<Vec<_>>());
        assert_eq!(count, 21);
    }
}
