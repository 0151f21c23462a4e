//! Where a name stands: a definition in specs/, a theorem or a worked row in proofs/, a function of the code, an edit.
use super::cited::MARKS;
use super::definitions::words;
use super::functions::{self, Function};
use super::Files;
use std::collections::{BTreeMap, BTreeSet};

/// The names that each file of a sort defines. A file is called `day/Edges`, by its crate and its path there.
type Defined<'a> = BTreeMap<String, BTreeSet<&'a str>>;

pub struct Places<'a> {
    specs: Defined<'a>,
    proofs: Defined<'a>,
    pub functions: Vec<Function>,
    /// By crate and name, `day/limit_of_999`.
    pub edits: Vec<String>,
    paths: Vec<&'a str>,
}

/// What a name is if it stands in one place, or else what is wrong.
pub type Found<T> = Result<T, String>;

impl<'a> Places<'a> {
    pub fn read(files: &'a Files) -> Self {
        let edits = files.keys().filter_map(|path| {
            let edit = path.strip_prefix("crates/")?.strip_suffix(".edit")?;
            Some(edit.replace("/must-fail/", "/"))
        });
        Places {
            specs: defined(files, "/specs/"),
            proofs: defined(files, "/proofs/"),
            functions: functions::read(files),
            edits: edits.collect(),
            paths: files.keys().map(String::as_str).collect(),
        }
    }

    /// A definition; the statement of a theorem stands in proofs/, and is marked as such: `proofs/Shares: together`.
    pub fn definition(&self, span: &str) -> Found<()> {
        let (file, names) = span.split_once(": ").unwrap_or(("", span));
        match file.split_once("proofs/") {
            Some((of, file)) => in_one_file(&self.proofs, "proofs/", &format!("{of}{file}"), names),
            None => in_one_file(&self.specs, "specs/", file, names),
        }
    }

    /// A theorem or a worked row; or an edit, a function whose contract it is, or a path of the repository.
    pub fn holding(&self, span: &str) -> Found<()> {
        if span.contains("::") {
            return self.function(span).map(drop);
        }
        let (file, names) = span.split_once(": ").unwrap_or(("", span));
        if file.is_empty() && (self.edit(span).is_ok() || self.is_path(span)) {
            return Ok(());
        }
        in_one_file(&self.proofs, "proofs/", file, names)
    }

    /// A function, with its module or its crate, and with its type where it has one.
    pub fn function(&self, span: &str) -> Found<usize> {
        let names = self.functions.iter().map(|it| it.name.as_str());
        match span.contains("::") {
            true => only(span, "function", "::", names),
            false => Err(format!("a function without its module: {span}")),
        }
    }

    pub fn edit(&self, span: &str) -> Found<usize> {
        only(span, "edit", "/", self.edits.iter().map(String::as_str))
    }

    fn is_path(&self, span: &str) -> bool {
        let folder = format!("{}/", span.trim_end_matches('/'));
        let mut paths = self.paths.iter();
        paths.any(|path| *path == span || path.starts_with(&folder))
    }
}

/// The one of some names that ends as is said, from a part's start on.
fn only<'a>(
    span: &str,
    what: &str,
    mark: &str,
    names: impl Iterator<Item = &'a str>,
) -> Found<usize> {
    let ending = format!("{mark}{span}");
    let is_meant = |name: &str| name == span || name.ends_with(&ending);
    let mut meant = names.enumerate().filter(|(_, name)| is_meant(name));
    match (meant.next(), meant.next()) {
        (Some((at, _)), None) => Ok(at),
        (None, _) => Err(format!("no such {what}: {span}")),
        _ => Err(format!("more than one {what}: {span}")),
    }
}

/// Whether each of the names, parted by commas, stands in one file: in the one given, or where none is, in one at all.
fn in_one_file(files: &Defined, sort: &str, file: &str, names: &str) -> Found<()> {
    let ending = format!("/{file}");
    let is_meant = |path: &str| file.is_empty() || path == file || path.ends_with(&ending);
    let meant: Vec<_> = files.iter().filter(|(path, _)| is_meant(path)).collect();
    if !file.is_empty() && meant.len() != 1 {
        let count = if meant.is_empty() {
            "no"
        } else {
            "more than one"
        };
        return Err(format!("{count} file of {sort}: {file}"));
    }
    for name in names.split(", ") {
        let having = meant.iter().filter(|(_, names)| names.contains(name));
        match having.count() {
            1 => {}
            0 => return Err(format!("not defined in {sort}{file}: {name}")),
            _ => return Err(format!("more than one file of {sort} defines {name}")),
        }
    }
    Ok(())
}

fn defined<'a>(files: &'a Files, folder: &str) -> Defined<'a> {
    let mut found = Defined::new();
    for (path, text) in files {
        let module = path.strip_prefix("crates/");
        let module = module.and_then(|it| it.strip_suffix(".antt"));
        if let Some((of, file)) = module.and_then(|it| it.split_once(folder)) {
            found.insert(format!("{of}/{file}"), defined_in(text));
        }
    }
    found
}

/// The names that a file defines for others: those at its margin, or at that of a `module _ (..) where`, and public ones.
fn defined_in(text: &str) -> BTreeSet<&str> {
    let (mut found, mut margin) = (BTreeSet::new(), 0);
    for line in text.lines() {
        let words = words(line);
        let depth = line.len() - line.trim_start().len();
        margin = match words.first() {
            Some(&"module") => depth + 2,
            Some(_) if depth == 0 => 0,
            _ => margin,
        };
        let marks = words.iter().take_while(|it| MARKS.contains(it)).count();
        let (marks, words) = words.split_at(marks);
        if depth == margin || marks.contains(&"pub") {
            match words {
                ["record" | "data", name, ..] | [name, ":", ..] => found.extend([*name]),
                _ => {}
            }
        }
    }
    found
}

#[cfg(test)]
mod tests {
    use super::Places;
    use crate::documents::{files, Files};

    fn texts() -> Files {
        files(&[
            ("crates/crops/must-fail/rounded.edit", ""),
            (
                "crates/crops/proofs/Examples.antt",
                "pub edges : ℕ\nown : ℕ\n",
            ),
            (
                "crates/crops/specs/Bound.antt",
                "abbrev pub bound : ℕ\npub L : ℕ\n",
            ),
            ("crates/crops/src/lib.rt", "pub fn figure() {}\n"),
            ("crates/day/must-fail/rounded.edit", ""),
            ("crates/day/must-fail/other.edit", ""),
            (
                "crates/day/proofs/Edges.antt",
                "pub edges : ℕ\n  where\n  there : ℕ\nmodule _ where\n  near : ℕ\n",
            ),
            (
                "crates/day/proofs/Examples.antt",
                "data Row : Type 0 where\n  pub set_in : ℕ\n",
            ),
            (
                "crates/day/specs/Bound.antt",
                "pub bound : ℕ\npub record Day : Type 0\n",
            ),
            ("crates/day/specs/Rules.antt", "pub rule : ℕ\nrule = one\n"),
            (
                "crates/day/src/judge.rt",
                "pub fn judge() {}\npub fn figure() {}\n",
            ),
        ])
    }

    #[test]
    fn a_definition_stands_in_one_file() {
        let texts = texts();
        let places = Places::read(&texts);
        let found = [
            "rule",
            "Rules: rule",
            "Day",
            "crops/Bound: bound, L",
            "proofs/Edges: edges",
        ];
        assert!(found.iter().all(|it| places.definition(it).is_ok()));
        let faults = [
            "bound",
            "Bound: bound",
            "No: rule",
            "Rules: rule, one",
            "edges",
        ]
        .map(|it| places.definition(it).expect_err(it));
        let expected = [
            "more than one file of specs/ defines bound",
            "more than one file of specs/: Bound",
            "no file of specs/: No",
            "not defined in specs/Rules: one",
            "not defined in specs/: edges",
        ];
        assert_eq!(faults, expected);
        let marked = places.definition("day/proofs/Examples: Row, edges");
        assert_eq!(
            marked,
            Err("not defined in proofs/day/Examples: edges".into())
        );
    }

    #[test]
    fn what_holds_a_rule_stands_in_one_place() {
        let texts = texts();
        let places = Places::read(&texts);
        let found = [
            "own",
            "near",
            "set_in",
            "Edges: edges",
            "other",
            "judge::judge",
            "crates/day/src",
        ];
        assert!(found.iter().all(|it| places.holding(it).is_ok()));
        let others = [
            "edges",
            "Examples: own",
            "there",
            "rule",
            "rounded",
            "crates/da",
        ];
        assert!(!others.iter().any(|it| places.holding(it).is_ok()));
    }

    #[test]
    fn functions_and_edits_are_told_apart() {
        let texts = texts();
        let places = Places::read(&texts);
        let named = |it| places.function(it).map(|at| &*places.functions[at].name);
        assert_eq!(named("judge::figure"), Ok("day::judge::figure"));
        assert_eq!(named("crops::figure"), Ok("crops::figure"));
        assert_eq!(
            named("figure"),
            Err("a function without its module: figure".into())
        );
        assert_eq!(
            named("udge::judge"),
            Err("no such function: udge::judge".into())
        );
        assert_eq!(
            places.edit("rounded"),
            Err("more than one edit: rounded".into())
        );
        assert!(places.edit("day/rounded").is_ok() && places.edit("other").is_ok());
    }
}
