//! The table from each rule to its definition, its function, what holds it and its wrong programs: each name stands in its
//! column's own place, every public function has its row and two wrong programs, and every edit is one of these.
use super::places::Places;
use super::{cited, lines_of, text, Checked, Files, TRACE};
use std::collections::{BTreeMap, BTreeSet};

const HEAD: [&str; 2] = [
    "| Rule | Definition | Function | Held by | Wrong programs |",
    "|---|---|---|---|---|",
];
/// What a cell has where there is nothing of its sort.
const NONE: &str = "–";

pub fn check(files: &Files) -> Checked {
    let places = Places::read(files);
    let (mut faults, mut count) = (Vec::new(), 0);
    let mut edits = BTreeSet::new();
    let mut wrong: BTreeMap<usize, BTreeSet<&str>> = BTreeMap::new();
    // The functions whose wrong programs the row has: its own, or if it goes on, those of the row above.
    let mut functions = Vec::new();
    for (line, row) in rows(text(files, TRACE)) {
        count += 1;
        let fault = |what| format!("{TRACE}:{line}: {what}");
        let [rule, definition, function, holding, programs] = match row {
            Ok(cells) => cells,
            Err(what) => {
                faults.push(fault(what));
                continue;
            }
        };
        let mut wanting = |what| faults.push(fault(what));
        names(definition).for_each(|it| places.definition(it).unwrap_or_else(&mut wanting));
        names(holding).for_each(|it| places.holding(it).unwrap_or_else(&mut wanting));
        for name in names(programs) {
            edits.extend(places.edit(name).map_err(&mut wanting));
        }
        if !rule.is_empty() || !function.is_empty() {
            let found = names(function).map(|it| places.function(it).map_err(&mut wanting));
            functions = found.flatten().collect();
        }
        for function in &functions {
            wrong.entry(*function).or_default().extend(parts(programs));
        }
    }
    let is_unnamed = |(at, _): &(usize, _)| !edits.contains(at);
    for (_, edit) in places.edits.iter().enumerate().filter(is_unnamed) {
        let path = edit.replacen('/', "/must-fail/", 1);
        faults.push(format!("crates/{path}.edit:1: no wrong program of {TRACE}"));
    }
    let count_of = |at: &usize| wrong.get(at).map_or(0, BTreeSet::len);
    for (at, function) in places.functions.iter().enumerate() {
        // Those of a trait's method are said of it, or once for all its impls.
        let of_trait = function.of_trait.as_deref();
        let of_trait = of_trait.and_then(|it| places.function(it).ok());
        let has = count_of(&at).max(of_trait.as_ref().map_or(0, count_of));
        if function.is_public && has < 2 {
            faults.push(format!(
                "{}:{}: {TRACE} has {has} wrong programs of {}",
                function.path, function.line, function.name
            ));
        }
    }
    (faults, count)
}

/// The rows of the table, each with its number and its cells. Each heading has the table's head anew.
fn rows(document: &str) -> Vec<(usize, Result<[&str; 5], String>)> {
    let mut rows = Vec::new();
    let mut above = "";
    for (number, _, line) in lines_of(document) {
        let is_row = line.starts_with('|') && !HEAD.contains(&line);
        let is_headless = is_row && !above.starts_with('|');
        let is_first = above == HEAD[1];
        above = line;
        if !is_row {
            continue;
        }
        let inner = line.strip_prefix('|').and_then(|it| it.strip_suffix('|'));
        let cells: Vec<&str> = inner.unwrap_or("").split('|').map(str::trim).collect();
        let row = match <[&str; 5]>::try_from(cells) {
            _ if is_headless => Err(format!("not the table's head: {line}")),
            Ok(["", ..]) if is_first => Err("a first row that goes on".into()),
            Ok(cells) => Ok(cells),
            Err(cells) => Err(format!("{} cells, not five", cells.len())),
        };
        rows.push((number, row));
    }
    rows
}

fn names(cell: &str) -> impl Iterator<Item = &str> {
    cited::spans(cell).into_iter().map(|(_, name)| name)
}

fn parts(cell: &str) -> impl Iterator<Item = &str> {
    let parts = cell.split(';').map(str::trim);
    parts.filter(|it| !it.is_empty() && *it != NONE)
}

#[cfg(test)]
mod tests {
    use super::{check, HEAD};
    use crate::documents::{files, Files};

    fn with(rows: &str) -> Files {
        let trace = format!("# Trace\n\n{}\n{}\n{rows}", HEAD[0], HEAD[1]);
        files(&[
            ("crates/day/must-fail/one_less.edit", ""),
            ("crates/day/must-fail/one_more.edit", ""),
            ("crates/day/proofs/Edges.antt", "pub edges : ℕ\n"),
            ("crates/day/specs/Rules.antt", "pub rule : ℕ\npub d : ℕ\n"),
            (
                "crates/day/src/judge.rt",
                "pub fn judge() {}\nfn inner() {}\n",
            ),
            ("crates/day/src/rules.rt", "pub fn first() {}\n"),
            ("docs/TRACE.md", &trace),
        ])
    }

    #[test]
    fn a_row_goes_on_with_the_functions_above() {
        let rows = "\
| `free` words | `rule` | `judge::judge` | `Edges: edges`: 62 | `one_less` |
| | `Rules: rule, d` | | nothing | 0, always |
| another | – | `rules::first` | – | `one_more`; as it was lent |
";
        assert_eq!(check(&with(rows)), (Vec::new(), 3));
    }

    #[test]
    fn a_traits_method_is_asked_of_each_impl_or_once_of_the_trait() {
        let line = "\
pub trait Line {
    fn put(self);
}

impl Line for Month {
    fn put(self) {}
}

impl From<Month> for u8 {
    fn from(month: Month) -> u8 {
        0
    }
}
";
        let faults_with = |rows: &str| {
            let mut files = with(rows);
            files.insert("crates/lines/src/lib.rt".into(), line.into());
            let faults = check(&files).0.into_iter();
            faults.filter(|it| it.starts_with("crates/lines")).collect()
        };
        let of_month =
            "crates/lines/src/lib.rt:6: docs/TRACE.md has 0 wrong programs of lines::Month::put";
        let of_number =
            "crates/lines/src/lib.rt:10: docs/TRACE.md has 0 wrong programs of lines::u8::from";
        let none: Vec<String> = faults_with("| one | – | – | – | – |\n");
        assert_eq!(none, [of_month, of_number]);
        for name in ["Line::put", "Month::put"] {
            let row = format!("| one | – | `{name}` | – | nothing; a byte less |\n");
            assert_eq!(faults_with(&row), [of_number]);
        }
    }

    #[test]
    fn each_fault_has_its_line() {
        let rows = "\
| one | `edges` | `judge::judge` | `rule` | `one_less`; – |
| another | | | | none of judge's |
| | `rule` | `inner` | `Edges: edges` | `edges` |
| | `rule` | | `edges` |

| Line | Definition | Held by |
|---|---|---|
";
        let expected = [
            "docs/TRACE.md:5: not defined in specs/: edges",
            "docs/TRACE.md:5: not defined in proofs/: rule",
            "docs/TRACE.md:7: no such edit: edges",
            "docs/TRACE.md:7: a function without its module: inner",
            "docs/TRACE.md:8: 4 cells, not five",
            "docs/TRACE.md:10: not the table's head: | Line | Definition | Held by |",
            "docs/TRACE.md:11: 3 cells, not five",
            "crates/day/must-fail/one_more.edit:1: no wrong program of docs/TRACE.md",
            "crates/day/src/judge.rt:1: docs/TRACE.md has 1 wrong programs of day::judge::judge",
            "crates/day/src/rules.rt:1: docs/TRACE.md has 0 wrong programs of day::rules::first",
        ];
        assert_eq!(check(&with(rows)), (expected.map(String::from).into(), 6));
        let (faults, _) = check(&with("| | `rule` | – | – | – |\n"));
        assert_eq!(faults[0], "docs/TRACE.md:5: a first row that goes on");
    }
}
