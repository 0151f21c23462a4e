//! What a reader has to believe: the definitions on which the promises rest, counted; and the definitions that no promise
//! and no contract needs.
use super::contracts::Contract;
use super::definitions::Specs;
use super::{cited, text, Checked, Files, PROOF};
use std::collections::BTreeSet;

/// The rows of the table, each with what is promised beside the rows above it: the function whose contract makes the
/// promise, or the module of specs/ that has it, and the promise's name.
const ROWS: [(&str, &[&str]); 7] = [
    (
        "what `judge` answers: `judged`",
        &["day::judge::judge judged"],
    ),
    (
        "and how near and how large it is: `FigureOwed`, `FigureInRange`",
        &[
            "day::judge::judge FigureOwed",
            "day::judge::judge FigureInRange",
        ],
    ),
    (
        "and the five tables' rules: `DayRule`, `PressureEntry`, `Entry`",
        &[
            "tables::entry DayRule",
            "tables::entry day_range",
            "tables::entry Entry",
            "tables::pressure PressureEntry",
            "tables::pressure pressure_range",
        ],
    ),
    (
        "and what `read_log` answers: `Read`",
        &["promises::read_log Read"],
    ),
    (
        "and demand 3 entire: `NotRefused`, `FiguresOwed`, `EveryFigureWithinBound`",
        &[
            "promises::read_log NotRefused",
            "promises::read_log FiguresOwed",
            "promises/Demand EveryFigureWithinBound",
        ],
    ),
    (
        "and crop figures: `CropFiguresOwed`",
        &["promises::read_log CropFiguresOwed"],
    ),
    (
        "and the report: `Prints`, `report_of`, `ReportOwed`; the program's: `whole_report`, `AtFront`",
        &[
            "text::write_report Prints",
            "text::write_report report_of",
            "text::write_report ReportOwed",
            "text::whole_report whole_report",
            "text::whole_report AtFront",
        ],
    ),
];

/// What is passed over with all that only it needs. The tables' values: the contract of each lookup ties its value to the
/// rule. And the laws by which the operations on ratios are such on fractions: a definition names them as its proof.
const LOOKUPS: [&str; 6] = [
    "tables::entry day_value",
    "tables/Values albedo_at",
    "tables/Values a1_at",
    "tables/Values aw_at",
    "tables/Values bw_at",
    "tables::pressure pressure_at",
];
const LAWS: &str = "crates/ratios/proofs/Congruence.antt";

const FRACTIONS: [&str; 2] = [
    "crates/ratios/specs/Ratios.antt",
    "crates/numbers/specs/Fractions.antt",
];

const HEAD: [&str; 2] = [
    "| To believe | Definitions | Lines of definition | With the comments above them |",
    "|---|---|---|---|",
];

pub struct Believed<'a> {
    specs: &'a Specs,
    pub table: Vec<String>,
    /// The promises that are not made where the table has them from.
    unmade: Vec<String>,
    /// All that the promises rest on, and all that they and the contracts do.
    promised: BTreeSet<usize>,
    needed: BTreeSet<usize>,
    /// What the table counts.
    believed: BTreeSet<usize>,
}

impl<'a> Believed<'a> {
    pub fn count(specs: &'a Specs, contracts: &[Contract]) -> Self {
        let all = || specs.definitions.iter().enumerate();
        let mut unmade = Vec::new();
        let mut made = |promises: &[&str]| -> BTreeSet<usize> {
            let (found, missing) = made(specs, contracts, promises);
            unmade.extend(missing);
            found
        };
        let mut passed_over = made(&LOOKUPS);
        passed_over.extend(all().filter(|(_, it)| it.path == LAWS).map(|(at, _)| at));

        let mut table: Vec<String> = HEAD.map(String::from).into();
        let (mut promises, mut believed) = (BTreeSet::new(), BTreeSet::new());
        for (what, promised) in ROWS {
            promises.extend(made(promised));
            believed = specs.closure(&promises, &passed_over);
            table.push(row(specs, what, &believed));
        }
        for contract in contracts.iter().filter(|it| is_public(&it.function)) {
            let beside = &contract.ensured - &believed;
            unmade.extend((&beside - &passed_over).iter().map(|it| {
                let name = &specs.definitions[*it].name;
                format!("{} promises {name}, and no row has it", contract.function)
            }));
        }
        let fractions = all().filter(|(_, it)| FRACTIONS.contains(&&*it.path));
        let fractions = &believed & &fractions.map(|(at, _)| at).collect();
        let what = "of it the fractions: `Ratios.antt` of `ratios`, `Fractions.antt` of `numbers`";
        table.push(row(specs, what, &fractions));
        let is_exported = |it: &&Contract| it.function.starts_with("exports::fuortwem_");
        let exported = contracts.iter().filter(is_exported);
        promises.extend(exported.flat_map(|it| &it.ensured));
        let beside = &specs.closure(&promises, &passed_over) - &believed;
        let what = "beside it, for callers in other languages alone: the contracts of `exports`";
        table.push(row(specs, what, &beside));

        let promised = specs.closure(&promises, &BTreeSet::new());
        promises.extend(contracts.iter().flat_map(|it| &it.named));
        Believed {
            specs,
            table,
            unmade,
            promised,
            needed: specs.closure(&promises, &BTreeSet::new()),
            believed,
        }
    }

    /// Every definition has to be needed, each promise to be made, and the document to have the table and to name the file of
    /// each definition that is believed.
    pub fn check(&self, files: &Files) -> Checked {
        let all: BTreeSet<usize> = (0..self.specs.definitions.len()).collect();
        let mut faults = self.list(&all - &self.needed, "no promise and no contract needs");
        let lines: Vec<&str> = text(files, PROOF).lines().collect();
        let head = lines.iter().position(|line| *line == HEAD[0]);
        let mut wrong = self.unmade.clone();
        if !lines.windows(self.table.len()).any(|it| it == self.table) {
            wrong.push("not the table that `documents print` prints".into());
        }
        let cited = cited::spans(text(files, PROOF)).into_iter();
        let cited: BTreeSet<String> = cited.flat_map(|(_, it)| cited::alternatives(it)).collect();
        let believed = self
            .believed
            .iter()
            .map(|it| &self.specs.definitions[*it].path);
        let paths: BTreeSet<&str> = believed
            .filter_map(|it| it.strip_prefix("crates/"))
            .collect();
        for path in paths.into_iter().filter(|it| !cited.contains(*it)) {
            wrong.push(format!("does not name {path}, which has what is believed"));
        }
        let at = |what| format!("{PROOF}:{}: {what}", head.unwrap_or(0) + 1);
        faults.extend(wrong.into_iter().map(at));
        (faults, all.len())
    }

    /// The definitions that only inner contracts need.
    pub fn inner(&self) -> Vec<String> {
        self.list(&self.needed - &self.promised, "only inner contracts need")
    }

    fn list(&self, definitions: BTreeSet<usize>, what: &str) -> Vec<String> {
        let definitions = definitions.iter().map(|it| &self.specs.definitions[*it]);
        definitions
            .map(|it| format!("{}:{}: {what} {}", it.path, it.line, it.name))
            .collect()
    }
}

/// Whether a function is one whose contract a row has.
fn is_public(function: &str) -> bool {
    let mut promises = ROWS.iter().flat_map(|(_, promises)| promises.iter());
    promises.any(|it| it.split(' ').next() == Some(function))
}

/// The definitions of some promises, and what is to be said of those that are not made.
fn made(
    specs: &Specs,
    contracts: &[Contract],
    promises: &[&str],
) -> (BTreeSet<usize>, Vec<String>) {
    let (mut found, mut missing) = (BTreeSet::new(), Vec::new());
    for (place, name) in promises.iter().filter_map(|it| it.split_once(' ')) {
        let contract = contracts.iter().find(|it| it.function == place);
        let mut ensured = contract.into_iter().flat_map(|it| &it.ensured).copied();
        let promise = ensured.find(|it| specs.definitions[*it].name == name);
        match promise.or_else(|| specs.find(place, name)) {
            Some(it) => found.extend([it]),
            None => missing.push(format!("{place} does not promise {name}")),
        }
    }
    (found, missing)
}

fn row(specs: &Specs, what: &str, definitions: &BTreeSet<usize>) -> String {
    let (mut lines, mut comments) = (0, 0);
    for definition in definitions.iter().map(|it| &specs.definitions[*it]) {
        lines += definition.lines;
        comments += definition.comments;
    }
    let [count, lines, both] = [definitions.len(), lines, lines + comments].map(grouped);
    format!("| {what} | {count} | {lines} | {both} |")
}

/// A number as the documents write it, with a comma before its last three digits. None here has more than six.
fn grouped(n: usize) -> String {
    match n {
        0..1_000 => n.to_string(),
        _ => format!("{},{:03}", n / 1_000, n % 1_000),
    }
}

#[cfg(test)]
mod tests {
    use super::{grouped, Believed, HEAD};
    use crate::documents::{contracts, definitions::Specs, files};

    const JUDGE: &str = "\
ghost use Rattle.day.specs.Rules.{judged, Asked};
pub fn judge(day: Day) -> Verdict
    requires { Asked day }
    ensures { result ≡ judged day }
";
    const RULES: &str = "\
-- the verdict
abbrev pub judged : ℕ
judged = rule

abbrev pub rule : ℕ
rule = 1

abbrev pub Asked : ℕ
Asked = rule

abbrev pub unused : ℕ
unused = judged
";

    #[test]
    fn what_is_counted_and_what_is_missed() {
        let mut files = files(&[
            ("crates/day/specs/Rules.antt", RULES),
            ("crates/day/src/judge.rt", JUDGE),
        ]);
        let specs = Specs::read(&files);
        let contracts = contracts::read(&files, &specs);
        let believed = Believed::count(&specs, &contracts);
        assert_eq!(believed.table[..2], HEAD);
        let first = "| what `judge` answers: `judged` | 2 | 4 | 5 |";
        assert_eq!(believed.table[2], first);
        let inner = "crates/day/specs/Rules.antt:8: only inner contracts need Asked";
        assert_eq!(believed.inner(), [inner]);

        let table = believed.table.join("\n");
        let named = "`day/specs/Rules.antt`";
        files.insert(
            "docs/PROOF.md".into(),
            format!("# 2\n\n{table}\n\n{named}\n"),
        );
        let (faults, _) = believed.check(&files);
        let unused = "crates/day/specs/Rules.antt:11: no promise and no contract needs unused";
        assert_eq!(faults[0], unused);
        let missing = "docs/PROOF.md:3: day::judge::judge does not promise FigureOwed";
        assert!(faults.contains(&missing.into()));
        assert!(!faults.iter().any(|it| it.contains("does not name")));
        let made = |it: &String| it.ends_with("does not promise judged");
        assert!(!faults.iter().any(made));
        let other = "docs/PROOF.md:1: not the table that `documents print` prints";
        assert!(!faults.iter().any(|it| it.ends_with("prints")));
        files.insert("docs/PROOF.md".into(), table.replace("| 4 |", "| 5 |"));
        let unnamed =
            "docs/PROOF.md:1: does not name day/specs/Rules.antt, which has what is believed";
        let (faults, _) = believed.check(&files);
        assert!(faults.contains(&other.into()) && faults.contains(&unnamed.into()));
    }

    #[test]
    fn numbers_as_the_documents_write_them() {
        let written = [0, 999, 1_000, 12_034].map(grouped);
        assert_eq!(written, ["0", "999", "1,000", "12,034"]);
    }
}
