//! The contracts of the functions in crates/*/src, and which definitions of specs/ they name.
use super::definitions::{words, Scope, Specs};
use super::Files;
use std::collections::BTreeSet;

#[derive(Default)]
pub struct Contract {
    /// With its crate and its module: `day::judge::judge`.
    pub function: String,
    pub ensured: BTreeSet<usize>,
    /// These, and what it requires and shares.
    pub named: BTreeSet<usize>,
}

pub fn read(files: &Files, specs: &Specs) -> Vec<Contract> {
    let mut contracts: Vec<Contract> = Vec::new();
    for (path, text) in files {
        let Some(module) = module_of(path) else {
            continue;
        };
        let mut scope = Scope::default();
        // The clause that is open, and how many brackets are.
        let (mut clause, mut depth) = ("", 0);
        // What an impl of a trait says of its functions before them: its ghost members.
        let mut given = BTreeSet::new();
        for line in text.lines() {
            let plain = line.trim_start();
            let words = words(plain.strip_prefix("pub(crate) ").unwrap_or(plain));
            match words[..] {
                ["ghost", "use", ..] => scope.take(line),
                ["fn", name, ..] | [_, "fn", name, ..] | [_, _, _, "fn", name, ..] => {
                    let name = name.split('<').next().unwrap_or(name);
                    clause = "";
                    contracts.push(Contract {
                        function: format!("{module}::{name}"),
                        ensured: given.clone(),
                        named: given.clone(),
                    });
                }
                _ if depth == 0 => clause = begun(&words),
                _ => {}
            }
            if line == "}" {
                given.clear();
            }
            if !clause.is_empty() {
                let count = |bracket| words.iter().filter(|it| **it == bracket).count();
                // The clause's own name is none of the definitions'.
                let first = match depth {
                    0 => words.iter().position(|it| *it == "{").unwrap_or(0),
                    _ => 0,
                };
                depth = (depth + count("{")).saturating_sub(count("}"));
                let named = words[first..].iter();
                let named = named.filter_map(|it| specs.brought_in(&scope, it));
                let named: BTreeSet<usize> = named.collect();
                if clause == "member" {
                    given.extend(&named);
                }
                // A member may stand behind them too, as a law does.
                if let Some(contract) = contracts.last_mut() {
                    contract.named.extend(&named);
                    if clause == "ensures" {
                        contract.ensured.extend(named);
                    }
                }
            }
        }
    }
    contracts
}

/// The kind of the clause that a line begins: `ensures {`, or with the clause's name `ensures at_most {`. A `*` stands at one
/// about memory; a `ghost` clause has a value that the others share. A `member` is `ghost from_gives = {` of an impl.
fn begun<'a>(words: &[&'a str]) -> &'a str {
    match words {
        ["ghost", _, "=", ..] => "member",
        [first, "{", ..] | [first, _, "{", ..] => match first.trim_end_matches('*') {
            kind @ ("requires" | "ensures" | "ghost") => kind,
            _ => "",
        },
        _ => "",
    }
}

/// `day::judge` of crates/day/src/judge.rt, and `day` of its lib.rt.
pub(super) fn module_of(path: &str) -> Option<String> {
    let module = path.strip_prefix("crates/")?.strip_suffix(".rt")?;
    let module = module.strip_suffix("/lib").unwrap_or(module);
    module
        .contains("/src")
        .then(|| module.replace("/src", "").replace('/', "::"))
}

#[cfg(test)]
mod tests {
    use super::read;
    use crate::documents::{definitions::Specs, files};

    const JUDGE: &str = "\
ghost use Rattle.day.specs.Rules.{judged, Asked as Wanted};
ghost use Rattle.day.specs.Rules as rules;

// judged
pub fn judge(day: Day) -> Verdict
    requires {
        Wanted day
    }
    ensures { result ≡ judged day }
{
    other(judged)
}

#[unsafe(no_mangle)]
pub extern \"C\" fn exported(day: Day) -> u64
    requires judged { Wanted.now day }
    ensures judged { result ≡ rules.number day }
    ensures* Wanted {
        shared
    }
{
    judged
}

impl From<Day> for u64 {
    ghost from_gives = { λ day n. n ≡ rules.number day };

    fn from(day: Day) -> u64 {
        judged
    }
}

pub(crate) fn of_the_crate() -> u64
    ensures { result ≡ rules.number }
{
}

fn behind() {}
";

    #[test]
    fn what_each_function_ensures_and_names() {
        let rules = "pub judged : ℕ\npub Asked : ℕ\npub number : ℕ\n";
        let files = files(&[
            ("crates/day/specs/Rules.antt", rules),
            ("crates/day/src/judge.rt", JUDGE),
            ("crates/day/src/lib.rt", "fn plain<T>(x: T)\n"),
        ]);
        let specs = Specs::read(&files);
        let contracts = read(&files, &specs);
        let names = |of: &std::collections::BTreeSet<usize>| -> String {
            of.iter().map(|it| &*specs.definitions[*it].name).collect()
        };
        let found: Vec<_> = contracts
            .iter()
            .map(|it| (&*it.function, names(&it.ensured), names(&it.named)))
            .collect();
        let expected = [
            ("day::judge::judge", "judged", "judgedAsked"),
            ("day::judge::exported", "number", "Askednumber"),
            ("day::judge::from", "number", "number"),
            ("day::judge::of_the_crate", "number", "number"),
            ("day::judge::behind", "", ""),
            ("day::plain", "", ""),
        ];
        let expected = expected.map(|(function, one, both)| (function, one.into(), both.into()));
        assert_eq!(found, expected);
    }
}
