//! The definitions of crates/*/specs, and of the files of proofs/ that these bring in: where each stands, how long it is, and
//! which others it names. A name is looked up in its own file, among what that brings in, and behind an alias. A variable that
//! is called as a definition is taken for it, so what a definition rests on is told rather too long than too short.
use super::Files;
use std::collections::{BTreeMap, BTreeSet};

pub struct Definition {
    pub path: String,
    pub line: usize,
    pub name: String,
    pub lines: usize,
    /// The lines of comment right above it, without the heading of a section.
    pub comments: usize,
    names: BTreeSet<usize>,
}

/// What a file brings in: names, each with its module and its name there, and modules under an alias.
#[derive(Default)]
pub struct Scope {
    names: BTreeMap<String, (String, String)>,
    modules: BTreeMap<String, String>,
}

/// The definitions in the order of their files and lines. A module is called `day/Bound`, by its crate and its file, or
/// `day/proofs/Laws`.
#[derive(Default)]
pub struct Specs {
    pub definitions: Vec<Definition>,
    modules: BTreeMap<String, (Scope, BTreeMap<String, usize>)>,
}

/// The words of a line without its comment. A bracket, a semicolon and a comma are words.
pub fn words(line: &str) -> Vec<&str> {
    let mut words = Vec::new();
    for mut rest in line.split("--").take(1).flat_map(str::split_whitespace) {
        while let Some(at) = rest.find(['(', ')', '{', '}', ';', ',']) {
            words.extend([&rest[..at], &rest[at..=at]]);
            rest = &rest[at + 1..];
        }
        words.push(rest);
    }
    words.retain(|word| !word.is_empty());
    words
}

/// A name, and the parts by which it is used if it is mixfix: `from` and `to` of `from◌to◌`.
fn forms(name: &str) -> impl Iterator<Item = String> + '_ {
    let parts = name.split('◌').filter(|part| !part.is_empty());
    parts.chain([name]).map(String::from)
}

impl Scope {
    /// Takes in a line such as `pub use Rattle.day.specs.Rules.{number_of as number, any_of}` or, with an alias for the whole,
    /// `ghost use Rattle.sheet.specs.Limits as limits;`.
    pub fn take(&mut self, line: &str) {
        let (_, brought) = line.split_once("use ").unwrap_or_default();
        let brought = brought.trim_end_matches([';', '}']);
        if let Some((module, names)) = brought.split_once(".{") {
            for name in names.split(", ") {
                let (name, local) = name.split_once(" as ").unwrap_or((name, name));
                let source = (module_used(module), name.to_owned());
                self.names
                    .extend(forms(local).map(|form| (form, source.clone())));
            }
        } else if let Some((module, alias)) = brought.split_once(" as ") {
            self.modules.insert(alias.into(), module_used(module));
        }
    }
}

/// `Rattle.day.specs.Rules` is `day/Rules`, and `Rattle.day.proofs.Laws` is `day/proofs/Laws`.
fn module_used(path: &str) -> String {
    let path = path.strip_prefix("Rattle.").unwrap_or(path);
    let path = path.replacen(".specs.", "/", 1);
    path.replacen(".proofs.", "/proofs/", 1)
}

fn module_of(path: &str) -> Option<String> {
    let module = path.strip_prefix("crates/")?.strip_suffix(".antt")?;
    let is_either = module.contains("/specs/") || module.contains("/proofs/");
    (is_either && !module.ends_with("/Lib")).then(|| module.replacen("/specs/", "/", 1))
}

fn is_of_proofs(module: &str) -> bool {
    module.contains("/proofs/")
}

fn is_use(code: &str) -> bool {
    code.starts_with("use ") || code.starts_with("pub use ")
}

impl Specs {
    pub fn read(files: &Files) -> Self {
        let mut specs = Specs::default();
        let mut words = Vec::new();
        let modules = || files.iter().filter_map(|it| Some((module_of(it.0)?, it)));
        // What stands in proofs/ is read where a definition may name it as its proof.
        let mut as_proof = Scope::default();
        for (_, (_, text)) in modules().filter(|(module, _)| !is_of_proofs(module)) {
            let lines = text.lines().filter(|line| is_use(line));
            lines.for_each(|line| as_proof.take(line));
        }
        let brought_in = as_proof.names.values().map(|(module, _)| module);
        let brought_in: BTreeSet<&String> = brought_in.chain(as_proof.modules.values()).collect();
        for (module, (path, text)) in modules() {
            if !is_of_proofs(&module) || brought_in.contains(&module) {
                specs.read_module(module, path, text, &mut words);
            }
        }
        for (index, (module, words)) in words.iter().enumerate() {
            let names = words.iter().filter_map(|word| specs.find(module, word));
            specs.definitions[index].names = names.collect();
        }
        specs
    }

    /// Reads the definitions, and the words of each, whose meaning may be in a module that is not read yet.
    fn read_module<'a>(
        &mut self,
        module: String,
        path: &str,
        text: &'a str,
        words_of_all: &mut Vec<(String, Vec<&'a str>)>,
    ) {
        let (mut scope, mut own) = (Scope::default(), BTreeMap::new());
        let (mut comments, mut is_data) = (0, false);
        // The definitions of a `module _ (..) where` are set in, and rest on what its first lines name.
        let (mut margin, mut around) = (0, Vec::new());
        for (line, number) in text.lines().zip(1..) {
            let (code, above) = (line.trim_start(), comments);
            let is_comment = code.starts_with("--") && !code.starts_with("-- ----");
            comments = if is_comment { above + 1 } else { 0 };
            let words = words(code);
            let Some(first) = words.first() else {
                continue;
            };
            let depth = line.len() - code.len();
            if depth == 0 {
                (margin, around) = (0, Vec::new());
            }
            if is_use(code) {
                scope.take(line);
            } else if ["module", "open"].contains(first) {
                (margin, around) = (2, [around, words].concat());
            } else if let (true, Some((name, of_data))) = (depth == margin, head(&words)) {
                own.extend(forms(name).map(|form| (form, self.definitions.len())));
                is_data = of_data;
                self.definitions.push(Definition {
                    path: path.into(),
                    line: number,
                    name: name.into(),
                    lines: 1,
                    comments: above,
                    names: BTreeSet::new(),
                });
                words_of_all.push((module.clone(), [&around[..], &words].concat()));
            } else if !first.starts_with("infix") {
                // A clause, a field or a constructor. A field is used behind a value of its record, whose type is named.
                let last = self.definitions.len() - 1;
                if let (true, [name, ":", ..]) = (is_data, &words[..]) {
                    own.extend(forms(name).map(|form| (form, last)));
                }
                self.definitions[last].lines += 1;
                words_of_all[last].1.extend(words);
            }
        }
        self.modules.insert(module, (scope, own));
    }

    /// What a word means in a module: a definition, or that of the type which it constructs; of `wind.low`, where that is
    /// none, what `wind` means.
    pub fn find(&self, module: &str, word: &str) -> Option<usize> {
        let (scope, own) = self.modules.get(module)?;
        let found = own.get(word).copied();
        let found = found.or_else(|| self.brought_in(scope, word));
        found.or_else(|| self.find(module, word.rsplit_once('.')?.0))
    }

    /// What it means where nothing is defined, and only this is brought in.
    pub fn brought_in(&self, scope: &Scope, word: &str) -> Option<usize> {
        if let Some((module, name)) = scope.names.get(word) {
            return self.find(module, name);
        }
        let (of, field) = word.rsplit_once('.')?;
        let (alias, name) = word.split_once('.').unwrap_or((of, field));
        match scope.modules.get(alias) {
            Some(module) => self.find(module, name),
            None => self.brought_in(scope, of),
        }
    }

    /// The definitions that these rest on, themselves among them, but none of those to pass over, nor what only they need.
    pub fn closure(&self, of: &BTreeSet<usize>, passed_over: &BTreeSet<usize>) -> BTreeSet<usize> {
        let mut reached = BTreeSet::new();
        let mut left: Vec<usize> = of.iter().copied().collect();
        while let Some(index) = left.pop() {
            if !passed_over.contains(&index) && reached.insert(index) {
                left.extend(&self.definitions[index].names);
            }
        }
        reached
    }
}

/// The name that a line defines, and whether it is that of a `data` type.
fn head<'a>(words: &[&'a str]) -> Option<(&'a str, bool)> {
    let words = match words {
        ["abbrev" | "unfoldable", words @ ..] => words,
        words => words,
    };
    match words.strip_prefix(&["pub"]).unwrap_or(words) {
        [kind @ ("record" | "data"), name, ..] => Some((name, *kind == "data")),
        [name, ":", ..] => Some((name, false)),
        _ => None,
    }
}

#[cfg(test)]
mod tests {
    use super::{words, Specs};
    use crate::documents::files;
    use std::collections::BTreeSet;

    const RANGES: &str = "\
-- What the file is for.
use Rattle.std.specs.Prelude.{ℤ}

infix 45 from◌to◌
-- ---- a heading
pub data Range : Type 0 where
  from◌to◌ : ℕ → ℕ → Range

-- one line
-- and another
abbrev pub low : Range → ℕ -- of a range
low (from a to b) = a

unfoldable pub span : Range → ℕ
span r =
    r.high - low r

module _ (R : Ring) where
  open Ring R using (add)

  pub law : add 0 0 ≡ 0
  law = refl
pub record Ring : Type 0 where
  pub add : ℕ → ℕ → ℕ
";
    const LIMITS: &str = "\
use Rattle.numbers.specs.Ranges.{from◌to◌, span as width}
use Rattle.numbers.specs.Ranges as ranges
use Rattle.numbers.proofs.Laws.{held}
pub use Rattle.numbers.specs.Ranges.{low}

abbrev pub wind : ℕ
wind = from 0 to 9

abbrev pub wide : ℕ
wide = (width wind).low

abbrev pub sure : ℕ
sure = wind.high held
";
    const LAWS: &str = "\
use Rattle.numbers.specs.Ranges.{low}

pub held : low ≡ low
held = refl
";
    const RULES: &str = "\
use Rattle.day.specs.Limits as limits
use Rattle.day.specs.declared.Day.{wind}

abbrev pub rule : ℕ
rule = wind + limits.low

abbrev pub field : ℕ
field = limits.wind.high + rule.low
";

    fn specs() -> Specs {
        Specs::read(&files(&[
            ("crates/day/proofs/Limits.antt", "pub no : ℕ"),
            ("crates/day/specs/Lib.antt", "pub mod Limits"),
            ("crates/day/specs/Limits.antt", LIMITS),
            ("crates/day/specs/Rules.antt", RULES),
            ("crates/numbers/proofs/Laws.antt", LAWS),
            ("crates/numbers/proofs/Other.antt", "pub other : ℕ"),
            ("crates/numbers/specs/Ranges.antt", RANGES),
        ]))
    }

    #[test]
    fn each_definition_with_its_lines_and_the_comments_above_it() {
        let specs = specs();
        let of = |name: &str| specs.definitions.iter().find(|it| it.name == name);
        let counts = |name| of(name).map(|it| (it.line, it.lines, it.comments));
        assert_eq!(counts("Range"), Some((6, 2, 0)));
        assert_eq!(counts("low"), Some((11, 2, 2)));
        assert_eq!(counts("span"), Some((14, 3, 0)));
        assert_eq!(counts("law"), Some((21, 2, 0)));
        // One of them of proofs/, since a file of specs/ brings it in.
        assert_eq!(counts("held"), Some((3, 2, 0)));
        assert_eq!(specs.definitions.len(), 11);
    }

    #[test]
    fn what_a_definition_rests_on() {
        let specs = specs();
        let on = |module, name, passed_over: &[usize]| -> Vec<&str> {
            let of = BTreeSet::from([specs.find(module, name).expect("a definition")]);
            let reached = specs.closure(&of, &passed_over.iter().copied().collect());
            let name = |it: usize| specs.definitions[it].name.as_str();
            reached.into_iter().map(name).collect()
        };
        assert_eq!(on("day/Limits", "wind", &[]), ["wind", "Range"]);
        assert_eq!(on("numbers/Ranges", "span", &[]), ["Range", "low", "span"]);
        assert_eq!(on("numbers/Ranges", "to", &[]), ["Range"]);
        assert_eq!(on("numbers/Ranges", "law", &[]), ["law", "Ring"]);
        let span = specs.find("numbers/Ranges", "span").expect("it is there");
        assert_eq!(on("day/Limits", "wide", &[span]), ["wind", "wide", "Range"]);
        // Behind an alias what a module hands on; and a name of another kind of module is none of the definitions'.
        assert_eq!(on("day/Rules", "rule", &[]), ["rule", "Range", "low"]);
        // What stands in front of a field.
        let field = ["wind", "rule", "field", "Range", "low"];
        assert_eq!(on("day/Rules", "field", &[]), field);
        let sure = ["wind", "sure", "held", "Range", "low"];
        assert_eq!(on("day/Limits", "sure", &[]), sure);
    }

    #[test]
    fn words_of_a_line() {
        assert_eq!(words("f (a, b); -- g"), ["f", "(", "a", ",", "b", ")", ";"]);
        assert_eq!(words("(f x).a y.b"), ["(", "f", "x", ")", ".a", "y.b"]);
        assert_eq!(words("  -- f"), [""; 0]);
    }
}
