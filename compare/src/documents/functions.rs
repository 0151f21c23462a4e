//! The functions of crates/*/src, by their whole names.
use super::contracts::module_of;
use super::definitions::words;
use super::Files;
use std::collections::BTreeSet;

pub struct Function {
    pub path: String,
    pub line: usize,
    /// With its crate, its module and its type: `day::readings::Wind::in_range`.
    pub name: String,
    pub is_public: bool,
    /// The method of a trait that it is, `Line::put`.
    pub of_trait: Option<String>,
}

pub fn read(files: &Files) -> Vec<Function> {
    let mut functions = Vec::new();
    let sources = || files.iter().filter_map(|it| Some((module_of(it.0)?, it)));
    let inner: BTreeSet<(String, &str)> = sources()
        .flat_map(|(module, (_, text))| {
            let names = text.lines().filter_map(kept_inside);
            names.map(move |name| (crate_of(&module).to_owned(), name))
        })
        .collect();
    for (module, (path, text)) in sources() {
        let is_inner = |name| inner.contains(&(crate_of(&module).to_owned(), name));
        let mut of = Block::default();
        for (at, line) in text.lines().enumerate() {
            if line == "}" {
                of = Block::default();
            } else if let Some(begun) = Block::begun(line) {
                of = begun;
            }
            let Some((name, is_public)) = begun(&words(line)) else {
                continue;
            };
            // The methods of a trait have no `pub`: they are as public as it is. What a trait only declares has no program.
            let is_public = match of.of_trait {
                Some(_) if of.is_trait && !has_body(text.lines().skip(at)) => false,
                Some(of_trait) => !is_inner(of_trait) && !is_inner(of.name),
                None => is_public,
            };
            let of_trait = of.of_trait.filter(|_| !of.is_trait);
            let of_type = match of.name {
                "" => String::new(),
                name => format!("{name}::"),
            };
            functions.push(Function {
                path: path.clone(),
                line: at + 1,
                name: format!("{module}::{of_type}{name}"),
                is_public,
                of_trait: of_trait.map(|it| format!("{it}::{name}")),
            });
        }
    }
    functions
}

fn crate_of(module: &str) -> &str {
    module.split("::").next().unwrap_or(module)
}

/// What a line such as `impl TryFrom<u8> for Kind {` or `pub trait Line {` begins: the functions of a type or of a trait, by its
/// name without its parameters, and the trait that they belong to.
#[derive(Default)]
struct Block<'a> {
    name: &'a str,
    of_trait: Option<&'a str>,
    is_trait: bool,
}

impl<'a> Block<'a> {
    fn begun(line: &'a str) -> Option<Self> {
        if let Some(rest) = line.trim_start_matches("pub ").strip_prefix("trait ") {
            let name = bare(rest);
            return Some(Block {
                name,
                of_trait: Some(name),
                is_trait: true,
            });
        }
        let rest = line.strip_prefix("impl")?;
        let rest = match rest.strip_prefix('<') {
            Some(parameters) => parameters.split_once("> ")?.1,
            None => rest.strip_prefix(' ')?,
        };
        let (of_trait, of) = match rest.split_once(" for ") {
            Some((of_trait, of)) => (Some(bare(of_trait)), of),
            None => (None, rest),
        };
        Some(Block {
            name: bare(of),
            of_trait,
            is_trait: false,
        })
    }
}

/// The name that some text begins with, without its path and its parameters.
fn bare(text: &str) -> &str {
    let name = text.split(['<', '(', ' ', ':', ';']).next().unwrap_or(text);
    name.rsplit("::").next().unwrap_or(name)
}

/// The type or the trait that a line declares for its own crate or module alone.
fn kept_inside(line: &str) -> Option<&str> {
    let line = line.strip_prefix("pub(crate) ").unwrap_or(line);
    let sort = ["struct ", "enum ", "trait "];
    sort.iter().find_map(|it| line.strip_prefix(it)).map(bare)
}

/// Whether the function that the first of some lines begins has a body: a trait's may end with its signature or its clauses.
fn has_body<'a>(lines: impl Iterator<Item = &'a str>) -> bool {
    let is_clause = |line: &&str| {
        let clauses = ["requires", "ensures", "ghost"];
        clauses.iter().any(|it| line.trim_start().starts_with(it))
    };
    let mut lines = lines.filter(|line| line.ends_with(';') || !is_clause(line));
    let end = lines.find(|line| line.ends_with(';') || line.ends_with('{'));
    end.is_some_and(|line| line.ends_with('{'))
}

/// The function that a line begins, and whether it is public.
fn begun<'a>(words: &[&'a str]) -> Option<(&'a str, bool)> {
    let (is_public, words) = match words {
        ["pub", "(", _, ")", words @ ..] => (false, words),
        ["pub", words @ ..] => (true, words),
        words => (false, words),
    };
    let words = words.strip_prefix(&["const"]).unwrap_or(words);
    let words = words.strip_prefix(&["final"]).unwrap_or(words);
    match words.strip_prefix(&["extern", "\"C\""]).unwrap_or(words) {
        ["fn", name, ..] => Some((name.split('<').next().unwrap_or(name), is_public)),
        _ => None,
    }
}

#[cfg(test)]
mod tests {
    use super::read;
    use crate::documents::files;

    const READINGS: &str = "\
// pub fn said
impl Wind {
    pub fn in_range(self) -> bool
    {
        true
    }
}

impl<'a> Reader<'a> {
    pub fn next(&mut self) -> Option<u8>
}

impl TryFrom<u8> for Kind {
    fn try_from(n: u8) -> Result<Kind, u8>
}

struct Each;

impl Iterator for Each {
    fn next(&mut self) -> Option<u8> {
        None
    }
}

pub trait Line: Copy {
    final fn twice(self) -> usize
    {
        2 * self.size()
    }

    fn put(self, pen: &mut Pen)
        ensures { result ≡ text };

    fn size(self) -> usize
        ensures { result ≡ length text }
    {
        0
    }
}

impl<const N: usize> Line for Row<N> {
    fn put(self, pen: &mut Pen) {}
}

pub(crate) const fn within<'a>(x: &'a [u8]) -> u8

fn inner<'a>(x: &'a [u8]) -> u8
pub extern \"C\" fn fuortwem_judge(
";

    #[test]
    fn each_function_with_its_crate_its_module_and_its_type() {
        let files = files(&[
            ("crates/day/src/lib.rt", "pub fn judge(day: Day)\n"),
            ("crates/day/src/readings.rt", READINGS),
            ("crates/day/specs/Rules.antt", "pub fn : ℕ\n"),
        ]);
        let functions = read(&files);
        let found = functions
            .iter()
            .map(|it| (it.line, &*it.name, it.is_public));
        let expected = [
            (1, "day::judge", true),
            (3, "day::readings::Wind::in_range", true),
            (10, "day::readings::Reader::next", true),
            (14, "day::readings::Kind::try_from", true),
            (20, "day::readings::Each::next", false),
            (26, "day::readings::Line::twice", true),
            (31, "day::readings::Line::put", false),
            (34, "day::readings::Line::size", true),
            (42, "day::readings::Row::put", true),
            (45, "day::readings::within", false),
            (47, "day::readings::inner", false),
            (48, "day::readings::fuortwem_judge", true),
        ];
        assert_eq!(found.collect::<Vec<_>>(), expected);
        let of_traits = functions.iter().filter_map(|it| it.of_trait.as_deref());
        let expected = ["TryFrom::try_from", "Iterator::next", "Line::put"];
        assert_eq!(of_traits.collect::<Vec<_>>(), expected);
    }
}
