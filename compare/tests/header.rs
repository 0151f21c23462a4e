//! crates/exports/fuortwem.h against what it declares: it compiles as C and as C++ without a warning, each function that it declares
//! is in the archive and has the parameters of crates/exports/src/lib.rt, and its constants are those of the definitions
//! and of the archive.
use std::collections::{BTreeMap, BTreeSet};
use std::fs;
use std::io::Write;
use std::path::{Path, PathBuf};
use std::process::Command;

fn root() -> PathBuf {
    Path::new(env!("CARGO_MANIFEST_DIR")).join("..")
}

fn read(path: &str) -> String {
    fs::read_to_string(root().join(path)).unwrap_or_else(|error| panic!("{path}: {error}"))
}

/// The header without its comments.
fn header() -> String {
    let text = read("crates/exports/fuortwem.h");
    let mut parts = text.split("/*");
    let first = parts.next().unwrap_or_default().to_owned();
    let after_comments = parts.map(|part| part.split_once("*/").expect("a comment ends").1);
    first + &after_comments.collect::<Vec<_>>().join(" ")
}

fn is_in_word(letter: char) -> bool {
    letter.is_ascii_alphanumeric() || letter == '_'
}

/// The constants: every word in capitals that begins with the library's name, but for the guard.
fn constants(header: &str) -> BTreeSet<&str> {
    let words = header.split(|letter| !is_in_word(letter));
    words
        .filter(|word| word.starts_with("FUORTWEM_") && *word != "FUORTWEM_H")
        .collect()
}

/// The functions declared and not defined, each with its parameters and its result in Rust's types.
fn functions(header: &str) -> BTreeMap<&str, String> {
    let mut functions = BTreeMap::new();
    for statement in header.split_inclusive([';', '{', '}']) {
        let Some((before, parameters)) = statement.split_once('(') else {
            continue;
        };
        let Some((parameters, end)) = parameters.rsplit_once(')') else {
            continue;
        };
        let words: Vec<&str> = before.split_whitespace().collect();
        if let ([.., result, name], ";") = (&words[..], end.trim()) {
            let named = |parameter: &str| {
                let parameter = parameter.trim();
                let at = parameter.rfind(|letter| !is_in_word(letter));
                let (of, name) = parameter.split_at(at.expect("a type and a name") + 1);
                format!("{name}: {}", rust_type(of.trim()))
            };
            let parameters: Vec<String> = match parameters.trim() {
                "void" => Vec::new(),
                all => all.split(',').map(named).collect(),
            };
            let signature = format!("({}) -> {}", parameters.join(", "), rust_type(result));
            functions.insert(*name, signature);
        }
    }
    functions
}

fn rust_type(of: &str) -> &str {
    match of {
        "uint8_t" => "u8",
        "uint16_t" => "u16",
        "uint32_t" => "u32",
        "uint64_t" => "u64",
        "int16_t" => "i16",
        "size_t" => "usize",
        "const uint8_t *" => "*const u8",
        "uint8_t *" => "*mut u8",
        other => panic!("the header has the type {other}, which no function had"),
    }
}

/// The exported functions as crates/exports/src/lib.rt has them; a slice is handed in as a pointer and a length.
fn exported(source: &str) -> BTreeMap<&str, String> {
    let functions = source.split("pub extern \"C\" fn ").skip(1).map(|text| {
        let (name, rest) = text.split_once('(').expect("parameters");
        let (parameters, rest) = rest.split_once(')').expect("an end of the parameters");
        let result = rest.trim_start_matches(" -> ").split_whitespace().next();
        let parameters: Vec<String> = parameters
            .split(',')
            .map(str::trim)
            .filter(|parameter| !parameter.is_empty())
            .map(|parameter| match parameter.split_once(": ") {
                Some((name, "&[u8]")) => format!("{name}: *const u8, {name}_length: usize"),
                Some((name, "&mut [u8]")) => format!("{name}: *mut u8, {name}_length: usize"),
                _ => parameter.to_owned(),
            })
            .collect();
        let result = result.expect("a result");
        (name, format!("({}) -> {result}", parameters.join(", ")))
    });
    functions.collect()
}

/// The names of an enumeration.
fn enumerators<'a>(header: &'a str, name: &str) -> Vec<&'a str> {
    let (_, names) = header
        .split_once(&format!("enum {name} {{"))
        .unwrap_or_else(|| panic!("the header has no {name}"));
    let (names, _) = names.split_once('}').expect("its end");
    constants(names).into_iter().collect()
}

/// A program that prints each constant and has the address of each function, so that the archive must have it.
fn program(constants: &BTreeSet<&str>, functions: &BTreeMap<&str, String>) -> String {
    let address = |name: &&str| format!("    (void (*)(void))&{name},\n");
    let print = |name: &&str| format!("    printf(\"{name} %lld\\n\", (long long)({name}));\n");
    format!(
        "#include \"fuortwem.h\"\n#include \"fuortwem.h\"\n#include <stdio.h>\n\n\
         void (*volatile functions[])(void) = {{\n{}}};\n\n\
         int main(void) {{\n{}    return functions[0] == functions[0] ? 0 : 1;\n}}\n",
        functions.keys().map(address).collect::<String>(),
        constants.iter().map(print).collect::<String>()
    )
}

/// What the program prints, compiled by this compiler for this language; nothing where the compiler is not installed.
fn values(compiler: &str, language: &str, source: &Path) -> Option<BTreeMap<String, i64>> {
    let program = source.with_extension(compiler);
    let compiled = Command::new(compiler)
        .args("-Wall -Wextra -Werror -pedantic -x".split(' '))
        .args([language, "-I"])
        .arg(root().join("crates/exports"))
        .arg(source)
        .args(["-x", "none"])
        .arg(root().join("crates/exports/out/libexports.a"))
        .arg("-o")
        .arg(&program)
        .status();
    match compiled {
        Err(error) if error.kind() == std::io::ErrorKind::NotFound => {
            // On standard error itself, for what a test prints by Rust's macros is shown only where it fails.
            let said = writeln!(
                std::io::stderr(),
                "{compiler} is not installed: passed over"
            );
            said.expect("standard error");
            return None;
        }
        compiled => assert!(compiled.expect(compiler).success(), "{compiler} failed"),
    }
    let output = Command::new(&program).output().expect("it was compiled");
    assert!(output.status.success());
    let text = String::from_utf8(output.stdout).expect("names and numbers");
    let line = |line: &str| {
        let (name, value) = line.split_once(' ').expect("a name and a number");
        (name.to_owned(), value.parse().expect("a number"))
    };
    Some(text.lines().map(line).collect())
}

/// The number that a definition is, on a line of its own.
fn defined(path: &str, name: &str) -> i64 {
    let text = read(path);
    let mut numbers = text
        .lines()
        .filter_map(|line| line.strip_prefix(name)?.strip_prefix(" = "));
    let number = numbers
        .next()
        .unwrap_or_else(|| panic!("{path}: no {name}"));
    number.trim().parse().expect("a number")
}

#[test]
fn constants_are_those_of_the_definitions() {
    let header = header();
    let (constants, functions) = (constants(&header), functions(&header));
    let folder = Path::new(env!("CARGO_TARGET_TMPDIR")).join("header");
    fs::create_dir_all(&folder).expect("a folder of the build");
    let source = folder.join("constants.c");
    fs::write(&source, program(&constants, &functions)).expect("a file of the build");

    let values_in_c = values("cc", "c", &source).expect("cc links Rust's programs too");
    if let Some(values_in_cpp) = values("c++", "c++", &source) {
        assert_eq!(values_in_c, values_in_cpp);
    }
    for (name, expected) in [
        ("VERSION", compare::office::version().into()),
        (
            "LONGEST_LOG",
            defined("crates/station_log/specs/Log.antt", "longest"),
        ),
        (
            "LONGEST_ANSWERS",
            defined("crates/station_log/specs/Parts.antt", "longest_answers"),
        ),
        (
            "LONGEST_REPORT",
            defined("crates/text/specs/Walk.antt", "longest_report"),
        ),
        ("MISSING", compare::MISSING.into()),
        ("ROUTINE_LIMIT", compare::ROUTINE_LIMIT.into()),
        ("ESTIMATED", compare::office::ESTIMATED.into()),
    ] {
        let name = format!("FUORTWEM_{name}");
        assert_eq!(values_in_c.get(&name), Some(&expected), "{name}");
    }
    for (name, expected) in [
        (
            "fuortwem_refusal",
            vec![1, 2, 3, 4, 5, 6, 7, 8, 9, 10, 12, 13],
        ),
        ("fuortwem_answer", vec![3, 4, 5, 7, 9]),
    ] {
        let names = enumerators(&header, name).into_iter();
        let mut numbers: Vec<i64> = names.map(|name| values_in_c[name]).collect();
        numbers.sort_unstable();
        assert_eq!(numbers, expected, "{name}");
    }
}

#[test]
fn functions_have_the_parameters_of_the_exported_ones() {
    assert_eq!(
        functions(&header()),
        exported(&read("crates/exports/src/lib.rt"))
    );
}
