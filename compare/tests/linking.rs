//! The programs and commands of docs/LINKING.md, and README.md's first command: each program is saved under the name that the text
//! gives it, each command is run, and what the text says that it prints is compared to the byte. They run in a folder of the build
//! that looks like the repository's, so that nothing made before can stand in for them.
use std::collections::{BTreeMap, BTreeSet};
use std::fs;
use std::io::Write;
use std::os::unix::fs::symlink;
use std::path::{Path, PathBuf};
use std::process::{Command, Stdio};

#[derive(Debug, PartialEq)]
enum Step {
    /// The block after a paragraph that ends in "Save it as `NAME`."
    Save { name: String, program: String },
    /// A line that is indented.
    Run(String),
    /// The indented lines after a paragraph that ends in "prints": what the last command prints.
    Prints(String),
    /// "prints what the C program prints.": the same as the same command before.
    PrintsAsBefore,
}

fn steps(document: &str) -> Vec<Step> {
    let mut steps = Vec::new();
    let mut paragraph = String::new();
    let mut lines = document.lines().peekable();
    let mut after_blank = true;
    while let Some(line) = lines.next() {
        if line.starts_with("```") {
            let program: String = lines
                .by_ref()
                .take_while(|line| *line != "```")
                .map(|line| format!("{line}\n"))
                .collect();
            if let Some(name) = saved_as(&paragraph) {
                let name = name.to_owned();
                steps.push(Step::Save { name, program });
            }
        } else if let Some(line) = line.strip_prefix("    ") {
            let mut block = vec![line];
            while let Some(line) = lines.peek().and_then(|line| line.strip_prefix("    ")) {
                block.push(line);
                lines.next();
            }
            if paragraph.ends_with("prints") {
                steps.push(Step::Prints(block.join("\n") + "\n"));
            } else {
                steps.extend(block.into_iter().map(|line| Step::Run(line.into())));
            }
        } else if !line.is_empty() {
            if after_blank {
                paragraph.clear();
            } else {
                paragraph.push(' ');
            }
            paragraph.push_str(line);
            if paragraph == "prints what the C program prints." {
                steps.push(Step::PrintsAsBefore);
            }
        }
        after_blank = line.is_empty();
    }
    steps
}

fn saved_as(paragraph: &str) -> Option<&str> {
    let (_, name) = paragraph.rsplit_once("Save it as `")?;
    name.strip_suffix("`.")
}

/// A folder of this name that looks like the repository's, with the crates' archive and program in theirs, and with a new target/.
fn folder(name: &str) -> PathBuf {
    let root = Path::new(env!("CARGO_MANIFEST_DIR")).join("..");
    let root = root.canonicalize().expect("the repository's folder");
    let folder = Path::new(env!("CARGO_TARGET_TMPDIR")).join(name);
    if folder.exists() {
        fs::remove_dir_all(&folder).expect("a folder of the build");
    }
    fs::create_dir_all(folder.join("target")).expect("a folder of the build");
    for part in ["crates", "samples"] {
        symlink(root.join(part), folder.join(part)).expect("a link to a folder");
    }
    folder
}

fn read(path: &str) -> String {
    let path = Path::new(env!("CARGO_MANIFEST_DIR")).join("..").join(path);
    fs::read_to_string(&path).unwrap_or_else(|error| panic!("{}: {error}", path.display()))
}

/// What a command prints. It must end well and say nothing on standard error: a compiler's warning is a fault.
fn printed(folder: &Path, command: &str) -> String {
    let output = Command::new("sh")
        .args(["-c", command])
        .current_dir(folder)
        .stdin(Stdio::null())
        .output()
        .expect("sh runs");
    let error = String::from_utf8_lossy(&output.stderr);
    assert!(
        output.status.success() && error.is_empty(),
        "{command}\n{}\n{error}",
        output.status
    );
    String::from_utf8(output.stdout).expect("text")
}

/// The command without what tells a program of one language from that of another.
fn in_any_language(command: &str) -> String {
    let of_python = command.strip_prefix("python3 ");
    of_python.map_or(command.into(), |of_python| of_python.replacen(".py", "", 1))
}

/// On standard error itself, for what a test prints by Rust's macros is shown only where it fails.
fn say(what: &str) {
    writeln!(std::io::stderr(), "{what}").expect("standard error");
}

#[test]
fn programs_print_what_linking_says() {
    let document = read("docs/LINKING.md");
    let folder = folder("linking");
    let python = Command::new("python3").arg("-V").output();
    let has_python = python.is_ok_and(|output| output.status.success());
    let mut last: Option<(String, String)> = None;
    let mut before: BTreeMap<String, String> = BTreeMap::new();
    let mut untried: BTreeSet<String> = BTreeSet::new();
    let mut compared = 0;
    for step in steps(&document) {
        match step {
            Step::Save { name, program } => {
                fs::write(folder.join(&name), program).expect("a file of the build");
                assert!(untried.is_empty(), "nothing is said of {untried:?}");
                untried.insert(name);
            }
            Step::Run(command) => {
                if let Some((command, text)) = last.take() {
                    assert_eq!(text, "", "{command} prints what is not said");
                }
                // The archive is linked as it was built.
                if command == "(cd crates/exports && rt lib)" {
                    continue;
                }
                if command.starts_with("python3 ") && !has_python {
                    say(&format!("python3 is not installed, passed over: {command}"));
                    untried.clear();
                    continue;
                }
                let text = printed(&folder, &command);
                before
                    .entry(in_any_language(&command))
                    .or_insert_with(|| text.clone());
                last = Some((command, text));
            }
            Step::Prints(expected) => {
                if let Some((command, text)) = last.take() {
                    assert_eq!(text, expected, "{command}");
                    compared += 1;
                    untried.clear();
                }
            }
            Step::PrintsAsBefore => {
                if let Some((command, text)) = last.take() {
                    let expected = before.get(&in_any_language(&command));
                    assert_eq!(Some(&text), expected, "{command}");
                    compared += 1;
                    untried.clear();
                }
            }
        }
    }
    assert!(untried.is_empty(), "nothing is said of {untried:?}");
    assert!(compared > 0, "nothing was compared");
}

#[test]
fn the_report_is_the_one_of_the_readme() {
    let steps = steps(&read("README.md"));
    let [Step::Run(command), Step::Prints(expected), ..] = &steps[..] else {
        panic!("README.md begins with {:?}", &steps[..2]);
    };
    // `rt run` proves the program, builds it and runs it; here the one that is built is run.
    let to_it = "cd crates/report && ";
    let run = command.strip_prefix(to_it);
    let input = run.and_then(|run| run.strip_prefix("rt run "));
    let input = input.expect("the report is proved and run");
    let folder = folder("readme");
    assert!(
        folder.join("crates/report/out/report").is_file(),
        "there is no crates/report/out/report: run `rt run <stdin` in crates/report first"
    );
    let command = format!("{to_it}out/report {input}");
    assert_eq!(&printed(&folder, &command), expected);
}

#[test]
fn steps_are_told_apart() {
    let document = "One. Save it as\n`target/a.c`.\n\n```c\nint a;\n\nint b;\n```\n\n    cc a\n    a < b\n\nprints\n\n    c\n    d\n\n\
                    and so on.\n\n    a\n\nprints what the C program prints.\n";
    let run = |command: &str| Step::Run(command.into());
    let save = Step::Save {
        name: "target/a.c".into(),
        program: "int a;\n\nint b;\n".into(),
    };
    let expected = [
        save,
        run("cc a"),
        run("a < b"),
        Step::Prints("c\nd\n".into()),
        run("a"),
        Step::PrintsAsBefore,
    ];
    assert_eq!(steps(document), expected);
}
