//! The code that documents quote: each paragraph of a block stands in one source file, line for line. What is proved and the
//! landing notes quote the sources in every block, the other documents in those that are marked as such code.
use super::{landings, lines_of, text, Checked, Files, DOCUMENTS, PROOF};

pub fn check(files: &Files) -> Checked {
    let is_code = |path: &str| path.ends_with(".antt") || path.ends_with(".rt");
    let sources = files.iter().filter(|(path, _)| is_code(path));
    let sources: Vec<String> = sources.map(|(_, text)| format!("\n{text}")).collect();
    let (mut faults, mut count) = (Vec::new(), 0);
    let documents = DOCUMENTS.map(|path| (path, text(files, path), path == PROOF));
    let notes = landings(files).map(|(path, note)| (path, note, true));
    for (path, document, every_block) in documents.into_iter().chain(notes) {
        for (line, paragraph) in paragraphs(document, every_block) {
            count += paragraph.lines().count();
            // Behind the last clause of a contract that is quoted whole the body begins.
            let is_clause =
                |line: &str| line.starts_with("    ensures") || line.starts_with("    requires");
            let body = if paragraph.lines().last().is_some_and(is_clause) {
                "{"
            } else {
                ""
            };
            let quoted = format!("\n{paragraph}{body}");
            if !sources.iter().any(|source| source.contains(&quoted)) {
                let first = paragraph.lines().next().unwrap_or_default();
                faults.push(format!(
                    "{path}:{line}: the sources have no such lines: {first} .."
                ));
            }
        }
    }
    (faults, count)
}

/// The paragraphs of the blocks, each with its first line's number; of every block, or of those marked as such code.
fn paragraphs(document: &str, every_block: bool) -> Vec<(usize, String)> {
    let mut paragraphs: Vec<(usize, String)> = Vec::new();
    let mut last = 0;
    for (number, block, line) in lines_of(document) {
        let is_code = block.is_some_and(|mark| every_block || ["antt", "rattle"].contains(&mark));
        if is_code && !line.is_empty() {
            if number != last + 1 {
                paragraphs.push((number, String::new()));
            }
            if let Some((_, text)) = paragraphs.last_mut() {
                *text += &format!("{line}\n");
            }
            last = number;
        }
    }
    paragraphs
}

#[cfg(test)]
mod tests {
    use super::check;
    use crate::documents::files;

    const PROOF: &str = "\
Text.

```
one
two

three
```

```
two
three
```
";

    #[test]
    fn a_paragraph_is_found_whole_or_not() {
        let read_me = "```antt\nnone\n```\n\n```\nfree\n```\n";
        let files = files(&[
            ("README.md", read_me),
            ("crates/day/specs/Rules.antt", "one\ntwo\n\nthree\n"),
            ("crates/day/src/lib.rt", "at\n  three\n"),
            ("docs/PROOF.md", PROOF),
            ("docs/landings/W1.md", "# W1\n\n```\none\n```\n"),
            ("docs/landings/W2.md", "# W2\n\n```\nsix\n```\n"),
        ]);
        let expected = [
            "docs/PROOF.md:11: the sources have no such lines: two ..",
            "README.md:2: the sources have no such lines: none ..",
            "docs/landings/W2.md:4: the sources have no such lines: six ..",
        ];
        assert_eq!(check(&files), (expected.map(String::from).into(), 8));
    }
}
