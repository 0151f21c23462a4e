//! How long the lines of the documents are.
use super::{Checked, Files};

const LONGEST: usize = 150;

/// No line of a document, be it a row of a table or quoted code, has more characters than that.
pub fn check(files: &Files) -> Checked {
    let is_document =
        |path: &str| path.ends_with(".md") && (path.starts_with("docs/") || !path.contains('/'));
    let (mut faults, mut count) = (Vec::new(), 0);
    for (path, document) in files.iter().filter(|(path, _)| is_document(path)) {
        for (line, number) in document.lines().zip(1..) {
            count += 1;
            let characters = line.chars().count();
            if characters > LONGEST {
                faults.push(format!("{path}:{number}: {characters} characters"));
            }
        }
    }
    (faults, count)
}

#[cfg(test)]
mod tests {
    use super::{check, LONGEST};
    use crate::documents::files;

    #[test]
    fn characters_are_counted_and_not_bytes() {
        let longest = "ρ".repeat(LONGEST);
        let longer = format!("# A\n```\n{longest}ρ\n```\n");
        let files = files(&[
            ("README.md", &longest),
            ("compare/notes.md", &longer),
            ("docs/LOG.md", &longer),
            ("docs/landings/W1.md", &longer),
        ]);
        let expected = [
            "docs/LOG.md:3: 151 characters",
            "docs/landings/W1.md:3: 151 characters",
        ];
        assert_eq!(check(&files), (expected.map(String::from).into(), 9));
    }
}
