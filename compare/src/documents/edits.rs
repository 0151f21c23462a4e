//! The must-fail edits: what each replaces stands once in its file, as the edit has made that so far, so that it is not idle.
use super::{text, Checked, Files};
use std::collections::BTreeMap;

pub fn check(files: &Files) -> Checked {
    let (mut faults, mut count) = (Vec::new(), 0);
    for (path, edit) in files {
        let Some((folder, _)) = path.split_once("/must-fail/") else {
            continue;
        };
        count += 1;
        let mut made: BTreeMap<&str, String> = BTreeMap::new();
        let (mut edited, mut replaced) = ("", "");
        for (line, number) in edit.lines().zip(1..) {
            if let Some(file) = line.strip_prefix("file: ") {
                edited = file;
                let of_file = || text(files, &format!("{folder}/{file}")).into();
                made.entry(file).or_insert_with(of_file);
            } else if let Some(old) = line.strip_prefix("old: ") {
                let times = made.get(edited).map_or(0, |it| it.matches(old).count());
                if times != 1 {
                    faults.push(format!(
                        "{path}:{number}: stands {times} times in its file: {old}"
                    ));
                }
                replaced = old;
            } else if let (Some(new), Some(text)) =
                (line.strip_prefix("new: "), made.get_mut(edited))
            {
                *text = text.replacen(replaced, new, 1);
            }
        }
    }
    (faults, count)
}

#[cfg(test)]
mod tests {
    use super::check;
    use crate::documents::files;

    #[test]
    fn an_edit_finds_its_text_once() {
        let edit = "file: src/lib.rt\nold: a < b\nnew: b < a\nold: twice\nnew: once\n";
        let in_turn = "file: src/lib.rt\nold: a < b\nnew: b < a\nold: b < a\nnew: a\nold: a < b\n";
        let files = files(&[
            ("crates/day/must-fail/in_turn.edit", in_turn),
            ("crates/day/must-fail/one.edit", edit),
            ("crates/day/must-fail/other.edit", "file: src/no.rt\nold: a"),
            ("crates/day/src/lib.rt", "if a < b { twice(twice()) }\n"),
        ]);
        let expected = [
            "crates/day/must-fail/in_turn.edit:6: stands 0 times in its file: a < b",
            "crates/day/must-fail/one.edit:4: stands 2 times in its file: twice",
            "crates/day/must-fail/other.edit:2: stands 0 times in its file: a",
        ];
        assert_eq!(check(&files), (expected.map(String::from).into(), 3));
    }
}
