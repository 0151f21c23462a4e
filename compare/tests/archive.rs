//! What the archive for C asks of other libraries: nothing, as docs/LINKING.md says.
use std::process::Command;

#[test]
fn nothing_is_needed_from_outside() {
    let archive = concat!(
        env!("CARGO_MANIFEST_DIR"),
        "/../crates/exports/out/libexports.a"
    );
    let nm = Command::new("nm")
        .args(["-u", archive])
        .output()
        .expect("nm, which comes with the C compiler, is there");
    assert!(nm.status.success(), "nm cannot read {archive}");
    let listed = String::from_utf8_lossy(&nm.stdout);
    let needed: Vec<&str> = listed
        .lines()
        .filter_map(|line| line.trim().strip_prefix("U "))
        .collect();
    assert!(needed.is_empty(), "the archive needs {needed:?}");
}
