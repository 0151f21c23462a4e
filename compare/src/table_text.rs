//! The numbers in the source text of the library's tables against the second implementation's own tables.
use crate::second::tables::TABLES;
use crate::table_rows;
use std::path::Path;

/// The number of entries compared, or the first that differs.
pub fn compare() -> Result<usize, String> {
    let sources = Path::new(env!("CARGO_MANIFEST_DIR")).join("../crates/tables/src");
    let own = [
        &TABLES.albedo,
        &TABLES.a1,
        &TABLES.aw,
        &TABLES.bw,
        &TABLES.pressure,
    ];
    let mut compared = 0;
    for ((name, written), expected) in table_rows::tables(&sources)?.into_iter().zip(own) {
        if written.len() != expected.len() {
            let lengths = (written.len(), expected.len());
            return Err(format!(
                "table {name}: {} entries, not {}",
                lengths.0, lengths.1
            ));
        }
        for (place, (written, expected)) in written.iter().zip(expected).enumerate() {
            if i128::from(*written) != *expected {
                return Err(format!(
                    "table {name}, entry {place} from 0: {written}, not {expected}"
                ));
            }
            compared += 1;
        }
    }
    Ok(compared)
}

#[cfg(test)]
mod tests {
    #[test]
    fn every_entry_is_the_same() {
        assert_eq!(super::compare(), Ok(4 * 366 + 3_001));
    }
}
