//! The five tables as they stand in the library's sources: each one constant, `= [NUMBER, NUMBER, ..];`.
use std::path::Path;

/// albedo, a1, aw, bw and the pressure, each with its name.
pub fn tables(sources: &Path) -> Result<[(&'static str, Vec<u64>); 5], String> {
    let table = |name| Ok::<_, String>((name, entries(&sources.join(format!("{name}_table.rt")))?));
    Ok([
        table("albedo")?,
        table("a1")?,
        table("aw")?,
        table("bw")?,
        table("pressure")?,
    ])
}

fn entries(source: &Path) -> Result<Vec<u64>, String> {
    let at = |problem: String| format!("{}: {problem}", source.display());
    let text = std::fs::read_to_string(source).map_err(|error| at(error.to_string()))?;
    let (_, array) = text
        .split_once("= [")
        .ok_or_else(|| at("no array".into()))?;
    let (array, _) = array
        .split_once(']')
        .ok_or_else(|| at("an array without an end".into()))?;
    array
        .split(',')
        .map(str::trim)
        .filter(|entry| !entry.is_empty())
        .map(|entry| {
            entry
                .parse()
                .map_err(|_| at(format!("{entry} is no number")))
        })
        .collect()
}
