//! Links the static library that `rt lib` writes to ../crates/exports/out, writes the entries of the library's table
//! sources as Rust arrays for the plain version, and compiles the published routine where a Fortran compiler is installed.
use std::env;
use std::fs;
use std::path::{Path, PathBuf};
use std::process::Command;

#[path = "src/table_rows.rs"]
mod table_rows;

fn main() {
    let here = PathBuf::from(env::var_os("CARGO_MANIFEST_DIR").expect("cargo sets it"));
    let out = PathBuf::from(env::var_os("OUT_DIR").expect("cargo sets it"));
    link_library(&here.join("../crates/exports/out"));
    write_tables(&here.join("../crates/tables/src"), &out);
    compile_routine(&here.join("fortran/etpcomp.f"), &out);
}

/// Stops the build where the archive is not there, for a linker would only say that it cannot find `exports`.
fn link_library(folder: &Path) {
    let archive = folder.join("libexports.a");
    println!("cargo:rerun-if-changed={}", archive.display());
    if !archive.is_file() {
        println!(
            "cargo::error=there is no crates/exports/out/libexports.a: run `rt lib` in crates/exports first"
        );
    }
    println!("cargo:rustc-link-search=native={}", folder.display());
    println!("cargo:rustc-link-lib=static=exports");
}

/// One `static` for each table, an entry for each index, so that the plain version reads them from constant memory.
fn write_tables(sources: &Path, out: &Path) {
    println!("cargo:rerun-if-changed={}", sources.display());
    let tables = table_rows::tables(sources).expect("the sources of the library's tables");
    let text: String = tables
        .iter()
        .map(|(name, entries)| {
            format!(
                "static {}: [u32; {}] = {entries:?};\n",
                name.to_uppercase(),
                entries.len()
            )
        })
        .collect();
    fs::write(out.join("tables.rs"), text).expect("the build directory takes a file");
}

/// Sets `has_fortran` when the routine is compiled; without a compiler the measurement leaves its line out.
fn compile_routine(source: &Path, out: &Path) {
    println!("cargo:rustc-check-cfg=cfg(has_fortran)");
    println!("cargo:rerun-if-changed={}", source.display());
    let object = out.join("etpcomp.o");
    let compiled = succeeds(
        Command::new("gfortran")
            .args(["-O3", "-fPIC", "-c"])
            .arg(source)
            .arg("-o")
            .arg(&object),
    );
    let archive = out.join("libetpcomp.a");
    if compiled && succeeds(Command::new("ar").arg("crs").arg(&archive).arg(&object)) {
        println!("cargo:rustc-cfg=has_fortran");
        println!("cargo:rustc-link-search=native={}", out.display());
        println!("cargo:rustc-link-lib=static=etpcomp");
    }
}

fn succeeds(command: &mut Command) -> bool {
    command.status().is_ok_and(|status| status.success())
}
