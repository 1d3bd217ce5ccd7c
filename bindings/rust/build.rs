//! Tells cargo where `libinputplay` lies: in the folder that `INPUTPLAY_LIB_DIR` names, or where `tools/build --library` puts it.
//! It writes the constants of `codes` too, from the table of codes that the packages share.

use std::env;
use std::fmt::Write;
use std::fs;
use std::path::{Path, PathBuf};

const TABLE: &str = "../python/inputplay/event_codes.txt";

fn main() {
    let here = PathBuf::from(env::var_os("CARGO_MANIFEST_DIR").expect("cargo names the folder of the package"));
    find_library(&here);
    let out = PathBuf::from(env::var_os("OUT_DIR").expect("cargo names the folder for what is made"));
    let table = here.join(TABLE);
    println!("cargo:rerun-if-changed=build.rs");
    println!("cargo:rerun-if-changed={}", table.display());
    let rows = fs::read_to_string(&table).unwrap_or_else(|fault| panic!("{}: {fault}", table.display()));
    fs::write(out.join("codes.rs"), constants(&rows)).expect("the folder for what is made takes a file");
}

/// Says where the archive is to be found, and how it is made where it is not there.
fn find_library(here: &Path) {
    println!("cargo:rerun-if-env-changed=INPUTPLAY_LIB_DIR");
    let built = here.ancestors().nth(2).unwrap_or(here).join("out/library");
    let folder = env::var_os("INPUTPLAY_LIB_DIR").map_or(built, PathBuf::from);
    let archive = folder.join("libinputplay.a");
    println!("cargo:rerun-if-changed={}", archive.display());
    if !archive.is_file() {
        println!(
            "cargo:warning={} is not there, so nothing can be linked: make it by `tools/build --library`, \
             or name its folder in INPUTPLAY_LIB_DIR",
            archive.display()
        );
    }
    println!("cargo:rustc-link-search=native={}", folder.display());
    println!("cargo:rustc-link-lib=static=inputplay");
}

/// A constant for each row, and an array of the names of codes.
fn constants(rows: &str) -> String {
    let (mut made, mut names) = (String::new(), String::new());
    for row in rows.lines().filter(|row| !row.starts_with('#')) {
        let words: Vec<&str> = row.split(' ').collect();
        let [kind, name, number] = words[..] else { panic!("{TABLE}: {row}") };
        writeln!(made, "pub const {name}: u16 = {number};").expect("a text takes more");
        if kind != "-" {
            writeln!(names, "    (\"{name}\", {kind}, {number}),").expect("a text takes more");
        }
    }
    format!("{made}\nstatic NAMES: &[(&str, u16, u16)] = &[\n{names}];\n")
}
