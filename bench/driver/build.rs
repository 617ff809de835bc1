//! Names the files of dame-rs that the library takes, and the library that the program links.
use std::env;
use std::fmt::Write;
use std::fs;
use std::path::Path;

const MODULES: [&str; 11] =
    ["bitboard", "eval", "game", "movegen", "moves", "notation", "perft", "piece", "position", "square", "zobrist"];

fn var(name: &str, what: &str) -> String {
    println!("cargo:rerun-if-env-changed={name}");
    env::var(name).unwrap_or_else(|_| panic!("{name} must be {what}"))
}

fn main() {
    let checkout = var("DAME_RS", "the path of a checkout of dame-rs");
    let source = fs::canonicalize(Path::new(&checkout).join("crates/dame/src")).expect("DAME_RS/crates/dame/src");
    let mut text = String::new();
    for module in MODULES {
        let file = source.join(format!("{module}.rs"));
        println!("cargo:rerun-if-changed={}", file.display());
        writeln!(text, "#[path = {file:?}]\npub mod {module};").unwrap();
    }
    fs::write(Path::new(&env::var("OUT_DIR").unwrap()).join("modules.rs"), text).unwrap();

    let library = var("CORE_LIBRARY", "the path of libbench.a, which bench/build makes");
    println!("cargo:rerun-if-changed={library}");
    println!("cargo:rustc-link-arg-bins={library}");
}
