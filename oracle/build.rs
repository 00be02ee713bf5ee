//! Finds the flite-rs sources, writes the file that brings them into this
//! crate, and names the archives to link.
//!
//! FLITE_RS_SRC gives the folder of the sources, ORACLE_ARCHIVES the folder of
//! the archives. A relative path counts from this package's folder.

use std::env;
use std::fs;
use std::path::{Path, PathBuf};
use std::process::exit;

/// Compiled where they stand, unchanged.
const BY_PATH: [&str; 5] = ["data", "phoneset", "utterance", "value", "voice"];

/// Copied with one line added, which makes `access/NAME.rs` a child module.
/// A child module may read the private functions and fields of its parent.
const WITH_ACCESS: [&str; 2] = ["diphone", "dsp"];

fn main() {
    let manifest = PathBuf::from(variable("CARGO_MANIFEST_DIR"));
    let out = PathBuf::from(variable("OUT_DIR"));
    println!("cargo::rerun-if-changed=build.rs");

    let sources = place(&manifest, "FLITE_RS_SRC", "../../shared/docs/src/src");
    let mut root = String::new();
    for name in BY_PATH {
        root += &module(name, &source(&sources, name));
    }
    for name in WITH_ACCESS {
        let access = manifest.join("access").join(format!("{name}.rs"));
        println!("cargo::rerun-if-changed={}", access.display());
        let copy = out.join(format!("{name}.rs"));
        let text = read(&source(&sources, name));
        write(&copy, &format!("{text}\n{}", module("access", &access)));
        root += &module(name, &copy);
    }
    write(&out.join("root.rs"), &root);

    for name in ["diphone_c", "probe", "probe_call", "probe_state"] {
        let feature = format!("CARGO_FEATURE_{}", name.to_uppercase());
        if env::var_os(feature).is_some() {
            link(&manifest, name);
        }
    }
}

/// Links `libNAME.a` from the folder of the archives.
fn link(manifest: &Path, name: &str) {
    let folder = place(manifest, "ORACLE_ARCHIVES", "../target/staticlib");
    let archive = folder.join(format!("lib{name}.a"));
    println!("cargo::rerun-if-changed={}", archive.display());
    if !archive.is_file() {
        stop(&format!(
            "no archive {}: build it, or set ORACLE_ARCHIVES",
            archive.display()
        ));
    }
    println!("cargo::rustc-link-search=native={}", folder.display());
    println!("cargo::rustc-link-lib=static={name}");
}

/// A folder given by an environment variable, or its default.
fn place(manifest: &Path, name: &str, default: &str) -> PathBuf {
    println!("cargo::rerun-if-env-changed={name}");
    let given = env::var_os(name).filter(|text| !text.is_empty());
    manifest.join(given.unwrap_or_else(|| default.into()))
}

/// The path of one source file, which must exist.
fn source(sources: &Path, name: &str) -> PathBuf {
    let path = sources.join(format!("{name}.rs"));
    println!("cargo::rerun-if-changed={}", path.display());
    if !path.is_file() {
        stop(&format!(
            "no flite-rs source {}: set FLITE_RS_SRC to the folder that has it",
            path.display()
        ));
    }
    path
}

/// A line that declares a module at a given path. Not all of it is used here.
fn module(name: &str, path: &Path) -> String {
    let path = path.display().to_string();
    format!("#[allow(dead_code)]\n#[path = {path:?}]\npub mod {name};\n")
}

fn variable(name: &str) -> String {
    env::var(name).unwrap_or_else(|_| stop(&format!("{name} is not set; build with cargo")))
}

fn read(path: &Path) -> String {
    fs::read_to_string(path).unwrap_or_else(|e| stop(&format!("{}: {e}", path.display())))
}

fn write(path: &Path, text: &str) {
    fs::write(path, text).unwrap_or_else(|e| stop(&format!("{}: {e}", path.display())));
}

fn stop(message: &str) -> ! {
    eprintln!("oracle: {message}");
    exit(1)
}
