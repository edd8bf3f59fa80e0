//! Finds the original `lh5801.rs`, changes its one named place, and finds, with the features `probe`
//! and `port`, the port's static libraries.

use std::env;
use std::fs;
use std::path::{Path, PathBuf};
use std::process::exit;

const DEFAULT_ORIGINAL: &str = "../../shared/docs/src/ceres-core/src/lh5801.rs";
/// The head of the one definition that gets another name, and that name's head: the harness has a
/// `halted_states` of its own (src/unit.rs). The rest of the file is included unchanged.
const HEAD: &str = "fn halted_states(";
const RENAMED_HEAD: &str = "fn halted_states_of_the_original(";
const DEFAULT_PROBE_DIR: &str = "../crates/probe/out";
const DEFAULT_PORT_DIR: &str = "../crates/lh5801/out";
const DEFAULT_PORT_NAME: &str = "lh5801";

fn main() {
    let here =
        PathBuf::from(env::var("CARGO_MANIFEST_DIR").expect("cargo sets CARGO_MANIFEST_DIR"));
    println!("cargo:rerun-if-changed=build.rs");
    original(&here);
    probe(&here);
    port(&here);
}

/// A variable of the environment; an empty one counts as not set.
fn variable(name: &str) -> Option<String> {
    println!("cargo:rerun-if-env-changed={name}");
    env::var(name).ok().filter(|value| !value.is_empty())
}

/// Finds the original file, and tells the compiler where it is and where its changed text is.
fn original(here: &Path) {
    let path = variable("LH5801_RS").map_or_else(|| here.join(DEFAULT_ORIGINAL), PathBuf::from);
    println!("cargo:rerun-if-changed={}", path.display());
    match path.canonicalize() {
        Ok(full) if full.is_file() => {
            println!("cargo:rerun-if-changed={}", full.display());
            println!("cargo:rustc-env=LH5801_RS_GIVEN={}", full.display());
            println!("cargo:rustc-env=LH5801_RS_PATH={}", changed(&full).display());
        }
        _ => fail(&format!(
            "The oracle includes the original file lh5801.rs, and it is not at {}. Put the \
             document there, or name another place in the environment variable LH5801_RS (an \
             absolute path), and build again.",
            path.display()
        )),
    }
}

/// Writes the original's text with the one definition renamed, and tells where.
fn changed(original: &Path) -> PathBuf {
    let text = fs::read_to_string(original)
        .unwrap_or_else(|error| fail(&format!("{}: {error}", original.display())));
    let count = text.matches(HEAD).count();
    if count != 1 {
        fail(&format!(
            "The oracle renames one definition of the original file lh5801.rs, that with the head \
             `{HEAD}`, so that a halted step gives the idle figure. In {} this head occurs {count} \
             times, and it has to occur exactly once: is this the original file?",
            original.display()
        ));
    }
    let folder = PathBuf::from(env::var("OUT_DIR").expect("cargo sets OUT_DIR"));
    let place = folder.join("lh5801.rs");
    fs::write(&place, text.replace(HEAD, RENAMED_HEAD))
        .unwrap_or_else(|error| fail(&format!("{}: {error}", place.display())));
    place
}

/// Links `libprobe.a`.
fn probe(here: &Path) {
    let named = variable("PROBE_LIB_DIR");
    let folder = named.map_or_else(|| here.join(DEFAULT_PROBE_DIR), PathBuf::from);
    if env::var_os("CARGO_FEATURE_PROBE").is_some() {
        let more = "name the library's folder in the environment variable PROBE_LIB_DIR";
        link("probe", "probe", &folder.join("libprobe.a"), more);
    }
}

/// Links `liblh5801.a`, or the archive that `PORT_LIB_DIR` and `PORT_LIB_NAME` tell.
fn port(here: &Path) {
    let named = variable("PORT_LIB_DIR");
    let folder = named.map_or_else(|| here.join(DEFAULT_PORT_DIR), PathBuf::from);
    let name = variable("PORT_LIB_NAME").unwrap_or_else(|| DEFAULT_PORT_NAME.to_string());
    let archive = folder.join(format!("lib{name}.a"));
    println!("cargo:rustc-env=PORT_ARCHIVE={}", archive.display());
    if env::var_os("CARGO_FEATURE_PORT").is_some() {
        let more = "name another archive in the environment variables PORT_LIB_DIR and \
                    PORT_LIB_NAME";
        link("port", "lh5801", &archive, more);
    }
}

/// Gives an archive to the linker, by its full path: a package with a library of its own would
/// otherwise link it into that library only.
fn link(feature: &str, library: &str, archive: &Path, more: &str) {
    println!("cargo:rerun-if-changed={}", archive.display());
    match archive.canonicalize() {
        Ok(full) if full.is_file() => println!("cargo:rustc-link-arg={}", full.display()),
        _ => fail(&format!(
            "The feature `{feature}` links the port's static library, and it is not at {}: run \
             `rt lib` in crates/{library} first, or {more} (an absolute path).",
            archive.display()
        )),
    }
}

fn fail(message: &str) -> ! {
    eprintln!("{message}");
    exit(1);
}
