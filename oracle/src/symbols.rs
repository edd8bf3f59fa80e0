//! The symbols of the port's archive: the two exported entries, the run call with the loop over
//! steps in it and the comparison of a log, and no other function but those of the crate `bus`,
//! which only a call with a log takes (docs/DECISIONS.md, F-2).

#![forbid(unsafe_code)]

use std::path::Path;
use std::process::Command;

/// The functions that the archive exports.
const ENTRIES: [&str; 2] = ["lh5801_call", "lh5801_compare"];

/// Kind and name of each symbol in what `nm` prints.
fn symbols(listing: &str) -> Vec<(char, String)> {
    let words = listing.lines().map(|line| line.split_whitespace().collect::<Vec<_>>());
    let symbol = |words: Vec<&str>| {
        let [.., kind, name] = words[..] else { return None };
        let mut letters = kind.chars();
        let letter = letters.next().filter(|letter| letter.is_ascii_alphabetic())?;
        letters.next().is_none().then(|| (letter, name.to_string()))
    };
    words.filter_map(symbol).collect()
}

/// A function, exported (T, W, i) or not (t, w).
fn is_text(kind: char) -> bool {
    "TtWwi".contains(kind)
}

/// A function that a log needs, not exported: of the crate `bus`, which computes its entries.
fn is_of_log(kind: char, name: &str) -> bool {
    kind == 't' && name.starts_with("bus::")
}

/// Is each entry exported, and is every other function the log's?
fn entries_alone(symbols: &[(char, String)]) -> bool {
    let is_exported = |entry: &&str| symbols.contains(&('T', entry.to_string()));
    let is_other = |(kind, name): &(char, String)| {
        is_text(*kind) && !ENTRIES.contains(&name.as_str()) && !is_of_log(*kind, name)
    };
    ENTRIES.iter().all(is_exported) && !symbols.iter().any(is_other)
}

/// Checks the archive; true where the entries are its only functions besides those of the log.
pub fn run(archive: &Path) -> Result<bool, String> {
    if !archive.is_file() {
        return Err(format!(
            "{} is missing: run `rt lib` in crates/lh5801 first",
            archive.display()
        ));
    }
    let output =
        Command::new("nm").arg(archive).output().map_err(|error| format!("nm: {error}"))?;
    if !output.status.success() {
        return Err(format!("nm: {}", String::from_utf8_lossy(&output.stderr).trim_end()));
    }
    let symbols = symbols(&String::from_utf8_lossy(&output.stdout));
    let of = |wanted: &dyn Fn(char) -> bool| {
        let found = symbols.iter().filter(|(kind, _)| wanted(*kind));
        found.map(|(_, name)| name.as_str()).collect::<Vec<_>>()
    };
    let text = of(&is_text);
    println!("{}", archive.display());
    println!("functions: {}", text.join(" "));
    println!("wanted from outside: {}", of(&|kind| kind == 'U').join(" "));
    println!("other symbols: {}", of(&|kind| kind != 'U' && !is_text(kind)).join(" "));
    let alone = entries_alone(&symbols);
    let only = if alone { "the only" } else { "NOT the only" };
    println!("{} are {only} functions besides those of the log", ENTRIES.join(" and "));
    Ok(alone)
}

#[cfg(test)]
mod tests {
    use super::{entries_alone, symbols};

    #[test]
    fn a_listing_is_read() {
        let listing = "\nrun.o:\n0000 r .L\n0000 T lh5801_call\n         U memcpy\n";
        let expected = [('r', ".L"), ('T', "lh5801_call"), ('U', "memcpy")];
        let expected = expected.map(|(kind, name)| (kind, name.to_string()));
        assert_eq!(symbols(listing), expected);
    }

    #[test]
    fn another_function_is_found() {
        let entries = "0000 T lh5801_call\n0000 T lh5801_compare\n";
        let with = |line: &str| entries_alone(&symbols(&format!("{entries}{line}\n")));
        assert!(with("") && with("0000 t bus::note_step"));
        assert!(!with("0000 t run::steps_of"));
        assert!(!with("0000 T bus::note_step"));
        assert!(!with("0000 t analyser::compare"));
    }

    #[test]
    fn a_missing_entry_is_found() {
        assert!(!entries_alone(&symbols("0000 T lh5801_call\n")));
        assert!(!entries_alone(&symbols("0000 T lh5801_compare\n")));
        assert!(!entries_alone(&symbols("0000 T lh5801_call\n0000 t lh5801_compare\n")));
        assert!(!entries_alone(&symbols("0000 t lh5801_call\n0000 T lh5801_compare\n")));
    }
}
