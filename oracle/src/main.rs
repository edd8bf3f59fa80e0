//! The oracle: the original `lh5801.rs`, included unchanged but for one name, against other
//! implementations.

#![deny(unsafe_code)]

mod analyser;
#[cfg(test)]
mod analyser_faults;
mod arguments;
#[cfg(feature = "probe")]
mod arithmetic;
mod campaign;
mod compare;
mod differential;
mod directed;
mod drops;
#[cfg(test)]
mod faults;
mod first_step;
mod fuzz;
mod halted;
mod help;
mod ir0;
mod ir0_counts;
#[cfg(test)]
mod ir0_faults;
mod item;
mod items;
mod lines;
mod list;
mod logs;
mod memory;
mod model;
mod original;
mod pair;
mod pairs;
mod pairs_directed;
mod park;
mod port;
#[cfg(feature = "probe")]
mod probe;
mod progress;
mod protect;
mod random;
mod read_only;
#[cfg(test)]
mod read_only_faults;
mod real_logs;
mod replay;
mod rerun;
mod shrink;
mod shrink_pair;
mod speed;
mod speed_analyser;
mod speed_log;
#[cfg(test)]
mod step_by_step;
mod stop_addresses;
mod stop_counts;
#[cfg(test)]
mod stop_faults;
mod stop_law;
mod stops;
mod symbols;
mod tallies;
mod traces;
mod waits;

// The included file names these two from the crate's root.
pub use bare::host_io;
pub use original::Pc1500;

use std::env;
use std::fs::File;
use std::io::{self, BufWriter, Read, Write};
use std::path::{Path, PathBuf};
use std::process::ExitCode;

use arguments::Arguments;
use bare::{call, opcodes};
use call::{Access, Answer, BusLog, Side};
use help::HELP;
use lines::Source;
use model::Model;
use original::Original;
use port::Port;

/// Where the port's program is without `--program`, the replay list without a folder, and the
/// measured campaign files without `--bench`.
const CAMPAIGN: &str = concat!(env!("CARGO_MANIFEST_DIR"), "/../crates/campaign/out/campaign");
const REPLAY: &str = concat!(env!("CARGO_MANIFEST_DIR"), "/../crates/replay/data");
const BENCH: &str = concat!(env!("CARGO_MANIFEST_DIR"), "/../../shared/bench");

/// All sides.
const SIDES: [&str; 3] = ["original", "model", "port"];

const WITHOUT_PROBE: &str = "this oracle was built without the feature `probe`";

/// The side of a name, of which these may be chosen.
fn side(name: &str, of: &[&str]) -> Result<Box<dyn Side>, String> {
    match name {
        _ if !of.contains(&name) => Err(format!("no such side: {name}")),
        "model" => Ok(Box::new(Model::default())),
        "port" => wants_port().map(|()| Box::new(Port) as Box<dyn Side>),
        _ => Ok(Box::new(Original)),
    }
}

fn read_input(file: Option<&str>) -> Result<Vec<u8>, String> {
    let mut bytes = Vec::new();
    let limit = campaign::GREATEST_INPUT;
    match file {
        None | Some("-") => io::stdin().take(limit).read_to_end(&mut bytes),
        Some(name) => File::open(name).and_then(|file| file.take(limit).read_to_end(&mut bytes)),
    }
    .map_err(|error| format!("{}: {error}", file.unwrap_or("standard input")))?;
    Ok(bytes)
}

/// Without a side it is the original's line, or the port's trace. The log of a trace never fills.
fn run(arguments: &Arguments) -> Result<bool, String> {
    let trace = arguments.has("--trace");
    let name = arguments.option("--side").unwrap_or(if trace { "port" } else { "original" });
    let mut side = side(name, &SIDES)?;
    let bytes = read_input(arguments.positional(1)?)?;
    let mut call = match campaign::read(&bytes) {
        Ok(call) => call,
        Err(defect) => {
            println!("{}", defect.line());
            return Ok(true);
        }
    };
    call.inputs.stop_address = arguments.address("--stop")?;
    call.bus_log = trace.then(|| BusLog::for_steps(call.limit));
    let answer = match name {
        "original" if trace => compare::ordered_original(&call),
        _ => side.call(&call),
    };
    if let Some(message) = &answer.failure {
        return Err(format!("the side failed: {message}"));
    }
    print_trace(&answer).map_err(|error| format!("writing the trace: {error}"))?;
    println!("{}", answer.line());
    Ok(true)
}

/// The log's entries, one a line; nothing where there is no log.
fn print_trace(answer: &Answer) -> io::Result<()> {
    let Some(log) = &answer.bus_log else { return Ok(()) };
    let mut out = BufWriter::new(io::stdout().lock());
    for entry in &log.entries[..log.used] {
        writeln!(out, "{}", Access::of_entry(*entry))?;
    }
    out.flush()
}

/// A command that runs the port is there with the feature `port` only.
fn wants_port() -> Result<(), String> {
    if port::LINKED {
        return Ok(());
    }
    Err(format!("this oracle was built without the feature `port`\n\n{}", help::PORT_HELP))
}

fn compare(arguments: &Arguments) -> Result<bool, String> {
    let other = side(arguments.option("--side").unwrap_or("model"), &["model", "port"])?;
    Ok(compare::run(arguments.count()?, arguments.seed()?, other))
}

fn differential(arguments: &Arguments) -> Result<bool, String> {
    arguments.positional(0)?;
    wants_port()?;
    let steps = arguments.positive("--steps", 100_000_000)?;
    let threads = arguments.positive("--threads", 2)?.min(64);
    Ok(differential::run(&differential::Settings { steps, seed: arguments.seed()?, threads }))
}

fn rerun(arguments: &Arguments) -> Result<bool, String> {
    wants_port()?;
    Ok(rerun::run(arguments.count()?, arguments.seed()?))
}

fn park(arguments: &Arguments) -> Result<bool, String> {
    wants_port()?;
    Ok(park::run(arguments.positive_word("a number of waiting steps", 10_000_000)?))
}

fn analyser(arguments: &Arguments) -> Result<bool, String> {
    wants_port()?;
    Ok(analyser::run(arguments.count()?, arguments.seed()?))
}

/// The library's function, where this oracle has it and no program is named.
fn source(program: Option<&str>) -> Result<Source, String> {
    if let (None, Some(report)) = (program, lines::LIBRARY) {
        return Ok(Source::Library(report));
    }
    let program = PathBuf::from(program.unwrap_or(CAMPAIGN));
    let found = program.canonicalize().map_err(|error| {
        let program = program.display();
        format!("{program}: {error}: run `rt run` in crates/campaign first, or use --program")
    });
    found.map(Source::Program)
}

fn campaign(arguments: &Arguments) -> Result<bool, String> {
    let source = source(arguments.option("--program"))?;
    let (files, seed) = (arguments.count()?, arguments.seed()?);
    Ok(fuzz::run(&fuzz::Settings { files, seed, source }))
}

fn replay(arguments: &Arguments) -> Result<bool, String> {
    let folder = arguments.positional(1)?.unwrap_or(REPLAY);
    wants_port()?;
    let missing = || format!("{WITHOUT_PROBE}\n\n{}", help::PROBE_HELP);
    replay::run(Path::new(folder), lines::LIBRARY.ok_or_else(missing)?)
}

fn items(arguments: &Arguments) -> Result<bool, String> {
    let folder = arguments.option("--out").ok_or("--out DIR is missing")?;
    items::write(arguments.count()?, arguments.seed()?, Path::new(folder)).map(|()| true)
}

fn speed(arguments: &Arguments) -> Result<bool, String> {
    arguments.positional(0)?;
    wants_port()?;
    let bench = PathBuf::from(arguments.option("--bench").unwrap_or(BENCH));
    let rounds = arguments.positive("--rounds", 15)?;
    let wanted = arguments.number("--least", 0)?;
    let alone = symbols::run(Path::new(env!("PORT_ARCHIVE")))?;
    println!();
    let least = speed::run(&speed::Settings { rounds, bench })?;
    println!("\nleast ratio of the whole runs, bare/port: {least:.2}");
    Ok(alone && least * 100.0 >= wanted as f64)
}

fn once(arguments: &Arguments) -> Result<bool, String> {
    let [way, file] = arguments.exactly("original, bare or port, and a FILE")?;
    if !speed::WAYS.contains(&way) {
        return Err(format!("no such way to run: {way}"));
    }
    if way == "port" {
        wants_port()?;
    }
    let is_logged = arguments.has("--log");
    if is_logged && way != "port" {
        return Err("--log is of the port alone".to_string());
    }
    println!("{}", speed::once(way, Path::new(file), is_logged)?);
    Ok(true)
}

fn symbols(arguments: &Arguments) -> Result<bool, String> {
    let archive = arguments.positional(1)?.unwrap_or(env!("PORT_ARCHIVE"));
    symbols::run(Path::new(archive))
}

fn list(arguments: &Arguments) -> Result<bool, String> {
    if let Some(file) = arguments.option("--check") {
        arguments.positional(0)?;
        return check(file, arguments.option("--side").unwrap_or("original"));
    }
    let (count, seed) = (arguments.count()?, arguments.seed()?);
    let Some(file) = arguments.option("--out") else {
        let mut out = BufWriter::new(io::stdout().lock());
        list::write(count, seed, &mut out)?;
        return out.flush().map(|()| true).map_err(|error| format!("writing the list: {error}"));
    };
    let failed = |error: io::Error| format!("{file}: {error}");
    let mut out = BufWriter::new(File::create(file).map_err(failed)?);
    let lines = list::write(count, seed, &mut out)?;
    out.flush().map_err(failed)?;
    println!("{lines} calls written to {file}");
    Ok(true)
}

fn check(file: &str, name: &str) -> Result<bool, String> {
    let text = std::fs::read_to_string(file).map_err(|error| format!("{file}: {error}"))?;
    let mut side = side(name, &SIDES)?;
    let (calls, differing) = list::check(&text, side.as_mut())?;
    for line in &differing {
        println!("line {line} differs");
    }
    println!("{calls} calls against the {}, {} differences", side.name(), differing.len());
    Ok(differing.is_empty())
}

#[cfg(feature = "probe")]
fn arithmetic(arguments: &Arguments) -> Result<bool, String> {
    arguments.positional(0)?;
    Ok(arithmetic::run())
}

#[cfg(not(feature = "probe"))]
fn arithmetic(_: &Arguments) -> Result<bool, String> {
    Err(format!("{WITHOUT_PROBE}\n\n{}", help::PROBE_HELP))
}

/// A command: its name, help, options and function.
type Command =
    (&'static str, &'static str, &'static [&'static str], fn(&Arguments) -> Result<bool, String>);

const COMMANDS: [Command; 14] = [
    ("run", help::RUN_HELP, &["--side=", "--trace", "--stop="], run),
    ("compare", help::COMPARE_HELP, &["--seed=", "--side="], compare),
    ("differential", help::DIFFERENTIAL_HELP, &["--steps=", "--seed=", "--threads="], differential),
    ("rerun", help::RERUN_HELP, &["--seed="], rerun),
    ("park", help::PARK_HELP, &[], park),
    ("analyser", help::ANALYSER_HELP, &["--seed="], analyser),
    ("campaign", help::CAMPAIGN_HELP, &["--seed=", "--program="], campaign),
    ("replay", help::REPLAY_HELP, &[], replay),
    ("items", help::ITEMS_HELP, &["--seed=", "--out="], items),
    ("speed", help::SPEED_HELP, &["--rounds=", "--bench=", "--least="], speed),
    ("once", help::ONCE_HELP, &["--log"], once),
    ("symbols", help::SYMBOLS_HELP, &[], symbols),
    ("list", help::LIST_HELP, &["--seed=", "--out=", "--check=", "--side="], list),
    ("arithmetic", help::ARITHMETIC_HELP, &[], arithmetic),
];

fn dispatch(words: &[String]) -> Result<bool, String> {
    let asks_help = |word: &String| word == "--help" || word == "-h";
    let Some(name) = words.first() else {
        return Err(format!("a command is missing\n\n{HELP}"));
    };
    if asks_help(name) {
        print!("{HELP}");
        return Ok(true);
    }
    let found = COMMANDS.iter().find(|(known, ..)| known == name);
    let (_, help, known, function) = found.ok_or(format!("no such command: {name}\n\n{HELP}"))?;
    if words.iter().any(asks_help) {
        print!("{help}");
        return Ok(true);
    }
    function(&Arguments::parse(&words[1..], known)?)
}

fn main() -> ExitCode {
    let words: Vec<String> = env::args().skip(1).collect();
    match dispatch(&words) {
        Ok(true) => ExitCode::SUCCESS,
        Ok(false) => ExitCode::from(1),
        Err(message) => {
            eprintln!("oracle: {}", message.trim_end());
            ExitCode::from(2)
        }
    }
}
