//! The port's line for a campaign file: from its library's function, or from its program.

#![forbid(unsafe_code)]

use std::fmt;
use std::io::{ErrorKind, Write};
use std::path::{Path, PathBuf};
use std::process::{Command, Stdio};

use crate::campaign::GREATEST_INPUT;

/// The library's function: from a file's bytes to its line, or what is wrong with the answer.
pub type Report = fn(&[u8]) -> Result<Vec<u8>, String>;

/// That function, where this oracle was built with the feature `probe`.
#[cfg(feature = "probe")]
pub const LIBRARY: Option<Report> = Some(crate::probe::report);
#[cfg(not(feature = "probe"))]
pub const LIBRARY: Option<Report> = None;

/// Where the port's lines come from.
pub enum Source {
    /// The library's function, called in this process.
    Library(Report),
    /// The program, run once for each file.
    Program(PathBuf),
}

impl fmt::Display for Source {
    fn fmt(&self, f: &mut fmt::Formatter<'_>) -> fmt::Result {
        match self {
            Source::Library(_) => f.write_str("the library's function probe_report"),
            Source::Program(program) => write!(f, "the program {}", program.display()),
        }
    }
}

impl Source {
    /// The bytes of a file that are read: all of them, or so many as the program reads.
    pub fn read<'a>(&self, file: &'a [u8]) -> &'a [u8] {
        match self {
            Source::Library(_) => file,
            Source::Program(_) => &file[..file.len().min(GREATEST_INPUT as usize)],
        }
    }

    /// The line for a file, with its newline.
    pub fn line(&self, file: &[u8]) -> Result<String, String> {
        let line = match self {
            Source::Library(report) => report(file)?,
            Source::Program(program) => printed(program, file)?,
        };
        String::from_utf8(line).map_err(|_| "the line is not text".to_string())
    }
}

/// What the program prints for a file.
fn printed(program: &Path, file: &[u8]) -> Result<Vec<u8>, String> {
    let failed = |error| format!("{}: {error}", program.display());
    let mut command = Command::new(program);
    let pipes = command.stdin(Stdio::piped()).stdout(Stdio::piped()).stderr(Stdio::piped());
    let mut child = pipes.spawn().map_err(failed)?;
    let mut input = child.stdin.take().ok_or("no standard input")?;
    match input.write_all(file) {
        // The program reads 33,000 bytes and may end before it is given more.
        Err(error) if error.kind() != ErrorKind::BrokenPipe => return Err(failed(error)),
        _ => drop(input),
    }
    let output = child.wait_with_output().map_err(failed)?;
    if !output.status.success() || !output.stderr.is_empty() {
        let error = String::from_utf8_lossy(&output.stderr);
        return Err(format!("the program ended with {}: {error}", output.status));
    }
    Ok(output.stdout)
}
