//! An independent implementation of `lislink`, written from its formats alone: safe Rust over the standard library,
//! without proofs and without the crates of this repository. What the proved program prints is compared with it byte
//! for byte, and its speed is measured beside it. It reads 64 KiB at a time and writes what came of a read before the
//! next one.

mod bytes;
mod capture;
mod link;
mod places;
mod ports;
mod receiver;
mod records;
mod show;
mod trees;
mod vecs;

use ports::{Output, Stop};
use std::ffi::OsString;
use std::process::ExitCode;

/// The limits of a frame's text, without and with `--long`.
const USUAL: usize = 240;
const LONG: usize = 63_993;

/// How a run ended that read all that it was to read.
pub struct Report {
    pub status: u8,
    /// What `results` says on standard error of a refused record.
    pub refused: Option<String>,
}

impl Report {
    pub fn of(status: u8) -> Report {
        Report { status, refused: None }
    }
}

/// Makes messages trees, which no command of `lislink` does.
fn run_trees(words: &[&str], output: &mut Output) -> Option<Result<Report, Stop>> {
    Some(match words {
        ["trees", "vecs"] => trees::print::<vecs::Message>(output),
        ["trees", "places"] => trees::print::<places::Message>(output),
        ["trees", "vecs", rounds] => trees::count::<vecs::Message>(rounds.parse().ok()?, output),
        ["trees", "places", rounds] => trees::count::<places::Message>(rounds.parse().ok()?, output),
        _ => return None,
    })
}

fn run(words: &[&str], output: &mut Output) -> Option<Result<Report, Stop>> {
    if words.first() == Some(&"trees") {
        return run_trees(words, output);
    }
    let (command, limit) = match words {
        [command] => (*command, USUAL),
        [command @ ("show" | "replay" | "texts"), "--long"] => (*command, LONG),
        _ => return None,
    };
    Some(match command {
        "show" => show::show(limit, output),
        "check" => records::check(output),
        "results" => records::results(output),
        "replay" => capture::replay(limit, output),
        "texts" => capture::texts(limit, output),
        "upgrade" => capture::upgrade(output),
        _ => return None,
    })
}

fn main() -> ExitCode {
    let words: Result<Vec<String>, OsString> = std::env::args_os().skip(1).map(OsString::into_string).collect();
    let mut output = Output::new();
    let ended = match &words {
        Ok(words) => run(&words.iter().map(String::as_str).collect::<Vec<_>>(), &mut output),
        Err(_) => Some(Err(Stop::Memory)),
    };
    let Some(ended) = ended else {
        eprintln!("usage: lislink COMMAND");
        return ExitCode::from(2);
    };
    match output.flush().and(ended) {
        Ok(report) => {
            if let Some(line) = report.refused {
                eprintln!("lislink: {line}");
            }
            ExitCode::from(report.status)
        }
        Err(stop) => {
            eprintln!("lislink: {stop}");
            ExitCode::from(3)
        }
    }
}
