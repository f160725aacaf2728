//! The command for people. The proved host calls decide; here files are read and their answers are put into words.

mod lines;
mod published;
mod report;

use lofashunge::host::VERDICTS;
use report::{Report, UNREADABLE};
use std::ffi::OsString;
use std::io::{self, Write};
use std::process::ExitCode;

const USAGE: &str = "usage: lpac check FILE...                                   check texts of proof lines
       lpac check --ring K CONSTRAINTS TARGET PROOF         check a proof as LPAC is published, modulo 2^K
       lpac --help                                          this page, with the verdicts
One of the files may be -, which is standard input.";

fn help() -> String {
    let rows = VERDICTS.iter().enumerate().map(|(number, (name, when))| format!("  {number:2}  {name:10}  {when}\n"));
    format!(
        "{USAGE}

Of lines, one line is printed for each file: accepted, or the verdict's name, number and line, and that line of the text.
For NOGOAL and NOTREACHED the line is the last one.
Of a published proof one line is printed: accepted behind the proof's name, or the file, line and column where the refused
statement begins, the verdict's name and number, the rule, and the statement.
Exit status: 0 all were accepted, 1 one was refused, 2 one could not be read or K is no decimal without leading zero.

The verdicts:
{}",
        rows.collect::<String>()
    )
}

fn say_all(reports: Vec<Report>) -> io::Result<u8> {
    let mut status = 0;
    let mut out = io::stdout().lock();
    for report in reports {
        status = status.max(report.say(&mut out)?);
    }
    Ok(status)
}

/// What the arguments behind `check` ask for, unless they are none of the usage.
fn check(arguments: &[OsString]) -> Option<io::Result<u8>> {
    if arguments.iter().filter(|a| *a == "-").count() > 1 {
        return None;
    }
    match arguments {
        [option, ring, files @ ..] if option == "--ring" => Some(say_all(vec![published::report(ring, files.try_into().ok()?)])),
        names if names.is_empty() || names.iter().any(|name| name == "--ring") => None,
        names => Some(say_all(lines::reports(names))),
    }
}

fn main() -> ExitCode {
    let arguments: Vec<OsString> = std::env::args_os().skip(1).collect();
    let asked = arguments.iter().any(|a| a == "--help" || a == "-h");
    let done = match arguments.split_first() {
        _ if asked => Some(io::stdout().write_all(help().as_bytes()).map(|()| 0)),
        Some((word, rest)) if word == "check" => check(rest),
        _ => None,
    };
    let status = done.unwrap_or_else(|| {
        eprintln!("{USAGE}");
        Ok(UNREADABLE)
    });
    ExitCode::from(status.unwrap_or(UNREADABLE))
}
