//! Texts of lines: a file each, checked by itself.

use crate::report::{printable, read, readable, Report, REFUSED};
use lofashunge::host::{self, Verdict, VERDICTS};
use std::ffi::{OsStr, OsString};
use std::sync::atomic::{AtomicUsize, Ordering};
use std::sync::Mutex;

fn words(verdict: Verdict, text: &[u8]) -> String {
    let number = verdict.number;
    let (name, _) = VERDICTS[number as usize];
    let Some(before) = verdict.line.checked_sub(1) else {
        return format!("refused, {name} ({number})");
    };
    let line = text.split(|&b| b == b'\n').nth(before as usize).unwrap_or_default();
    format!("refused, {name} ({number}) at line {}: {}", verdict.line, readable(line))
}

fn report(name: &OsStr) -> Report {
    let text = match read(name) {
        Ok(text) => text,
        Err(why) => return Report::unreadable(name, why),
    };
    let verdict = host::check(&text);
    if verdict.number == 0 {
        return Report::accepted(name);
    }
    Report { words: format!("{}: {}", printable(name), words(verdict, &text)), status: REFUSED }
}

/// A report for each file, in their order; the files are shared out over the machine's cores.
pub fn reports(names: &[OsString]) -> Vec<Report> {
    let next = AtomicUsize::new(0);
    let done: Mutex<Vec<(usize, Report)>> = Mutex::new(Vec::new());
    let cores = std::thread::available_parallelism().map_or(1, |n| n.get());
    std::thread::scope(|scope| {
        for _ in 0..cores.min(names.len()) {
            scope.spawn(|| loop {
                let at = next.fetch_add(1, Ordering::Relaxed);
                let Some(name) = names.get(at) else { return };
                let report = report(name);
                done.lock().unwrap().push((at, report));
            });
        }
    });
    let mut done = done.into_inner().unwrap();
    done.sort_by_key(|(at, _)| *at);
    done.into_iter().map(|(_, report)| report).collect()
}
