//! What is said of files, and how they are read.

use lofashunge::host::TEXT_BYTES;
use std::ffi::OsStr;
use std::fs::File;
use std::io::{self, Read, Write};

/// How much of a refused line or statement is shown.
const WIDTH: usize = 72;

pub const REFUSED: u8 = 1;
pub const UNREADABLE: u8 = 2;

/// What is said of a file or of three, and the exit status that it asks for.
pub struct Report {
    pub words: String,
    pub status: u8,
}

impl Report {
    pub fn accepted(name: &OsStr) -> Report {
        Report { words: format!("{}: accepted", printable(name)), status: 0 }
    }

    pub fn unreadable(name: &OsStr, why: impl std::fmt::Display) -> Report {
        Report { words: format!("{}: cannot be read: {why}", printable(name)), status: UNREADABLE }
    }

    /// Says it, on standard error where nothing was checked, and gives its status.
    pub fn say(self, out: &mut impl Write) -> io::Result<u8> {
        if self.status == UNREADABLE {
            eprintln!("lpac: {}", self.words);
        } else {
            writeln!(out, "{}", self.words)?;
        }
        Ok(self.status)
    }
}

/// Bytes as they are where they can be printed; others, and the backslash, by an escape.
pub fn readable(bytes: &[u8]) -> String {
    let mut shown = String::new();
    for &b in bytes {
        let piece = match b {
            b'\t' => "\\t".to_string(),
            b'\n' => "\\n".to_string(),
            b'\r' => "\\r".to_string(),
            b'\\' => "\\\\".to_string(),
            b' '..=b'~' => (b as char).to_string(),
            _ => format!("\\x{b:02x}"),
        };
        if shown.len() + piece.len() > WIDTH {
            return shown + " ...";
        }
        shown += &piece;
    }
    shown
}

/// A file's name with its control characters escaped, so that none begins a line of its own.
pub fn printable(name: &OsStr) -> String {
    let shown = |c: char| if c.is_control() { c.escape_default().to_string() } else { c.to_string() };
    name.to_string_lossy().chars().map(shown).collect()
}

/// The text of a file or of standard input; of one that is too long, a byte more than a host call takes.
pub fn read(name: &OsStr) -> io::Result<Vec<u8>> {
    let source: Box<dyn Read> = if name == "-" { Box::new(io::stdin()) } else { Box::new(File::open(name)?) };
    let mut text = Vec::new();
    source.take(TEXT_BYTES as u64 + 1).read_to_end(&mut text)?;
    Ok(text)
}
