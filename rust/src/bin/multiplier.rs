//! Writes a multiplier's proof, with or without an accumulator, as a text of lines or as the three published texts.

use lofashunge::multiplier::{published, text, Block, Style};
use std::io::{self, Write};
use std::path::Path;
use std::process::ExitCode;

const USAGE: &str = "usage: multiplier [--accumulate W] N K STYLE
           write the lines to standard output
       multiplier [--accumulate W] --published DIR N STYLE
           write DIR/constraints, DIR/target and DIR/proof; the ring is the caller's
       multiplier --help
           this page

N is 2 to 8, K is 1 to 64, and STYLE is one of
  onelin    one linear combination for everything
  cells     one a cell and one a row, with deletions
  fine      every sum one of its own, with deletions

--accumulate W puts a W-bit accumulator behind the N by N multiplier, W from 1 to 40. What is proved holds modulo 2^W: the ring is at
most W. The goal is the accumulator's new bits less its old ones and the product of the numbers; where that has more than 96 terms
(2*W + N*N), less its old ones and the product's output bits.";

fn number_in(range: std::ops::RangeInclusive<usize>, word: &str) -> Option<usize> {
    word.parse().ok().filter(|n| range.contains(n))
}

fn style(word: &str) -> Option<Style> {
    match word {
        "onelin" => Some(Style::OneLin),
        "cells" => Some(Style::Cells),
        "fine" => Some(Style::Fine),
        _ => None,
    }
}

/// The proof is the same in every ring of the block.
fn write_published(folder: &Path, block: Block, style: Style) -> io::Result<()> {
    let published = published(block, block.greatest_ring(), style);
    std::fs::create_dir_all(folder)?;
    std::fs::write(folder.join("constraints"), published.constraints)?;
    std::fs::write(folder.join("target"), published.target)?;
    std::fs::write(folder.join("proof"), published.proof)
}

/// What the arguments ask for behind `--accumulate W`, or without it.
fn write(accumulate: Option<usize>, arguments: &[&str]) -> Option<io::Result<()>> {
    let block = |n: &str| Some(Block { n: number_in(2..=8, n)?, accumulate });
    match arguments {
        ["--published", folder, n, s] => Some(write_published(Path::new(folder), block(n)?, style(s)?)),
        [n, k, s] => {
            let block = block(n)?;
            let k = number_in(1..=block.greatest_ring() as usize, k)?;
            Some(io::stdout().write_all(&text(block, k as u32, style(s)?)))
        }
        _ => None,
    }
}

/// What the arguments ask for, unless they are none of the usage.
fn run(arguments: &[&str]) -> Option<io::Result<()>> {
    match arguments {
        ["--help"] => Some(writeln!(io::stdout(), "{USAGE}")),
        ["--accumulate", width, rest @ ..] => write(Some(number_in(1..=Block::GREATEST_WIDTH, width)?), rest),
        _ => write(None, arguments),
    }
}

fn main() -> ExitCode {
    let arguments: Vec<String> = std::env::args().skip(1).collect();
    match run(&arguments.iter().map(String::as_str).collect::<Vec<_>>()) {
        Some(Ok(())) => ExitCode::SUCCESS,
        Some(Err(why)) => {
            eprintln!("multiplier: {why}");
            ExitCode::from(2)
        }
        None => {
            eprintln!("{USAGE}");
            ExitCode::from(2)
        }
    }
}
