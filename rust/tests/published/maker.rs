//! The maker of multipliers, which writes published texts and lines.

use lofashunge::multiplier::{self, Block, Style};
use lofashunge::published::Published;
use std::path::Path;
use std::process::{Command, Output};

fn run_multiplier(arguments: &[&str]) -> Output {
    Command::new(env!("CARGO_BIN_EXE_multiplier")).args(arguments).output().expect("the program is there")
}

#[test]
fn the_maker_writes_three_texts_into_a_folder() {
    let blocks = [(&[][..], Block::multiplier(8)), (&["--accumulate", "16"][..], Block::accumulator(8, 16))];
    let styles = [("onelin", Style::OneLin), ("cells", Style::Cells), ("fine", Style::Fine)];
    for ((option, block), (word, style)) in blocks.iter().flat_map(|block| styles.map(|style| (block, style))) {
        let folder = Path::new(env!("CARGO_TARGET_TMPDIR")).join("published").join(word);
        let said = run_multiplier(&[option, &["--published", folder.to_str().unwrap(), "8", word][..]].concat());
        assert_eq!((said.status.code(), said.stdout, said.stderr), (Some(0), vec![], vec![]));
        let text = |name| std::fs::read(folder.join(name)).unwrap();
        let written = Published { k: 16, constraints: text("constraints"), target: text("target"), proof: text("proof") };
        assert_eq!(written, multiplier::published(*block, 16, style));
    }
}

#[test]
fn the_maker_writes_lines_and_tells_its_usage() {
    assert_eq!(run_multiplier(&["3", "8", "fine"]).stdout, multiplier::text(Block::multiplier(3), 8, Style::Fine));
    let accumulator = run_multiplier(&["--accumulate", "32", "8", "32", "cells"]);
    assert_eq!(accumulator.stdout, multiplier::text(Block::accumulator(8, 32), 32, Style::Cells));
    let help = run_multiplier(&["--help"]);
    assert!(help.status.success() && help.stdout.starts_with(b"usage: multiplier"));
    for wrong in [
        &[][..],
        &["9", "8", "fine"],
        &["2", "65", "fine"],
        &["2", "8", "coarse"],
        &["--published", "2", "fine"],
        &["--accumulate", "41", "8", "8", "fine"],
        &["--accumulate", "0", "8", "8", "fine"],
        &["--accumulate", "16", "8", "17", "fine"],
        &["--accumulate", "16"],
    ] {
        let said = run_multiplier(wrong);
        assert_eq!((said.status.code(), said.stdout), (Some(2), vec![]));
        assert!(said.stderr.starts_with(b"usage: multiplier"));
    }
}
