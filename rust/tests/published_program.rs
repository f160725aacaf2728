//! The program `lpac_published`: what it prints, at its limit too, and what it does with bad arguments.

mod common;

use common::{at_root, fails, program, PublishedFiles};
use lofashunge::published::Published;
use std::fs::OpenOptions;
use std::path::Path;
use std::process::{Command, Output, Stdio};

const FILES: [&str; 3] =
    ["examples/published/multiplier/constraints", "examples/published/multiplier/target", "examples/published/multiplier/lpac_proof"];

/// The program at the root of the repository.
fn at_the_root() -> Command {
    let mut command = program("lpac_published");
    command.current_dir(at_root(""));
    command
}

fn run(arguments: &[&str]) -> Output {
    at_the_root().args(arguments).output().expect("the program is there")
}

fn prints(said: Output, numbers: &str) {
    assert_eq!(String::from_utf8(said.stdout).unwrap().replace('\t', " "), format!("{numbers}\n"));
    assert_eq!((said.status.code(), said.stderr), (Some(0), vec![]));
}

#[test]
fn the_six_numbers_of_the_examples() {
    let [constraints, target, proof] = FILES;
    let folder = Path::new(proof).parent().unwrap().to_str().unwrap();
    prints(run(&["4", constraints, target, proof]), "0 0 0 96 23 82");
    prints(run(&["4", constraints, target, &format!("{folder}/pac_proof")]), "0 0 0 176 43 162");
    prints(run(&["4", constraints, target, &format!("{folder}/lpac_proof_as_printed")]), "12 18 17 28 16 51");
    prints(run(&["4", constraints, "/dev/null", proof]), "15 14 0 0 14 40");
    prints(run(&["4", constraints, target, "/dev/null"]), "16 15 0 0 14 40");
}

#[test]
fn a_ring_out_of_range_is_answered() {
    let [constraints, target, proof] = FILES;
    // The last is as long as an argument can be.
    for ring in ["0", "65", "18446744073709551616", "18446744073709551620", &"8".repeat(131_071)] {
        prints(run(&[ring, constraints, target, proof]), "5 0 0 0 0 0");
    }
}

#[test]
fn three_texts_of_65_536_bytes_together_and_no_more() {
    let texts = |bytes: usize| Published { k: 8, constraints: "1 x;".into(), target: "x;".into(), proof: vec![b' '; bytes - 6] };
    for (bytes, numbers) in [(65_536, "0 0 0 0 1 1"), (65_537, "2 0 0 0 0 0"), (1_000_000, "2 0 0 0 0 0")] {
        let files = PublishedFiles::new(&format!("program_{bytes}"), &texts(bytes));
        let [constraints, target, proof] = files.paths();
        prints(program("lpac_published").arg("8").args([&constraints, &target, &proof]).output().unwrap(), numbers);
        let swapped = if bytes == 65_536 { "4 1 0 0 0 0" } else { "2 0 0 0 0 0" };
        prints(program("lpac_published").arg("8").args([&target, &proof, &constraints]).output().unwrap(), swapped);
        files.remove();
    }
}

#[test]
fn bad_arguments_are_told() {
    let [constraints, target, proof] = FILES;
    for ring in ["", "04", "00", "x", "4 ", "+4", "-4", "0x4"] {
        fails(run(&[ring, constraints, target, proof]), "lpac_published: ");
    }
    for arguments in [&[][..], &["4"], &["4", constraints, target], &["4", constraints, target, proof, proof]] {
        fails(run(arguments), "lpac_published: ");
    }
}

#[test]
fn a_file_that_cannot_be_read_has_no_answer() {
    let [constraints, target, proof] = FILES;
    for wrong in ["no/such", "examples", "", &"x".repeat(5_000)] {
        for files in [[wrong, target, proof], [constraints, wrong, proof], [constraints, target, wrong]] {
            fails(at_the_root().arg("4").args(files).output().unwrap(), "lpac_published: ");
        }
    }
}

#[test]
fn an_answer_that_cannot_be_written_is_a_failure() {
    let full = OpenOptions::new().write(true).open("/dev/full").unwrap();
    let said = at_the_root().arg("4").args(FILES).stdout(full).stderr(Stdio::piped()).spawn().unwrap().wait_with_output().unwrap();
    fails(said, "lpac_published: the answer cannot be written\n");
}
