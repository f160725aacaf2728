//! Programs run on an input. Not every test uses all of them.
#![allow(dead_code)]

pub mod counting;

use lofashunge::published::Published;
use std::io::Write;
use std::path::{Path, PathBuf};
use std::process::{Command, Output, Stdio};

pub const SAMPLE: &[u8] = include_bytes!("../../../examples/sample.lpac");

/// A path from the root of the repository.
pub fn at_root(path: &str) -> PathBuf {
    PathBuf::from(env!("CARGO_MANIFEST_DIR")).join("..").join(path)
}

/// What a program gives for an input. One that has read enough may stop, so that not all of it can be sent.
pub fn run(command: &mut Command, input: &[u8]) -> Output {
    let mut child = command.stdin(Stdio::piped()).stdout(Stdio::piped()).stderr(Stdio::piped()).spawn().expect("the program is there");
    let mut pipe = child.stdin.take().unwrap();
    std::thread::scope(|scope| {
        scope.spawn(move || pipe.write_all(input).is_ok());
        child.wait_with_output().unwrap()
    })
}

/// What the command gives for some arguments and an input, at the root of the repository.
pub fn run_lpac(arguments: &[&str], input: &[u8]) -> Output {
    run(Command::new(env!("CARGO_BIN_EXE_lpac")).current_dir(at_root("")).args(arguments), input)
}

/// A program that `tools/programs.sh` made.
pub fn program(name: &str) -> Command {
    Command::new(at_root("target/bin").join(name))
}

/// What the check program gives for an input.
pub fn run_check_program(input: &[u8]) -> Output {
    run(&mut program("lpac_check"), input)
}

/// Status 2, no answer, and one line on standard error with this beginning.
pub fn fails(said: Output, beginning: &str) {
    assert_eq!((said.status.code(), said.stdout), (Some(2), vec![]));
    let words = String::from_utf8(said.stderr).unwrap();
    assert!(words.starts_with(beginning) && words.ends_with('\n') && words.lines().count() == 1, "{words}");
}

/// The example in C, built for this test.
pub fn c_example() -> PathBuf {
    let program = Path::new(env!("CARGO_TARGET_TMPDIR")).join(concat!("check_for_", env!("CARGO_CRATE_NAME")));
    let mut gcc = Command::new("gcc");
    gcc.args([
        "-std=c11",
        "-O2",
        "-Wall",
        "-Wextra",
        "-Werror",
        "-Iinclude",
        "examples/c/check.c",
        "target/staticlib/liblpac_host.a",
        "-o",
    ]);
    let built = gcc.arg(&program).current_dir(at_root("")).output().expect("gcc is there");
    assert!(built.status.success(), "{}", String::from_utf8_lossy(&built.stderr));
    program
}

/// The three texts of a published proof in files of a folder of their own.
pub struct PublishedFiles(PathBuf);

impl PublishedFiles {
    pub fn new(folder: &str, proof: &Published) -> PublishedFiles {
        let files = PublishedFiles(Path::new(env!("CARGO_TARGET_TMPDIR")).join("published_files").join(folder));
        std::fs::create_dir_all(&files.0).unwrap();
        for (path, text) in files.paths().iter().zip([&proof.constraints, &proof.target, &proof.proof]) {
            std::fs::write(path, text).unwrap();
        }
        files
    }

    pub fn paths(&self) -> [PathBuf; 3] {
        ["constraints", "target", "proof"].map(|name| self.0.join(name))
    }

    pub fn remove(self) {
        std::fs::remove_dir_all(self.0).unwrap();
    }
}

/// A text of so many bytes that is accepted: the sample, and behind it lines that store zero, which are as long as one likes.
pub fn accepted_text(bytes: usize) -> Vec<u8> {
    let mut text = SAMPLE.to_vec();
    for index in 3.. {
        let rest = bytes - text.len();
        if rest == 0 {
            break;
        }
        text.extend(zero_line(index, if rest < 8_000 { rest } else { 4_000 }));
    }
    text
}

/// A lin line of so many bytes, whose factor is zero modulo 2^8 and repeats its variable.
fn zero_line(index: usize, bytes: usize) -> Vec<u8> {
    let mut line = format!("lin\t{index}\t0\t1\t256");
    while line.len() + 1 < bytes {
        line += if bytes - line.len() == 4 { ".11" } else { ".1" };
    }
    (line + "\n").into_bytes()
}
