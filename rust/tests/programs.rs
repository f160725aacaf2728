//! The programs `lpac_check` and `lpac_spell`: what they print, at their limits too, and what they do where an input cannot be read
//! or an answer cannot be written.

mod common;

use common::{accepted_text, at_root, fails, program, run, SAMPLE};
use lofashunge::width::VARIABLES;
use std::fs::{read, File, OpenOptions};
use std::io::{ErrorKind, Read, Write};
use std::net::{TcpListener, TcpStream};
use std::os::fd::OwnedFd;
use std::os::unix::net::UnixStream;
use std::process::{Command, Output, Stdio};

const PROGRAMS: [&str; 2] = ["lpac_check", "lpac_spell"];

/// The bytes that a pipe holds on Linux.
const PIPE_BYTES: usize = 65_536;

/// An input of `lpac_spell` that is answered.
const FIELD: &[u8] = b"8\t1.1\n";

/// The program answers, and this is the answer.
fn answers(command: &mut Command, input: &[u8], answer: &[u8]) {
    let said = run(command, input);
    assert_eq!(said.stdout.escape_ascii().to_string(), answer.escape_ascii().to_string());
    assert_eq!((said.status.code(), said.stderr), (Some(0), vec![]));
}

// ---- what they print

#[test]
fn a_program_prints_what_stands_beside_its_input() {
    for name in PROGRAMS {
        let data = |what: &str| read(at_root(&format!("rust/tests/data/{name}.{what}"))).unwrap();
        answers(&mut program(name), &data("stdin"), &data("stdout"));
    }
}

#[test]
fn the_spelling_program_knows_as_many_variables_as_there_are() {
    let last = VARIABLES - 1;
    let asked = format!("8\t1.{last}.0.64.128.{last}\n8\t1.{VARIABLES}\n");
    answers(&mut program("lpac_spell"), asked.as_bytes(), format!("0\t1.0.64.128.{last}\n5\t\n").as_bytes());
}

#[test]
fn the_check_program_takes_65_536_bytes_and_no_more() {
    let text = accepted_text(65_536);
    answers(&mut program("lpac_check"), &text, b"0\t0\t0\t4\t18\t4\n");
    answers(&mut program("lpac_check"), &[&text[..], b"x"].concat(), b"2\t0\t0\t0\t0\t0\n");
}

#[test]
fn the_spelling_program_takes_65_536_bytes_and_no_more() {
    let lines = |line: &[u8], last: &[u8]| [line.repeat(10_922), last.to_vec()].concat();
    let (most, more) = (lines(FIELD, b"8\t1\n"), lines(FIELD, b"8\t12\n"));
    assert_eq!((most.len(), more.len()), (65_536, 65_537));
    answers(&mut program("lpac_spell"), &most, &lines(b"0\t1.1\n", b"0\t1\n"));
    answers(&mut program("lpac_spell"), &more, b"2\t\n");
}

#[test]
fn the_benchmark_takes_1_048_576_bytes_and_cuts_no_longer_text() {
    let text = accepted_text(1_048_576);
    let bench = || Command::new(env!("CARGO_BIN_EXE_bench"));
    answers(bench().arg("proved"), &text, b"0\t0\t0\t4\t264\t4\n");
    answers(bench().arg("proved"), &[&text[..], b"x"].concat(), b"2\t0\t0\t0\t0\t0\n");
}

// ---- inputs that cannot be read

/// What a program gives whose standard input is this.
fn run_from(command: &mut Command, input: impl Into<Stdio>) -> Output {
    command.stdin(input).output().expect("the program is there")
}

/// An input that holds some bytes and fails behind them. The sender closes while it has not read what was sent to it, so that
/// the kernel resets the connection; by then its bytes have come.
fn failing_behind(bytes: &[u8]) -> OwnedFd {
    let listener = TcpListener::bind("127.0.0.1:0").unwrap();
    let mut reader = TcpStream::connect(listener.local_addr().unwrap()).unwrap();
    let (mut sender, _) = listener.accept().unwrap();
    reader.write_all(b"never read").unwrap();
    sender.peek(&mut [0]).unwrap();
    sender.write_all(bytes).unwrap();
    while reader.peek(&mut vec![0; bytes.len()]).unwrap() < bytes.len() {}
    drop(sender);
    reader.into()
}

#[test]
fn a_directory_is_no_input() {
    for name in PROGRAMS {
        fails(run_from(&mut program(name), File::open(at_root("examples")).unwrap()), &format!("{name}: "));
    }
}

#[test]
fn an_input_that_fails_midway_has_no_answer() {
    for (name, beginning) in PROGRAMS.into_iter().zip([SAMPLE, FIELD]) {
        fails(run_from(&mut program(name), failing_behind(beginning)), &format!("{name}: "));
    }
}

/// So the programs of the test above saw the failure: what came before it is answered where it stands alone.
#[test]
fn such_an_input_holds_its_beginning_and_then_fails() {
    for (name, beginning, answer) in [("lpac_check", SAMPLE, &b"0\t0\t0\t4\t2\t4\n"[..]), ("lpac_spell", FIELD, b"0\t1.1\n")] {
        answers(&mut program(name), beginning, answer);
        let mut got = Vec::new();
        let error = TcpStream::from(failing_behind(beginning)).read_to_end(&mut got).unwrap_err();
        assert_eq!((got, error.kind()), (beginning.to_vec(), ErrorKind::ConnectionReset));
    }
}

#[test]
fn the_command_tells_of_such_inputs_too() {
    for input in [Stdio::from(failing_behind(SAMPLE)), Stdio::from(File::open(at_root("examples")).unwrap())] {
        fails(run_from(Command::new(env!("CARGO_BIN_EXE_lpac")).args(["check", "-"]), input), "lpac: ");
    }
}

// ---- answers that cannot be written

/// A program whose answer goes nowhere says so, with status 2.
fn cannot_write(name: &str, output: impl Into<Stdio>) {
    let input = File::open(at_root(&format!("rust/tests/data/{name}.stdin"))).unwrap();
    let said = program(name).stdin(input).stdout(output).stderr(Stdio::piped()).spawn().unwrap().wait_with_output().unwrap();
    assert_eq!((said.status.code(), said.stderr.escape_ascii().to_string()), (Some(2), format!("{name}: the answer cannot be written\\n")));
}

#[test]
fn an_answer_that_cannot_be_written_is_a_failure() {
    for name in PROGRAMS {
        cannot_write(name, OpenOptions::new().write(true).open("/dev/full").unwrap());
    }
}

/// The signal that such a pipe sends does not end the program before it can say so.
#[test]
fn an_answer_that_nobody_reads_is_a_failure() {
    for name in PROGRAMS {
        let (reader, writer) = std::io::pipe().unwrap();
        drop(reader);
        cannot_write(name, writer);
    }
}

/// What a program leaves in a pipe that has so many bytes of room and refuses what does not fit. Nobody reads before the program has ended.
fn leaves_in_a_pipe(mut command: Command, room: usize) -> Vec<u8> {
    let (mut reader, writer) = std::io::pipe().unwrap();
    let writer = UnixStream::from(OwnedFd::from(writer));
    writer.set_nonblocking(true).unwrap();
    let mut writer = File::from(OwnedFd::from(writer));
    writer.write_all(&vec![b'.'; PIPE_BYTES - room]).unwrap();
    command.stdin(Stdio::null()).stdout(writer).stderr(Stdio::null());
    assert_eq!(command.status().unwrap().code(), Some(2));
    drop(command);
    let mut left = Vec::new();
    reader.read_to_end(&mut left).unwrap();
    left.split_off(PIPE_BYTES - room)
}

/// The answer to the empty text begins with `15` and a tab: two bytes do not fit, and the one behind them does.
#[test]
fn each_write_of_an_answer_is_tried() {
    assert_eq!(leaves_in_a_pipe(program("lpac_check"), 1), b"\t");
}
