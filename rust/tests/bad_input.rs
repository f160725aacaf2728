//! Bad input gets a clear answer and its exit status, from the check program and from the command.

mod common;

use common::{run_check_program, run_lpac, SAMPLE};
use std::path::{Path, PathBuf};

/// The command and the check program on standard input: the words of one, the numbers of the other.
fn both(input: &[u8], status: i32, words: &str, numbers: &str) {
    let said = run_lpac(&["check", "-"], input);
    assert_eq!(String::from_utf8(said.stdout).unwrap(), format!("-: {words}\n"));
    assert_eq!((said.status.code(), said.stderr), (Some(status), vec![]));
    let said = run_check_program(input);
    assert_eq!(String::from_utf8(said.stdout).unwrap(), format!("{numbers}\n"));
    assert_eq!((said.status.code(), said.stderr), (Some(0), vec![]));
}

fn file(name: &str, text: &[u8]) -> PathBuf {
    let path = Path::new(env!("CARGO_TARGET_TMPDIR")).join(name);
    std::fs::write(&path, text).unwrap();
    path
}

#[test]
fn empty_input_has_no_goal() {
    both(b"", 1, "refused, NOGOAL (15)", "15\t0\t0\t0\t0\t0");
}

#[test]
fn binary_input_has_bad_form() {
    let every_byte: Vec<u8> = (0..=255).collect();
    let shown: String = (0..9).map(|b| format!("\\x{b:02x}")).collect();
    both(&every_byte, 1, &format!("refused, FORM (4) at line 1: {shown}\\t"), "4\t1\t0\t0\t0\t0");
    both(&[0xFF; 100], 1, &format!("refused, FORM (4) at line 1: {} ...", "\\xff".repeat(18)), "4\t1\t0\t0\t0\t0");
}

#[test]
fn ten_megabytes_are_too_long() {
    both(&SAMPLE.repeat(140_000), 1, "refused, LONGTEXT (2)", "2\t0\t0\t0\t0\t0");
    both(&vec![b'\n'; 10_000_000], 1, "refused, LONGTEXT (2)", "2\t0\t0\t0\t0\t0");
}

#[test]
fn a_line_without_an_end_is_shown_up_to_a_readable_width() {
    let text = [b"ring\t8\n", &vec![b'x'; 9000][..]].concat();
    both(&text, 1, &format!("refused, LONGLINE (3) at line 2: {} ...", "x".repeat(72)), "3\t2\t0\t0\t0\t0");
}

#[test]
fn a_missing_file_is_named_and_has_status_2_whatever_else_is_checked() {
    let (good, bad) = ("examples/sample.lpac", "examples/refused.lpac");
    for names in [&["check", "no/such"][..], &["check", "no/such", good], &["check", bad, "no/such", good]] {
        let said = run_lpac(names, b"");
        assert_eq!(said.status.code(), Some(2));
        assert!(String::from_utf8(said.stderr).unwrap().starts_with("lpac: no/such: cannot be read: No such file"));
        assert_eq!(String::from_utf8(said.stdout).unwrap().lines().count(), names.len() - 2);
    }
    assert_eq!(run_lpac(&["check", "examples"], b"").status.code(), Some(2));
}

#[test]
fn bad_usage_is_told_and_has_status_2() {
    for arguments in [&[][..], &["check"], &["verify", "examples/sample.lpac"], &["check", "-", "-"]] {
        let said = run_lpac(arguments, b"");
        assert_eq!((said.status.code(), said.stdout), (Some(2), vec![]));
        assert!(said.stderr.starts_with(b"usage: lpac check FILE..."));
    }
}

#[test]
fn a_name_cannot_make_a_line_of_its_own() {
    let said = run_lpac(&["check", "no\nsuch: accepted"], b"");
    assert!(String::from_utf8(said.stderr).unwrap().starts_with("lpac: no\\nsuch: accepted: cannot be read"));
}

#[test]
fn a_file_at_the_limit_is_read_to_its_end() {
    let filler = |bytes: usize| [SAMPLE, format!("{}\n", "x".repeat(bytes - SAMPLE.len() - 1)).as_bytes()].concat();
    for (bytes, words) in [(65_536, "refused, LONGLINE (3) at line 5: "), (65_537, "refused, LONGTEXT (2)\n")] {
        let path = file(&format!("text_of_{bytes}"), &filler(bytes));
        let said = run_lpac(&["check", path.to_str().unwrap()], b"");
        assert!(String::from_utf8(said.stdout).unwrap().contains(words));
        assert_eq!(said.status.code(), Some(1));
    }
}
