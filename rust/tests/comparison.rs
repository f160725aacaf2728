//! The proved code against the independent checker: the host call on every text, the check program on some of them.

mod common;

use common::counting::{count, each_comes_up, print};
use common::run_check_program;
use lofashunge::host;
use lofashunge::independent::{check_hosted, Answer, NAMES, SHORT};
use lofashunge::texts::text;

const TEXTS: u64 = 240_000;
/// Of so many texts one goes through the check program; prime to the kinds of texts, so that all kinds do.
const PROGRAM_EVERY: u64 = 47;
/// SHORT can't come up in the callee's own room, and lines have no names.
const NEVER: [u64; 2] = [SHORT, NAMES];

fn call(number: u64) -> Answer {
    let text = text(number);
    let (answer, said) = (check_hosted(&text), host::check(&text));
    assert_eq!((said.number, said.line), (answer.verdict, answer.line), "{}", text.escape_ascii());
    answer
}

fn program(number: u64) -> Answer {
    let text = text(number);
    let (answer, said) = (check_hosted(&text), run_check_program(&text));
    assert_eq!(String::from_utf8(said.stdout).unwrap(), format!("{answer}\n"), "{}", text.escape_ascii());
    assert!(said.status.success());
    answer
}

#[test]
fn the_host_call_says_what_the_independent_checker_says() {
    let counts = count(TEXTS, 1, call);
    print("host call", counts);
    each_comes_up(500, &NEVER, counts);
}

#[test]
fn the_check_program_prints_the_six_numbers_of_the_independent_checker() {
    let counts = count(TEXTS, PROGRAM_EVERY, program);
    print("check program", counts);
    each_comes_up(10, &NEVER, counts);
}
