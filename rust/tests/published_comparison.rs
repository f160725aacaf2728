//! The proved code against the independent checker on published proofs: the host call on all of them, the program on some.

mod common;

use common::counting::{count, each_comes_up, print};
use common::{program, PublishedFiles};
use lofashunge::host::{self, TEXT_BYTES};
use lofashunge::independent::{self, check_published, numbered_names, Answer, LONGTEXT, ORDER, SHORT};
use lofashunge::published::Published;
use lofashunge::published_texts::published;
use lofashunge::width::{POOL, SCRATCH};
use std::collections::HashMap;

const PROOFS: u64 = 120_000;
/// Of so many proofs one goes through the program; prime to the kinds of proofs, so that all kinds do.
const PROGRAM_EVERY: u64 = 47;
/// SHORT can't come up in the callee's own room, and three texts have no place for ORDER.
const NEVER: [u64; 2] = [SHORT, ORDER];

fn independently(proof: &Published) -> Answer {
    check_published(proof, TEXT_BYTES, POOL, SCRATCH)
}

fn call(number: u64) -> Answer {
    let proof = published(number, TEXT_BYTES);
    let answer = independently(&proof);
    let said = host::check_published(proof.k, &proof.constraints, &proof.target, &proof.proof);
    assert_eq!((said.number, said.line), (answer.verdict, answer.line), "number {number}");
    answer
}

fn by_program(number: u64) -> Answer {
    let proof = published(number, TEXT_BYTES);
    let answer = independently(&proof);
    let files = PublishedFiles::new(&format!("comparison_{number}"), &proof);
    let said = program("lpac_published").arg(proof.k.to_string()).args(files.paths()).output().expect("the program is there");
    assert_eq!(String::from_utf8(said.stdout).unwrap(), format!("{answer}\n"), "number {number}");
    assert!(said.status.success());
    files.remove();
    answer
}

#[test]
fn the_host_call_says_what_the_independent_checker_says_of_published_proofs() {
    let counts = count(PROOFS, 1, call);
    print("host call, published proofs", counts);
    each_comes_up(300, &NEVER, counts);
}

#[test]
fn the_program_prints_the_six_numbers_of_the_independent_checker() {
    let counts = count(PROOFS, PROGRAM_EVERY, by_program);
    print("program, published proofs", counts);
    each_comes_up(5, &NEVER, counts);
}

// ---- the ways to write a proof

fn texts(proof: &Published) -> [&Vec<u8>; 3] {
    [&proof.constraints, &proof.target, &proof.proof]
}

fn has_crlf(proof: &Published) -> bool {
    texts(proof).iter().any(|text| text.windows(2).any(|two| two == b"\r\n"))
}

/// Whether white space of other kinds than a space and the end of a line is spread over it.
fn has_tabs(proof: &Published) -> bool {
    texts(proof).iter().any(|text| text.contains(&b'\t'))
}

/// Whether there is no white space but where tokens would run together.
fn is_dense(proof: &Published) -> bool {
    !proof.proof.is_empty() && texts(proof).iter().all(|text| !text.contains(&b'\n') && !text.windows(2).any(|two| two == b", "))
}

/// Whether an addition or a multiplication is among the steps: its sign stands behind the id.
fn has_pac_step(proof: &Published) -> bool {
    let sign = |step: &[u8]| step.iter().copied().find(|b| !b.is_ascii_digit() && !b.is_ascii_whitespace());
    proof.proof.split(|&b| b == b';').any(|step| matches!(sign(step), Some(b'+' | b'*')))
}

/// Whether each name has the number that is written in it.
fn has_plain_names(proof: &Published) -> bool {
    numbered_names(proof).iter().all(|(name, number)| *name == format!("x{number}"))
}

fn has_other_names(proof: &Published) -> bool {
    !has_plain_names(proof)
}

#[test]
fn accepted_proofs_are_written_in_every_way() {
    type Way = fn(&Published) -> bool;
    let ways: [(&str, Way); 6] = [
        ("CRLF", has_crlf),
        ("tabs", has_tabs),
        ("dense", is_dense),
        ("PAC", has_pac_step),
        ("plain names", has_plain_names),
        ("other names", has_other_names),
    ];
    let accepted: Vec<Published> = (0..12_000).map(|n| published(n, TEXT_BYTES)).filter(|p| independently(p).verdict == 0).collect();
    for (name, way) in ways {
        let n = accepted.iter().filter(|proof| way(proof)).count();
        println!("{name}: {n} of {} accepted proofs", accepted.len());
        assert!(n >= 300, "{name}: {n}");
    }
}

#[test]
fn texts_stand_on_both_sides_of_the_limit_of_bytes() {
    for most in [TEXT_BYTES, independent::TEXT_BYTES] {
        let mut verdicts = HashMap::new();
        for proof in (0..4_000).map(|number| published(number, most)).filter(|proof| proof.bytes() + 2 > most) {
            verdicts.insert(proof.bytes(), check_published(&proof, most, POOL, SCRATCH).verdict);
        }
        for (bytes, verdict) in [(most - 1, 0), (most, 0), (most + 1, LONGTEXT), (most + 2, LONGTEXT)] {
            assert_eq!(verdicts.get(&bytes), Some(&verdict), "{bytes} bytes");
        }
    }
}
