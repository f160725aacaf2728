//! Texts with known answers: the paper's samples, every verdict, and every limit on both sides. Each is checked by the proved code
//! in rooms filled with a mark; its six numbers must be the independent checker's, and the rooms left as the paper says.

use lofashunge::independent::{check, LONGTEXT, SHORT};
use lofashunge::rooms;
use lofashunge::width::{LEAST_POOL, LEAST_SCRATCH, POOL, SCRATCH, TERM_WORDS, VARIABLES};
use std::collections::HashSet;

/// A text, with the words of pool and scratch lent to it.
struct Case {
    pool: usize,
    scratch: usize,
    text: Vec<u8>,
}

fn case(text: &str) -> Case {
    in_room(POOL, SCRATCH, text)
}

fn in_room(pool: usize, scratch: usize, text: &str) -> Case {
    Case { pool, scratch, text: text.as_bytes().to_vec() }
}

/// A text of pieces, each repeated.
fn pieces(list: &[(usize, &str)]) -> Case {
    case(&list.iter().map(|(n, piece)| piece.repeat(*n)).collect::<String>())
}

const SAMPLE: &str = include_str!("../../examples/sample.lpac");

fn terms(n: usize) -> String {
    (0..n).map(|i| format!("1.{i}")).collect::<Vec<_>>().join(" ")
}

fn repeated(n: usize) -> String {
    vec!["1.1"; n].join(" ")
}

fn inputs(n: usize, field: &str) -> String {
    (1..=n).map(|i| format!("in\t{i}\t{field}\n")).collect()
}

/// The paper's samples, 1 to 16.
fn samples() -> Vec<Case> {
    let ext = |k: usize, p: &str| case(&format!("ring\t{k}\ngoal\t1\next\t1\t200\t{p}\n"));
    vec![
        case(SAMPLE),
        case("ring\t8\nin\t1\t-1.2 1.0.1\ngoal\t1.2 -1.0.2\n"),
        case(include_str!("../../examples/refused.lpac")),
        case(""),
        ext(1, "1.0 1.1"),
        ext(2, "1.0 1.1"),
        ext(8, "1.0 1.1 -2.0.1"),
        ext(1, "2.0"),
        ext(2, "2.0"),
        ext(1, &terms(32)),
        ext(1, &terms(33)),
        case("ring\t0\n"),
        case("ring\t1\n"),
        case("ring\t64\n"),
        case("ring\t65\n"),
        case("ring\t8\nin\t1\t00\n"),
        case("ring\t8\nin\t1\t-0\n"),
        pieces(&[(1, "ring\t8\nin\t1\t1"), (4093, ".1"), (1, "\n")]),
        pieces(&[(1, "ring\t8\nin\t1\t1"), (4092, ".1"), (1, ".11\n")]),
        case(&format!("ring\t8\n{}", inputs(512, "0"))),
        case(&format!("ring\t8\n{}", inputs(513, "0"))),
    ]
}

/// Lines behind a goal that they may reach.
fn after(lines: &str) -> Case {
    case(&format!("ring\t8\nin\t1\t1.0 -1.1\nin\t2\t1.1\ngoal\t1.0\n{lines}"))
}

/// Rooms, texts and lines that are too short or too long: SHORT, LONGTEXT, LONGLINE.
fn lengths() -> Vec<Case> {
    vec![
        in_room(LEAST_POOL - 1, LEAST_SCRATCH, SAMPLE),
        in_room(LEAST_POOL, LEAST_SCRATCH - 1, SAMPLE),
        in_room(0, 0, ""),
        in_room(LEAST_POOL, LEAST_SCRATCH, SAMPLE),
        pieces(&[(1, "ring\t8\n"), (1_048_569, "x")]),
        pieces(&[(1, "ring\t8\n"), (1_048_570, "x")]),
        pieces(&[(1_048_577, "\n")]),
        pieces(&[(1_048_576, "\n")]),
        pieces(&[(1, "ring\t8\n"), (100_000, "in\t1\t1\n")]),
        pieces(&[(8193, "x"), (1, "\n")]),
        pieces(&[(1, SAMPLE), (8193, "\t"), (1, "\n")]),
        pieces(&[(1, "ring\t8\n"), (8193, "1")]),
        pieces(&[(1, "ring\t8\n"), (8192, "1")]),
    ]
}

/// Shapes of lines: FORM.
fn shapes() -> Vec<Case> {
    vec![
        case("\n"),
        case("ring\t8"),
        case("ring\t8\n\n"),
        case("ring\t8\r\n"),
        case("Ring\t8\n"),
        case("ring 8\n"),
        case("ring\t\n"),
        case("ring\t8\t\n"),
        after("lin\t3\t1\n"),
        after("lin\t3\t1\t1\n"),
        after("lin\t3\t1\t1\t1\t2\n"),
        after("del\n"),
        after("ext\t3\t4\n"),
        after("ext\t3\t4\t1 \n"),
        after("ext\t3\t4\t1..2\n"),
        after("foo\t3\n"),
        after("del\t01\n"),
    ]
}

/// Numbers and terms at their limits and beyond: NUMBER, TERMS.
fn limits() -> Vec<Case> {
    vec![
        after("del\t0\n"),
        after("del\t4294967295\n"),
        after("del\t4294967296\n"),
        after(&format!("ext\t3\t{}\t1.{}\n", VARIABLES - 1, VARIABLES - 2)),
        after(&format!("ext\t3\t{VARIABLES}\t1\n")),
        after(&format!("lin\t3\t1.{VARIABLES}\t1\t1\n")),
        after("lin\t3\t18446744073709551615\t1\t18446744073709551615\n"),
        after("lin\t3\t18446744073709551616\t1\t1\n"),
        after("lin\t3\t0 1\t1\t1\n"),
        after("lin\t3\t0.3\t1\t1\n"),
        after("lin\t3\t1\t0\t1\tx\n"),
        after(&format!("lin\t3\t{}\t1\t0\n", repeated(97))),
        after(&format!("lin\t3\t0\t1\t{}\n", repeated(97))),
        after(&format!("lin\t3\t{}\t1\t0 1\n", repeated(97))),
        after(&format!("lin\t3\t96.0.1\t1\t{}\n", repeated(96))),
        case(&format!("ring\t8\ngoal\t{}\n", repeated(97))),
        case(&format!("in\t1\t{}\n", repeated(97))),
    ]
}

/// Steps that can't stand where they are, or name what they can't: ORDER, TAKEN, MISSING, SEEN.
fn places() -> Vec<Case> {
    vec![
        case("in\t1\t1\n"),
        case("ring\t8\nring\t8\n"),
        after("ring\t8\n"),
        after("in\t3\t1\n"),
        after("goal\t1\n"),
        case("ring\t8\nlin\t1\t1\t1\t1\n"),
        case("ring\t8\nin\t7\t1\nin\t7\t1\n"),
        after("lin\t2\t1.1\t2\t1\n"),
        after("ext\t1\t5\t1\n"),
        after("del\t3\n"),
        after("del\t1\ndel\t1\n"),
        after("lin\t3\t0\t1\t0\t9\t0\n"),
        after("del\t2\nlin\t2\t0\t1\t0\n"),
        after("del\t2\nlin\t3\t0\t2\t0\n"),
        after("ext\t3\t1\t1\n"),
        after("ext\t3\t4\t1.4\n"),
        after("ext\t3\t4\t1.1\ndel\t3\next\t3\t4\t1 -1.1\n"),
        after("ext\t3\t4\t1.5\next\t6\t5\t1 -1.4\n"),
        after("lin\t3\t0\t1\t1.9 -1.9\next\t4\t9\t1\n"),
        after("lin\t3\t0\t1\t256.9\next\t4\t9\t1\n"),
        after("lin\t3\t1.0.9 -1.1.9\t1\t1.9\next\t4\t9\t1\n"),
    ]
}

/// Steps whose products are too many or wrong: PRODUCTS, MISMATCH, NOTBIT.
fn products() -> Vec<Case> {
    vec![
        after(&format!("ext\t3\t200\t{}\n", terms(33))),
        after(&format!("lin\t3\t0{}\n", format!("\t1\t{}", terms(64)).repeat(8))),
        after(&format!("lin\t3\t0{}\t1\t1\n", format!("\t1\t{}", terms(64)).repeat(8))),
        after("lin\t3\t1.0\t1\t1\n"),
        after("lin\t3\t1.0\t1\t1\t2\t1\n"),
        after("lin\t3\t1.0 -1.1 1\t1\t1\n"),
        after("ext\t3\t4\t2\n"),
        after("ext\t3\t4\t1.0 1.1\n"),
        after("ext\t3\t4\t1.0.1\nlin\t5\t1.0\t2\t1\t1\t1\n"),
    ]
}

/// Texts that end with and without a goal: NOGOAL, NOTREACHED, and goals that are reached.
fn ends() -> Vec<Case> {
    vec![
        case("ring\t8\nin\t1\t1\n"),
        case("ring\t8\n"),
        after(""),
        case("ring\t8\ngoal\t0\n"),
        case("ring\t8\nin\t1\t1 -1\ngoal\t0\n"),
        case("ring\t8\nin\t1\t1 -1\ngoal\t0\ndel\t1\n"),
        after("lin\t3\t0\t1\t0\n"),
        after("ext\t3\t4\t1.0\nlin\t5\t1.0\t1\t1\t2\t1\ndel\t5\n"),
    ]
}

/// The room of the pool: FULL, exact fits, and room that del frees.
fn capacities() -> Vec<Case> {
    let full = |pool: usize, lines: &str| in_room(pool, SCRATCH, &format!("ring\t8\n{lines}"));
    let wide = |i: usize| format!("in\t{i}\t{}\n", terms(96));
    vec![
        full(LEAST_POOL, &wide(1)),
        full(LEAST_POOL, &format!("{}in\t2\t1\n", wide(1))),
        full(LEAST_POOL + TERM_WORDS - 1, &format!("{}in\t2\t1\n", wide(1))),
        full(LEAST_POOL + TERM_WORDS, &format!("{}in\t2\t1\n", wide(1))),
        full(LEAST_POOL + TERM_WORDS, &format!("{}in\t2\t1\nin\t3\t0\n", wide(1))),
        full(LEAST_POOL, &format!("{}goal\t1\nlin\t2\t1\t1\t0\n", wide(1))),
        full(LEAST_POOL, &format!("{}goal\t0\nlin\t2\t0\t1\t0\ndel\t1\next\t1\t200\t{}\n", wide(1), "1.0")),
        full(LEAST_POOL, &format!("{}goal\t0\nlin\t2\t0\t1\t0\next\t3\t200\t1\n", wide(1))),
        full(POOL, &format!("{}goal\t0\ndel\t1\nlin\t1\t1\t2\t1\ndel\t512\nlin\t600\t1\t3\t1\nlin\t601\t1\t3\t1\n", inputs(512, "1"))),
        in_room(POOL, SCRATCH + 1, SAMPLE),
        in_room(POOL + 3, SCRATCH + 100, SAMPLE),
    ]
}

fn all() -> Vec<Case> {
    [samples, lengths, shapes, limits, places, products, ends, capacities].iter().flat_map(|cases| cases()).collect()
}

/// What every word of the rooms is before a check.
const MARK: u64 = 7;

/// A room of the mark, with one word behind it that is not lent.
fn marked(words: usize) -> Vec<u64> {
    vec![MARK; words + 1]
}

/// The room as the paper wants it after a verdict: untouched, or zero throughout; and the word behind it as it was.
fn left(words: usize, verdict: u64) -> Vec<u64> {
    let mut room = marked(words);
    if ![SHORT, LONGTEXT].contains(&verdict) {
        room[..words].fill(0);
    }
    room
}

#[test]
fn each_case_has_the_independent_answer_and_leaves_its_rooms_as_the_paper_says() {
    for Case { pool, scratch, text } in all() {
        let expected = check(&text, pool, scratch);
        let (mut first, mut second) = (marked(pool), marked(scratch));
        let said = rooms::answer(&text, &mut first[..pool], &mut second[..scratch]);
        let start = text[..text.len().min(200)].escape_ascii();
        assert_eq!(said, expected, "{start}");
        assert!(first == left(pool, said.verdict), "the pool after {start}");
        assert!(second == left(scratch, said.verdict), "the scratch after {start}");
    }
}

#[test]
fn every_verdict_is_given_to_two_texts() {
    let mut texts = vec![HashSet::new(); 17];
    for Case { pool, scratch, text } in all() {
        texts[check(&text, pool, scratch).verdict as usize].insert(text);
    }
    for (verdict, texts) in texts.iter().enumerate() {
        assert!(texts.len() >= 2, "{verdict}");
    }
}
