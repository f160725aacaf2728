//! Lengths, the order of refusals over the three texts, and the steps.

use super::{answer, gives, proof_gives, published, CONSTRAINTS, PROVED};
use lofashunge::independent::{check_published, TEXT_BYTES};
use lofashunge::published::Published;
use lofashunge::width::{LEAST_POOL, LEAST_SCRATCH};

// ---- lengths

/// Statements of 8,192 bytes stand and of 8,193 don't, whatever white space is before them.
#[test]
fn a_statement_above_8_192_bytes() {
    let white = |n: usize| " \t\r\n".repeat(n)[..n].to_string();
    for before in [0, 1, 9_000] {
        let (within, behind) = (format!("{}1 x{}+y;", white(before), white(8_187)), format!("{}1 x-0{};", white(before), white(8_187)));
        gives(&within, "x+y;", "", "0 0 0 0 1 2");
        gives(&within.replace('+', " +"), "x+y;", "", "3 1 0 0 0 0");
        gives(&behind, "x;", "", "5 1 0 0 0 0");
        gives(&behind.replace(';', " ;"), "x;", "", "3 1 0 0 0 0");
    }
    gives("", &format!("x{}", white(8_191)), "", "4 1 0 0 0 0");
    gives("", &format!("x{}", white(8_192)), "", "3 1 0 0 0 0");
    gives("1 x;", &format!("x;y{};", white(8_191)), "", "4 3 0 0 1 1");
    gives("1 x;", &format!("x;y{};", white(8_192)), "", "3 3 0 0 1 1");
    proof_gives(&format!("3 % 1 + 2, x;{}", white(9_000)), PROVED);
    proof_gives(&format!("3 % 1 + 2, x;{};", white(9_000)), "4 5 0 3 3 4");
    proof_gives(&format!("3 % 1 + 2, x{};", "*x".repeat(4_090)), PROVED);
    proof_gives(&format!("3 % 1 + 2, x{};", "*x".repeat(4_091)), "3 4 0 0 2 3");
    proof_gives(&"1".repeat(8_193), "3 4 0 0 2 3");
    proof_gives(&"^".repeat(8_192), "4 4 0 0 2 3");
}

// ---- the order over the whole

#[test]
fn room_then_length_then_k_then_statements() {
    let bad = |k: u64, bytes: usize| published(k, "?", &" ".repeat(5), &" ".repeat(bytes - 6));
    let in_room = |p: &Published, most, pool, scratch| check_published(p, most, pool, scratch).to_string().replace('\t', " ");
    let numbers = |p: &Published, most| in_room(p, most, LEAST_POOL, LEAST_SCRATCH);
    for (pool, scratch) in [(LEAST_POOL - 1, LEAST_SCRATCH), (LEAST_POOL, LEAST_SCRATCH - 1), (0, 0)] {
        assert_eq!(in_room(&bad(0, 101), 100, pool, scratch), "1 0 0 0 0 0");
    }
    for most in [100, 65_536, TEXT_BYTES] {
        assert_eq!(numbers(&bad(0, most + 1), most), "2 0 0 0 0 0");
        assert_eq!(numbers(&bad(0, most), most), "5 0 0 0 0 0");
        assert_eq!(numbers(&bad(65, most), most), "5 0 0 0 0 0");
        assert_eq!(numbers(&bad(64, most), most), "4 1 0 0 0 0");
    }
    for k in [0, 65, 1 << 32, (1 << 32) + 8, u64::MAX] {
        assert_eq!(answer(&published(k, "1 x;", "", "")), "5 0 0 0 0 0");
    }
    for k in [1, 64] {
        assert_eq!(answer(&published(k, "1 x;", "x;", "")), "0 0 0 0 1 1");
    }
}

#[test]
fn an_empty_target_is_found_before_the_proof_is_read() {
    for target in ["", " ", "\r\n\t \r\n"] {
        gives("", target, "", "15 0 0 0 0 0");
        gives(CONSTRAINTS, target, "?", "15 2 0 0 2 3");
        gives(CONSTRAINTS, target, &"x".repeat(9_000), "15 2 0 0 2 3");
        gives("1 x; 1 y;", target, "", "8 2 1 0 1 1");
        gives("1 x; 2 2x;", target, "", "4 2 0 0 1 1");
    }
}

#[test]
fn a_target_that_is_not_reached_counts_all_statements() {
    gives("", "x;", "", "16 1 0 0 0 0");
    gives("", "0;", "", "16 1 0 0 0 0");
    gives(CONSTRAINTS, "x;", "", "16 3 0 0 2 3");
    gives(CONSTRAINTS, "x;", " \n", "16 3 0 0 2 3");
    gives(CONSTRAINTS, "x;", "1 d; 2 d;", "16 5 0 0 0 0");
    gives(CONSTRAINTS, "y;", "2 d;", "0 0 0 0 1 2");
    gives("1 x;", "-x;", "2 = z, -x;", "13 3 2 0 1 1");
}

/// From TAKEN to FULL, with the indices that they name; the rules themselves are those of the lines.
#[test]
fn steps_are_judged_as_lines() {
    gives("7 x; 7 y;", "x;", "", "8 2 7 0 1 1");
    proof_gives("2 % 1, x-y;", "8 4 2 0 2 3");
    proof_gives("3 + 1, 9, x;", "9 4 3 0 2 3");
    proof_gives("9 d;", "9 4 9 0 2 3");
    proof_gives("3 = y, 1;", "10 4 3 0 2 3");
    proof_gives("3 = z, x; 3 d; 4 = z, 1-x;", "10 6 4 1 2 3");
    let wide: Vec<String> = (0..33).map(|n| format!("y{n}")).collect();
    proof_gives(&format!("3 = z, {};", wide.join("+")), "11 4 3 0 2 3");
    proof_gives("3 * 1, y, x*y;", "12 4 3 0 2 3");
    proof_gives("3 = z, 2*x;", "13 4 3 0 2 3");
    let most: String = (1..=512).map(|n| format!("{n} 0;")).collect();
    gives(&most, "0;", "512 d; 512 = z, 0; 513 % 1, 0;", "14 516 513 0 512 1");
    gives("1 2*x;", "0;", "2 = x, 1;", "10 3 2 0 1 1");
    assert_eq!(answer(&published(1, "1 2*x;", "0;", "2 = x, 1;")), "0 0 0 1 2 2");
}
