//! Names: their numbers, their length, and how many there are.

use super::{answer, gives, published};
use lofashunge::independent::numbered_names;
use lofashunge::published::Published;
use lofashunge::width::VARIABLES;

#[test]
fn names_that_are_all_x_and_a_number_have_that_number() {
    let named = |constraints: &str, target: &str, proof: &str| {
        let names = numbered_names(&published(8, constraints, target, proof));
        names.iter().map(|(name, number)| format!("{name}:{number}")).collect::<Vec<_>>().join(" ")
    };
    let last = VARIABLES - 1;
    assert_eq!(named("1 x7*x0;", &format!("x{last};"), "2 = x10, x7; 1 d;"), format!("x0:0 x7:7 x10:10 x{last}:{last}"));
    let beyond = format!("x{VARIABLES}");
    for other in [&beyond, "x00", "x07", "x", "X7", "y", "x7x", "d", "x99999999999999999999"] {
        assert_eq!(named("1 x7;", &format!("{other};"), "2 = x1, x7;"), format!("x7:0 {other}:1 x1:2"));
    }
    assert_eq!(named("1 b*a; 2 c;", "a;", "3 % 1*(e) + 2*(f+b), g; 4 = i, h; 5 * 1, k, j;"), "b:0 a:1 c:2 e:3 f:4 g:5 i:6 h:7 k:8 j:9");
    assert_eq!(named("1 x7; 2 x3 y; 3 z;", "z;", "2 = z, z;"), "x7:7");
    assert_eq!(named("1 x7;", "x8; y;", "2 = z, z;"), "x7:7 x8:8");
    assert_eq!(named("1 x7;", " ", "2 = z, z;"), "x7:7");
}

/// The three texts with N replaced by a name of so many bytes.
fn with_name_of(bytes: usize, [constraints, target, proof]: [&str; 3]) -> Published {
    let name = format!("n{}", "1".repeat(bytes - 1));
    published(8, &constraints.replace('N', &name), &target.replace('N', &name), &proof.replace('N', &name))
}

#[test]
fn a_name_above_31_bytes() {
    for (texts, of_31_bytes, of_32_bytes) in [
        (["7 N;", "N;", ""], "0 0 0 0 1 1", "17 1 7 0 0 0"),
        (["7 x;", "x*N;", ""], "16 2 0 0 1 1", "17 2 0 0 1 1"),
        (["7 x;", "x;", "8 % 7*(N), x*N;"], "0 0 0 1 2 2", "17 3 8 0 1 1"),
        (["7 x;", "x;", "8 % 9, N;"], "9 3 8 0 1 1", "17 3 8 0 1 1"),
        (["7 x;", "x;", "8 + 7, 9, N;"], "9 3 8 0 1 1", "17 3 8 0 1 1"),
        (["7 x;", "x;", "7 * 7, N, 0;"], "8 3 7 0 1 1", "17 3 7 0 1 1"),
        (["7 x;", "x;", "8 = N, 2;"], "13 3 8 0 1 1", "17 3 8 0 1 1"),
        (["7 x;", "x;", "8 = x, N;"], "10 3 8 0 1 1", "17 3 8 0 1 1"),
        (["7 x;", "x;", "8 = N, 0*x;"], "5 3 0 0 1 1", "5 3 0 0 1 1"),
        (["7 x;", "x;", "8 = N, 2x;"], "4 3 0 0 1 1", "4 3 0 0 1 1"),
    ] {
        assert_eq!(answer(&with_name_of(31, texts)), of_31_bytes, "{texts:?}");
        assert_eq!(answer(&with_name_of(32, texts)), of_32_bytes, "{texts:?}");
    }
    let more_terms = format!("{};", vec!["N"; 97].join("+"));
    assert_eq!(answer(&with_name_of(32, ["7 x;", &more_terms, ""])), "6 2 0 0 1 1");
}

/// The product of so many names, from this prefix and 0 upward.
fn product(prefix: &str, names: usize) -> String {
    (0..names).map(|n| format!("{prefix}{n}")).collect::<Vec<_>>().join("*")
}

#[test]
fn a_name_more_than_there_are_variables() {
    for prefix in ["x", "y"] {
        let all = format!("7 {};", product(prefix, VARIABLES));
        gives(&all, &format!("{prefix}{};", VARIABLES - 1), "7 d;", "16 3 0 0 0 0");
        gives(&format!("{all} 8 {prefix}{VARIABLES};"), "1;", "", "17 2 8 0 1 1");
        gives(&format!("{all} 7 {prefix}{VARIABLES};"), "1;", "", "17 2 7 0 1 1");
        gives(&all, "z;", "", "17 2 0 0 1 1");
        for step in ["8 % 7*(z), 0;", "8 % 9, z;", "8 * 7, z, 1;", "8 + 9, 9, z;", "8 = z, 1;"] {
            gives(&all, "1;", step, "17 3 8 0 1 1");
        }
        gives(&all, "1;", &format!("8 = {prefix}0, z;"), "17 3 8 0 1 1");
        gives(&all, "1;", "7 d; 8 = z, 1;", "17 4 8 0 0 0");
    }
    gives(&format!("7 {};", product("y", VARIABLES + 1)), "1;", "", "17 1 7 0 0 0");
    gives(&format!("7 {};", product("x", VARIABLES + 1)), "1;", "", "17 1 7 0 0 0");
    gives(&format!("7 {};", product("x", VARIABLES - 1)), "1;", "8 = y, x0; 9 = z, x0;", "17 4 9 1 2 3");
}
