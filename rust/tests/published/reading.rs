//! Tokens, statements and numbers.

use super::{answer, each_proof_gives, gives, proof_gives, published, PROVED};

// ---- tokens

#[test]
fn white_space_is_four_bytes_between_tokens_and_around_them() {
    let spread = "\r\n\t 3\r\n%\n1\t+ 2 \n*\n(\n1\n)\n ,\r\nx \r\n;\r\n \t";
    each_proof_gives(&["3%1+2,x;", "3 % 1 + 2, x;\n", spread], PROVED);
    gives("\r\n1\tx\n-\ny\r\n;2\r\ny;\n", "\n x\n;\n", "\n3%1+2,x;", PROVED);
    each_proof_gives(&["3 %\x0c1 + 2, x;", "3 %\x0b1 + 2, x;", "3 %\u{a0}1 + 2, x;", "3 %\x001 + 2, x;"], "4 4 0 0 2 3");
    proof_gives("3 % 1 + 2, x;\x0c", "4 5 0 3 3 4");
    for constraint in ["1 x 1;", "1 1 0;", "1 x y;"] {
        gives(constraint, "x;", "", "4 1 0 0 0 0");
    }
}

#[test]
fn tokens_are_as_long_as_they_can_be() {
    gives("1x-y;2y;", "x;", "3%1+2,x;", PROVED);
    gives("1x*y;", "x*y;", "1d;", "0 0 0 0 0 0");
    gives("12;", "2;", "", "4 1 0 0 0 0");
    gives("1 2;", "2;", "", "0 0 0 0 1 1");
    gives("1x2;", "x2;", "", "0 0 0 0 1 1");
    gives("1x2;", "x*2;", "", "4 2 0 0 1 1");
}

#[test]
fn constants_are_taken_by_value() {
    gives("01 x-y; 000000000000000000000002 y;", "x;", "3 % 1*(0001) + 2, 01*x;", PROVED);
    proof_gives("003 % 001 + 02, x; 3 d;", "0 0 0 3 2 3");
    proof_gives("003 % 001 + 02, y;", "12 4 3 0 2 3");
}

#[test]
fn d_is_a_deletion_behind_the_id_of_a_proof_statement_and_else_a_name() {
    gives("1 d;", "d;", "1 d;", "0 0 0 0 0 0");
    gives("1d;", "d;", "", "0 0 0 0 1 1");
    proof_gives("3 = d, x; 4 % 1 + 2, x; 3d;", "0 0 0 4 3 4");
    proof_gives("3 = d, x; 4 % 3*(d), -d+d*x; 4 d; 5 + 1, 2, x;", "0 0 0 6 4 6");
    each_proof_gives(&["1 d d;", "1 d2;", "1 dx;", "1 D;", "d;", "d 1;", "1 d, x;", "1 x;"], "4 4 0 0 2 3");
}

// ---- statements

#[test]
fn a_factor_that_is_left_out_is_1_and_pac_steps_are_linear_combinations() {
    let same = ["3 % 1 + 2, x;", "3 % 1*(1) + 2, x;", "3 % 1 + 2*(1), x;", "3 % 1*(1) + 2*(1), x;", "3 + 1, 2, x;", "3 + 2, 1, x;"];
    each_proof_gives(&same, PROVED);
    each_proof_gives(&["3 * 1, y+z, x*y-y+x*z-y*z;", "3 % 1*(y+z), x*y-y+x*z-y*z;"], "16 4 0 4 3 7");
    each_proof_gives(&["3 * 1, 0, 0;", "3 % 1*(0), 0;"], "16 4 0 0 3 3");
    each_proof_gives(&["3 + 1, 1, 2*x-2*y;", "3 % 1 + 1, 2*x-2*y;"], "16 4 0 4 3 5");
    proof_gives("3 % 1 + 1*(255) + 2 + 2*(3) + 2*(252), 0;", "16 4 0 7 3 3");
}

const WRONG_LINEAR_COMBINATIONS: [&str; 20] = [
    "3 % 1 + 2 x;",
    "3 % , x;",
    "3 % 1;",
    "3 % 1, ;",
    "3 % 1*x, x;",
    "3 % 1*(), x;",
    "3 % 1*(x, x;",
    "3 % 1*(x)), x;",
    "3 % 1(x), x;",
    "3 % 1*((x)), x;",
    "3 % 1 2, x;",
    "3 % 1 - 2, x;",
    "3 % 1 + , x;",
    "3 % + 1, x;",
    "3 % x, x;",
    "3 % 1, x, x;",
    "% 1, x;",
    "x % 1, x;",
    "-3 % 1, x;",
    "3 %% 1, x;",
];

const OTHER_WRONG_STEPS: [&str; 22] = [
    "3 + 1, 2;",
    "3 + 1, x;",
    "3 + 1, 2, 2, x;",
    "3 + 1, 2*(1), x;",
    "3 + 1 2, x;",
    "3 + x, y, x;",
    "3 * 1, x;",
    "3 * 1, (x), x;",
    "3 * 1 x, x;",
    "3 * x, 1, x;",
    "3 = x;",
    "3 = 1, x;",
    "3 = x y, x;",
    "3 = z, ;",
    "3 = -z, 1;",
    "3 - 1, 2, x;",
    "3;",
    "3 1;",
    "x;",
    "3, x;",
    ";",
    " ;",
];

#[test]
fn other_shapes_of_steps_have_bad_form() {
    each_proof_gives(&WRONG_LINEAR_COMBINATIONS, "4 4 0 0 2 3");
    each_proof_gives(&OTHER_WRONG_STEPS, "4 4 0 0 2 3");
}

#[test]
fn other_shapes_of_polynomials_have_bad_form() {
    let wrong = [
        "2a", "2 a", "+x", "x+", "x-", "x--y", "x+-y", "x-+y", "-", "--x", "x^2", "x*", "*x", "x**y", "2*3", "2*3*x", "x*2", "2*(x)",
        "(x)", "x,", "x y", "2.x", "x_1", "", "x=y", "x%",
    ];
    for poly in wrong {
        gives("", &format!("{poly};"), "", "4 1 0 0 0 0");
        gives(&format!("7 {poly};"), "x;", "", "4 1 0 0 0 0");
        proof_gives(&format!("3 % 1*({poly}), x;"), "4 4 0 0 2 3");
        proof_gives(&format!("3 % 1, {poly};"), "4 4 0 0 2 3");
    }
    for poly in ["x", "-x", "1", "-1", "2*x*x", "x*y-2+3*z", "- 2 * X9 + a0b1 - 7"] {
        gives(&format!("7 {poly};"), &format!("{poly};"), "7 d;", "0 0 0 0 0 0");
    }
}

#[test]
fn a_statement_needs_its_end_and_the_target_is_one() {
    gives("1 x", "x;", "", "4 1 0 0 0 0");
    gives("1 x; 2 y", "x;", "", "4 2 0 0 1 1");
    gives("1 x;", "x", "", "4 2 0 0 1 1");
    proof_gives("3 % 1 + 2, x; 1 d", "4 5 0 3 3 4");
    gives("1 x;", "x; y;", "", "4 3 0 0 1 1");
    gives("1 x;", "x; y", "", "4 3 0 0 1 1");
    gives("1 x;", "x;;", "", "4 3 0 0 1 1");
    gives("1 x;", "x; x^2;", "", "4 3 0 0 1 1");
    gives("1 x;", "0*x; y;", "", "5 2 0 0 1 1");
    gives("1 x;;", "x;", "", "4 2 0 0 1 1");
    gives("1 x;", ";", "", "4 2 0 0 1 1");
    proof_gives("3 % 1 + 2, x;;", "4 5 0 3 3 4");
}

// ---- numbers

#[test]
fn a_lone_0_without_a_sign_is_the_zero_field() {
    for zero in ["0", "00", " 0 ", "x-x", "256", "128*x+128*x"] {
        gives(&format!("1 {zero};"), "0;", "", "0 0 0 0 1 0");
        gives("1 0;", &format!("{zero};"), "", "0 0 0 0 1 0");
    }
    proof_gives("3 % 1*(0) + 2*(00), 000; 4 = z, 0;", "16 5 0 0 4 4");
    for wrong in ["-0", "-00", "0*x", "0+x", "x-0", "0+0", "x+00*y", "-0*x"] {
        gives("1 1;", &format!("{wrong};"), "", "5 2 0 0 1 1");
        proof_gives(&format!("3 * 1, {wrong}, 0;"), "5 4 0 0 2 3");
        proof_gives(&format!("3 % 1, {wrong};"), "5 4 0 0 2 3");
        proof_gives(&format!("3 = z, {wrong};"), "5 4 0 0 2 3");
    }
}

#[test]
fn numbers_at_their_limits() {
    for (coefficient, stands) in [
        ("18446744073709551615", true),
        ("00000000000000000000000000018446744073709551615", true),
        ("18446744073709551616", false),
        ("99999999999999999999999999999999999999999999", false),
    ] {
        for poly in [coefficient.to_string(), format!("-{coefficient}*x"), format!("1+{coefficient}*x*y")] {
            let terms = poly.split('+').count();
            let p = published(64, &format!("1 {poly};"), &format!("{poly};"), "");
            assert_eq!(answer(&p), if stands { format!("0 0 0 0 1 {terms}") } else { "5 1 0 0 0 0".to_string() });
        }
    }
    for id in ["1", "0001", "4294967295", "0000000000000000000000004294967295"] {
        gives(&format!("{id} x;"), "x;", &format!("{id} d;"), "0 0 0 0 0 0");
    }
    for id in ["0", "000", "4294967296", "18446744073709551616", "99999999999999999999999999"] {
        gives(&format!("{id} x;"), "x;", "", "5 1 0 0 0 0");
        for proof in [
            format!("{id} d;"),
            format!("{id} % 1, x;"),
            format!("3 % {id}, x;"),
            format!("3 % 1 + {id}*(x), x;"),
            format!("3 + {id}, 1, x;"),
            format!("3 + 1, {id}, x;"),
            format!("3 * {id}, 1, x;"),
            format!("{id} = z, 1;"),
        ] {
            proof_gives(&proof, "5 4 0 0 2 3");
        }
    }
    proof_gives("0 % 0;", "4 4 0 0 2 3");
}

#[test]
fn more_than_96_terms_in_a_polynomial() {
    let (most, more) = (vec!["w"; 96].join("+"), vec!["w"; 97].join("-"));
    gives(&format!("7 {more};"), "x;", "", "6 1 7 0 0 0");
    gives("", &format!("{more};"), "", "6 1 0 0 0 0");
    for (proof, index) in [
        (format!("3 % 1, {more};"), 3),
        (format!("4 % 1 + 2*({more}), 0;"), 4),
        (format!("5 * 9, {more}, 0;"), 5),
        (format!("6 * 1, 0, {more};"), 6),
        (format!("7 + 1, 9, {more};"), 7),
        (format!("8 = x, {more};"), 8),
        (format!("9 % 1*({most}), {more};"), 9),
    ] {
        proof_gives(&proof, &format!("6 4 {index} 0 2 3"));
        proof_gives(&proof.replacen("w", "0*w", 1), "5 4 0 0 2 3");
        proof_gives(&proof.replacen("w", "2w", 1), "4 4 0 0 2 3");
    }
    proof_gives(&format!("3 * 2, {most}, 96*w*y;"), "16 4 0 1 3 4");
}
