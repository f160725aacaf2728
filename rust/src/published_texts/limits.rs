//! Published proofs at a limit, just beyond it, or with a statement that is odd.

use super::{laid_out, names, white};
use crate::published::{plain, plain_names, Published, Publisher};
use crate::random::Random;
use crate::texts::{end_number, many_polynomials, many_terms, stored_terms, wide_ext, wide_lin};
use crate::width::VARIABLES;

pub(super) fn limit(most_bytes: usize, random: &mut Random) -> Published {
    match random.below(28) {
        0..=2 => of_text(many_terms(random), random),
        3 | 4 => of_text(wide_ext(random), random),
        5 | 6 => of_text(wide_lin(random), random),
        7 | 8 => of_text(many_polynomials(random), random),
        9 | 10 => of_text(stored_terms(random), random),
        11..=13 => long_statement(random),
        14..=16 => long_name(random),
        17..=19 => many_names(random),
        20 | 21 => long_texts(most_bytes, random),
        22..=24 => number_at_its_end(random),
        _ => odd_statements(random),
    }
}

fn published(k: u64, constraints: String, target: String, proof: String) -> Published {
    Published { k, constraints: constraints.into(), target: target.into(), proof: proof.into() }
}

/// The published form of a text of lines at its limit. Long names would make its statements too long, so that few have them.
fn of_text(text: Vec<u8>, random: &mut Random) -> Published {
    let lines: Vec<String> = String::from_utf8(text).unwrap().lines().map(String::from).collect();
    if random.once_in(4) {
        let names = names(random);
        let draft = Publisher { names, random: Some(random) }.draft(&lines);
        return laid_out(draft, random);
    }
    Publisher { names: plain_names(), random: Some(random) }.draft(&lines).laid_out(plain)
}

/// A statement of 8,191 to 8,194 bytes, filled with variables, white space or bytes that belong nowhere, behind white space or a
/// statement of its own text.
fn long_statement(random: &mut Random) -> Published {
    let part = random.below(3);
    let (before, head, tail) = match part {
        0 => *random.pick(&[("", "1 x", ""), ("2 y;", "1 x", "")]),
        1 => *random.pick(&[("", "x", ""), ("x;", "x", "")]),
        _ => *random.pick(&[("", "2 % 1", ", x"), ("", "2 * 1, 1", ", x"), ("", "2 = y, x", ""), ("2 + 1, 1, 2*x;", "1", "d")]),
    };
    let room = random.between(8_191, 8_194) - head.len() - tail.len();
    let fill = match random.below(6) {
        0 => "?".repeat(room),
        1 | 2 if head.ends_with('x') => format!("{}{}", if room % 2 == 1 { " " } else { "" }, "*x".repeat(room / 2)),
        _ => white(room, random),
    };
    let gap = white(*random.pick(&[0, 1, 2, 8_192]), random);
    let end = if random.once_in(4) { "" } else { ";" };
    let mut three = ["1 x;", "x;", ""].map(String::from);
    three[part] = format!("{before}{gap}{head}{fill}{tail}{end}");
    let [constraints, target, proof] = three;
    published(8, constraints, target, proof)
}

/// Texts with a name in each of its places; `N` stands for it, and `T` for 96 or 97 terms of it.
const NAMED: [[&str; 3]; 14] = [
    ["1 N;", "N;", ""],
    ["1 x; 2 x*N;", "x;", "2 d;"],
    ["1 x;", "x*N;", "2 % 1*(N), x*N;"],
    ["1 x;", "x;", "2 = N, x; 3 % 2*(N), -N+x*N;"],
    ["1 x;", "x;", "2 = y, N; 2 d;"],
    ["1 x;", "x;", "2 * 1, N, N*x;"],
    ["1 x;", "x;", "2 + 1, 1, 2*x+N-N;"],
    ["1 x;", "x;", "1 % 9*(N), 0;"],
    ["1 x;", "x;", "2 = N, 2*x*N; N;"],
    ["1 x;", "x;", "2 = N, 0*x;"],
    ["1 x;", "x;", "0 % 1*(N), N*x;"],
    ["1 x; 2 T;", "x;", "2 d;"],
    ["1 x;", "T;", ""],
    ["1 x;", "x;", "2 % 1*(T), 0;"],
];

/// A name of 30 to 33 bytes.
fn long_name(random: &mut Random) -> Published {
    let name = format!("{}{}", random.pick(&["x", "d", "N"]), "0".repeat(random.between(29, 32)));
    let terms = vec!["N"; random.between(96, 97)].join("+");
    let [constraints, target, proof] = random.pick(&NAMED).map(|text| text.replace('T', &terms).replace('N', &name));
    published(8, constraints, target, proof)
}

/// Up to two names more or less than there are variables: most in one constraint, the others one after the other in each place where a name can stand.
fn many_names(random: &mut Random) -> Published {
    let prefix = *random.pick(&["x", "x", "y", "d"]);
    let name = |n: usize| format!("{prefix}{n}");
    let last = random.between(VARIABLES - 2, VARIABLES + 2);
    let first = random.between(VARIABLES - 16, last);
    let before_target = random.between(first, last);
    let before_proof = random.between(before_target, last);
    let product: Vec<String> = (0..first).map(name).collect();
    let mut constraints = format!("1 {}; 2 {prefix}1;\n", product.join("*"));
    constraints.extend((first..before_target).map(|n| format!("{n} 3*{};\n", name(n))));
    let target: String = (before_target..before_proof).map(|n| format!("{0}-{0}+", name(n))).collect();
    let steps: String = (before_proof..last).map(|n| named_step(n, prefix, random)).collect();
    published(8, constraints, format!("{target}{prefix}1;\n"), format!("{steps}1 d;\n"))
}

/// A step that brings in a name with this number, and stands if the name does.
fn named_step(n: usize, prefix: &str, random: &mut Random) -> String {
    let new = format!("{prefix}{n}");
    match random.below(6) {
        0 => format!("{n} % 2*(256*{new}) + 2, {prefix}1;\n"),
        1 => format!("{n} * 2, {new}, {prefix}1*{new};\n"),
        2 => format!("{n} % 2*(0), 8*{new}-8*{new};\n"),
        3 => format!("{n} + 2, 2, 2*{prefix}1+256*{new};\n"),
        4 => format!("{n} = {prefix}{}, {new};\n", n + VARIABLES),
        _ => format!("{n} = {new}, {prefix}2;\n"),
    }
}

/// Texts that are accepted but for their bytes, of which there are about as many as are taken.
fn long_texts(most_bytes: usize, random: &mut Random) -> Published {
    let bytes = (most_bytes + 3) - random.below(6);
    let constraints = format!("1 0;{}", white(random.below(most_bytes / 4), random));
    let target = format!("{}0;", white(random.below(most_bytes / 4), random));
    let room = bytes - constraints.len() - target.len();
    let mut proof = String::new();
    while random.once_in(2) || proof.is_empty() {
        let step = format!("2 * 1, x{}, 0;2 d;", "*x".repeat(random.below(4_000)));
        if proof.len() + step.len() <= room {
            proof += &step;
        }
    }
    proof += &white(room - proof.len(), random);
    published(8, constraints, target, proof)
}

/// A number at an end of its range, or just outside, in each of its places.
fn number_at_its_end(random: &mut Random) -> Published {
    let n = format!("{}{}", random.pick(&["", "", "0", "00000000000000000000"]), end_number(random));
    let after = |proof: String| published(64, "1 x;".to_string(), "x;".to_string(), proof);
    match random.below(12) {
        0 => published(n.parse().unwrap_or(u64::MAX), "1 x;".to_string(), "x;".to_string(), String::new()),
        1 => published(8, format!("{n} x;"), "x;".to_string(), format!("{n} d;")),
        2 => published(64, format!("1 {n};"), format!("{n};"), String::new()),
        3 => published(64, format!("1 x-{n}*y;"), format!("-{n}*y+x;"), String::new()),
        4 => published(8, "1 x;".to_string(), format!("x{n};"), format!("2 = x{n}, x;")),
        5 => after(format!("{n} % 1, x;")),
        6 => after(format!("2 % {n}*(0), 0;")),
        7 => after(format!("2 % 1*({n}), {n}*x;")),
        8 => after(format!("2 + 1, {n}, x;")),
        9 => after(format!("2 * {n}, 2, 2*x;")),
        10 => after(format!("2 * 1, -{n}, -{n}*x;")),
        _ => after(format!("{n} = y, {n};")),
    }
}

// ---- statements that are odd, most of them of bad form

const CONSTRAINTS: [&str; 22] = [
    "1 x;",
    "1x;",
    "2 y*x;",
    "2y;",
    "12;",
    "1 2;",
    "1 d;",
    "1d;",
    "3 0;",
    "3 00;",
    "3 -0;",
    "3 0*x;",
    "3 2a;",
    "4 +x;",
    "4 x--y;",
    "4 x y;",
    "4 x*2;",
    "4 2*3*x;",
    "5 x^2;",
    "5 -x*x+1;",
    ";",
    "6 x",
];

const TARGETS: [&str; 16] = ["x;", "x;", " x\r\n;\r\n", "d;", "0;", "00;", "-0;", "x-x;", "2;", "2a;", "x;y;", "x", ";", "", " ", "x;;"];

const STEPS: [&str; 32] = [
    "1 d;",
    "1d;",
    "1 d d;",
    "1 D;",
    "1d1;",
    "d;",
    "7 + 1, 1, 2*x;",
    "7+1,1,2x;",
    "7 + 1, 2, 2*x;",
    "7 * 1, 2, 2*x;",
    "7 * 1, 2;",
    "7 = d, x;",
    "8 = z, 1-x;",
    "8 = z, 2;",
    "8 = x, 1;",
    "8 = 1, x;",
    "9 % 1, x;",
    "9%1,x;",
    "9 % 1*(0), 0;",
    "9 % 1*x, x;",
    "9 % 1(1), x;",
    "9 % 1*1, x;",
    "9 % 1*(1, x;",
    "9 % 1*(1)), x;",
    "9 % 1*(x), x;",
    "9 % 1 1, x;",
    "9 % 1 + 1*(255), 0;",
    "9 % 1 - 1, 0;",
    ";",
    "9 % 1, x",
    "9 % 1, ;",
    "9 %\x0c1, x;",
];

fn odd_statements(random: &mut Random) -> Published {
    let some = |of: &[&str], random: &mut Random| -> String { (0..random.below(4)).map(|_| random.pick(of).to_string() + "\n").collect() };
    let constraints = if random.once_in(2) { "1 x;".to_string() } else { some(&CONSTRAINTS, random) };
    published(8, constraints, random.pick(&TARGETS).to_string(), some(&STEPS, random))
}
