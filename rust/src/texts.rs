//! Texts for comparing two checkers: true proofs, near misses of them, damaged bytes, every limit on both sides, multipliers.
//! The text with a given number is the same in every run.

use crate::multiplier::{self, Block, Style, STYLES};
use crate::polynomial::{Polynomial, Variable};
use crate::proofs::{self, polynomial, ENDS};
use crate::random::Random;
use crate::width::{POOL_TERMS, VARIABLES};

/// The text with this number.
pub fn text(number: u64) -> Vec<u8> {
    let mut random = Random::new(number);
    match number % 64 {
        0..=15 => joined(&proofs::lines(&mut random)),
        16..=43 => near_miss(proofs::lines(&mut random), &mut random),
        44..=57 => damaged(joined(&proofs::lines(&mut random)), BYTES, &mut random),
        58..=62 => limit(&mut random),
        _ => multiplier(&mut random),
    }
}

fn joined(lines: &[String]) -> Vec<u8> {
    lines.iter().flat_map(|l| [l.as_bytes(), b"\n"].concat()).collect()
}

// ---- near misses: one line is changed, lost, doubled, moved or added

/// Numbers at the ends of the ranges, and just outside; those of the variables are not among them.
const NUMBERS: [&str; 12] = [
    "0",
    "1",
    "2",
    "3",
    "7",
    "64",
    "65",
    "4294967295",
    "4294967296",
    "18446744073709551615",
    "18446744073709551616",
    "340282366920938463463374607431768211456",
];

/// A number at an end of a range, or just outside.
pub(crate) fn end_number(random: &mut Random) -> String {
    match random.below(NUMBERS.len() + 2) {
        0 => (VARIABLES - 1).to_string(),
        1 => VARIABLES.to_string(),
        other => NUMBERS[other - 2].to_string(),
    }
}

fn near_miss(mut lines: Vec<String>, random: &mut Random) -> Vec<u8> {
    let (at, other) = (random.below(lines.len()), random.below(lines.len()));
    match random.below(8) {
        0 => drop(lines.remove(at)),
        1 => lines.insert(other, lines[at].clone()),
        2 => lines.swap(at, other),
        3 => lines.truncate(at),
        4 => lines[at] = with_other_number(&lines[at], random),
        5 => lines[at] = with_other_terms(&lines[at], random),
        6 => lines.push(wrong_step(&lines, random)),
        _ => lines.insert(at.max(1), wrong_step(&lines, random)),
    }
    joined(&lines)
}

/// A line or a text with one of its numbers replaced.
fn with_other_number(text: &str, random: &mut Random) -> String {
    let bytes = text.as_bytes();
    let starts: Vec<usize> = (1..bytes.len()).filter(|&i| bytes[i].is_ascii_digit() && !bytes[i - 1].is_ascii_digit()).collect();
    if starts.is_empty() {
        return text.to_string();
    }
    let start = *random.pick(&starts);
    let end = (start..bytes.len()).find(|&i| !bytes[i].is_ascii_digit()).unwrap_or(bytes.len());
    format!("{}{}{}", &text[..start], end_number(random), &text[end..])
}

/// A field with terms added or another polynomial in its place.
fn with_other_terms(line: &str, random: &mut Random) -> String {
    let mut fields: Vec<String> = line.split('\t').map(String::from).collect();
    let at = random.below(fields.len());
    match random.below(4) {
        0 => fields[at] += " 1",
        1 => fields[at] += &format!(" -1.{}", random.pick(&ENDS)),
        2 => fields[at] += &format!(".{}", random.pick(&ENDS)),
        _ => fields[at] = polynomial(64, 4, random).written(64, random),
    }
    fields.join("\t")
}

/// A step with an index and variables that may be taken, missing or seen, and a polynomial that may be wrong.
pub(crate) fn wrong_step(lines: &[String], random: &mut Random) -> String {
    let known = random.pick(lines).split('\t').nth(1).unwrap_or("1").to_string();
    let index = if random.once_in(2) { known } else { random.between(1, 20).to_string() };
    let v = if random.once_in(2) { *random.pick(&ENDS) as usize } else { random.below(VARIABLES) };
    let p = polynomial(64, 3, random).written(64, random);
    match random.below(4) {
        0 => format!("del\t{index}"),
        1 => format!("ext\t{index}\t{v}\t{p}"),
        2 => format!("lin\t{index}\t{p}\t{}\t{}", random.between(1, 12), random.between(0, 2)),
        _ => format!("in\t{index}\t{p}"),
    }
}

// ---- damage: some bytes replaced, added or lost

const BYTES: &[u8] = b"0123456789.- \t\n\rringoaldext\0\xff";

pub(crate) fn damaged(mut text: Vec<u8>, bytes: &[u8], random: &mut Random) -> Vec<u8> {
    for _ in 0..random.between(1, 3) {
        let at = random.below(text.len() + 1);
        let byte = if random.once_in(8) { random.word() as u8 } else { *random.pick(bytes) };
        match random.below(4) {
            0 => text.insert(at, byte),
            1 if at < text.len() => drop(text.remove(at)),
            2 => text.truncate(at),
            _ if at < text.len() => text[at] = byte,
            _ => text.push(byte),
        }
    }
    text
}

// ---- limits, on both sides

fn limit(random: &mut Random) -> Vec<u8> {
    match random.below(16) {
        0..=2 => long_line(random),
        3..=5 => many_terms(random),
        6 | 7 => wide_ext(random),
        8..=10 => wide_lin(random),
        11 => many_polynomials(random),
        12 => stored_terms(random),
        13 => long_text(random),
        _ => number_at_its_end(random),
    }
}

/// A factor of exactly so many bytes, at least 3: the term 1 with variable 1 over and over.
fn factor_of(bytes: usize) -> String {
    let last = if bytes.is_multiple_of(2) { ".11" } else { ".1" };
    format!("1{}{last}", ".1".repeat((bytes - 1 - last.len()) / 2))
}

/// A line of 8,191 to 8,194 bytes.
fn long_line(random: &mut Random) -> Vec<u8> {
    let bytes = random.between(8191, 8194);
    match random.below(4) {
        0 => format!("ring\t8\nin\t1\t{}\ngoal\t0\n", factor_of(bytes - 5)).into_bytes(),
        1 => format!("ring\t8\nin\t1\t0\ngoal\t0\nlin\t2\t0\t1\t{}\n", factor_of(bytes - 10)).into_bytes(),
        2 => format!("ring\t8\ngoal\t{}", factor_of(bytes - 5)).into_bytes(),
        _ => [vec![random.word() as u8 | 1; bytes], b"\n".to_vec()].concat(),
    }
}

/// A field of 95 to 98 written terms, in each kind of field; one of three with another number somewhere.
pub(crate) fn many_terms(random: &mut Random) -> Vec<u8> {
    let field = vec!["1.3"; random.between(95, 98)].join(" ");
    let steps = "ring\t1\nin\t1\t0\ngoal\t0\n";
    let text = match random.below(6) {
        0 => format!("ring\t64\nin\t5\t{field}\ngoal\t0\n"),
        1 => format!("ring\t64\ngoal\t{field}\n"),
        2 => format!("{steps}lin\t2\t{field}\t1\t0\n"),
        3 => format!("{steps}lin\t2\t0\t1\t{field}\n"),
        4 => format!("{steps}in\t2\t{field}\n"),
        _ => format!("{steps}ext\t2\t200\t{field}\n"),
    };
    if random.once_in(3) { with_other_number(&text, random) } else { text }.into_bytes()
}

/// The first n subsets of six variables: products of such are few.
fn subsets(n: usize) -> Polynomial {
    let set = |bits: usize| -> Vec<Variable> { (0..6).filter(|v| bits >> v & 1 == 1).collect() };
    (0..n).fold(Polynomial::default(), |p, bits| p.plus_term(64, 1, &set(bits)))
}

/// An ext line with 31 to 34 terms: 961 to 1,156 products. At k = 1 every polynomial is a bit; variable 3 stands in p.
pub(crate) fn wide_ext(random: &mut Random) -> Vec<u8> {
    let p = subsets(random.between(31, 34)).written(64, random);
    let (k, v) = (random.pick(&[1, 1, 1, 8]), random.pick(&[200, 200, 200, 3]));
    format!("ring\t{k}\nin\t1\t1\ngoal\t1\next\t2\t{v}\t{p}\n").into_bytes()
}

/// A lin line with 1,022 to 1,026 products over two pairs, its sum stated right or wrong.
pub(crate) fn wide_lin(random: &mut Random) -> Vec<u8> {
    let k = random.between(1, 64) as u32;
    let (p, other) = (subsets(32), Polynomial::variable(7));
    let (most, few) = (subsets(31), subsets(random.between(30, 34)));
    let sum = most.times(k, &p).plus_times(k, 1, &few.times(k, &other));
    let sum = if random.once_in(4) { sum.plus_term(k, 1, &[]) } else { sum };
    let inputs = format!("in\t1\t{}\nin\t2\t{}", p.written(k, random), other.written(k, random));
    let pairs = format!("1\t{}\t2\t{}", most.written(k, random), few.written(k, random));
    let stated = sum.written(k, random);
    format!("ring\t{k}\n{inputs}\ngoal\t{stated}\nlin\t3\t{stated}\t{pairs}\n").into_bytes()
}

/// 510 inputs and one to four more lines that store, some of them with a fault of their own.
pub(crate) fn many_polynomials(random: &mut Random) -> Vec<u8> {
    let inputs: String = (1..=510).map(|i| format!("in\t{i}\t{}\n", i % 3)).collect();
    let mut text = format!("ring\t8\n{inputs}goal\t0\n");
    for i in 511..511 + random.between(1, 4) {
        text += &match random.below(12) {
            0..=2 => format!("ext\t{i}\t{}\t1.0\n", i - 400),
            3..=5 => format!("del\t{}\nlin\t{i}\t1\t1\t1\n", i - 400),
            6 => format!("lin\t{i}\t1\t3\t0\n"),
            7 => format!("ext\t{i}\t{}\t2.0\n", i - 400),
            _ => format!("lin\t{i}\t0\t3\t0\n"),
        };
    }
    text.into_bytes()
}

/// Inputs with as many terms as the host's pool holds, or up to two more or less, then one that needs no room.
pub(crate) fn stored_terms(random: &mut Random) -> Vec<u8> {
    let wide: Vec<String> = (0..96).map(|v| format!("1.{v}")).collect();
    let (full, rest) = (POOL_TERMS / 96, POOL_TERMS % 96);
    let inputs: String = (1..=full).map(|i| format!("in\t{i}\t{}\n", wide.join(" "))).collect();
    let last = &wide[..random.between(rest - 2, rest + 2)];
    format!("ring\t64\n{inputs}in\t50\t{}\ngoal\t0\nlin\t51\t0\t1\t0\n", last.join(" ")).into_bytes()
}

/// An accepted text of so many bytes, some of which are too many.
fn long_text(random: &mut Random) -> Vec<u8> {
    let bytes = *random.pick(&[65_535, 65_536, 65_537, 65_537, 65_538, 65_538, 70_000, 200_000, 1_048_577]);
    let mut text = "ring\t8\nin\t1\t0\ngoal\t0\n".to_string();
    while text.len() < bytes {
        let room = bytes - text.len();
        let line = if room < 8_000 { room } else { random.between(2_000, 6_000) };
        text += &format!("lin\t2\t0\t1\t{}\ndel\t2\n", factor_of(line - 17));
    }
    text.into_bytes()
}

/// A number at an end of its range, or just outside, in each of its places.
fn number_at_its_end(random: &mut Random) -> Vec<u8> {
    let n = end_number(random);
    match random.below(6) {
        0 => format!("ring\t{n}\ngoal\t1\n"),
        1 => format!("ring\t8\nin\t{n}\t1\ngoal\t1\n"),
        2 => format!("ring\t8\nin\t1\t1.{n}\ngoal\t1.{n}\n"),
        3 => format!("ring\t8\nin\t1\t-{n}.5\ngoal\t-{n}.5\n"),
        4 => format!("ring\t8\nin\t1\t1\ngoal\t1\next\t2\t{n}\t1.0\ndel\t2\n"),
        _ => format!("ring\t8\nin\t1\t1\ngoal\t1\nlin\t2\t0\t{n}\t0\ndel\t{n}\n"),
    }
    .into_bytes()
}

// ---- multiplier proofs, most of them small, one of two with an accumulator; two of three with a line changed or damaged

/// A block, k and a style for its proof.
pub(crate) fn some_block(random: &mut Random) -> (Block, u32, Style) {
    let n = 2 + random.below(7).min(random.below(7));
    let block = if random.once_in(2) { Block::multiplier(n) } else { Block::accumulator(n, random.between(1, Block::GREATEST_WIDTH)) };
    let k = random.between(1, block.greatest_ring() as usize) as u32;
    (block, k, *random.pick(&STYLES))
}

fn multiplier(random: &mut Random) -> Vec<u8> {
    let (block, k, style) = some_block(random);
    let text = multiplier::text(block, k, style);
    match random.below(3) {
        0 => text,
        1 => near_miss(String::from_utf8(text).unwrap().lines().map(String::from).collect(), random),
        _ => damaged(text, BYTES, random),
    }
}
