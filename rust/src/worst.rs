//! Texts to measure with: the 8 by 8 multiplier in three styles, the same with an accumulator behind it, and the dearest texts of each
//! kind that we know.

use crate::host::TEXT_BYTES;
use crate::multiplier::{self, Block, Style};
use crate::random::Random;
use crate::width::VARIABLES;

/// The longest text that the checker takes.
const MOST_BYTES: usize = 1_048_576;

/// A text and its name.
pub struct Measured {
    pub name: &'static str,
    pub text: Vec<u8>,
}

/// Appends line after line while the text stays within its length.
fn grown(mut text: String, most: usize, mut line: impl FnMut(usize) -> Option<String>) -> Vec<u8> {
    for turn in 0.. {
        match line(turn) {
            Some(l) if text.len() + l.len() <= most => text.push_str(&l),
            _ => break,
        }
    }
    text.into_bytes()
}

fn joined<T: ToString>(items: impl Iterator<Item = T>, between: &str) -> String {
    items.map(|i| i.to_string()).collect::<Vec<_>>().join(between)
}

/// Terms of two variables each.
fn terms(random: &mut Random, n: usize) -> Vec<String> {
    (0..n).map(|_| format!("{}.{}.{}", random.between(1, 9), random.below(VARIABLES), random.below(VARIABLES))).collect()
}

/// Every lin line makes so many products, a multiple of 64, which cancel.
fn products(each: usize) -> Vec<u8> {
    let mut random = Random::new(1);
    let head = format!("ring\t64\nin\t1\t{}\ngoal\t1\n", terms(&mut random, 32).join(" "));
    grown(head, TEXT_BYTES, |turn| {
        let factor = terms(&mut random, each / 64);
        let negative = joined(factor.iter().map(|t| format!("-{t}")), " ");
        (turn < 510).then(|| format!("lin\t{}\t0\t1\t{}\t1\t{negative}\n", turn + 2, factor.join(" ")))
    })
}

/// 512 stored polynomials, and a del of the first on every second line.
fn deletions() -> Vec<u8> {
    let inputs = joined((1..512).map(|i| format!("in\t{i}\t1.{}\n", i % VARIABLES)), "");
    grown(format!("ring\t8\n{inputs}goal\t7\n"), TEXT_BYTES, |turn| {
        let (new, first) = (512 + turn, 1 + turn);
        Some(format!("lin\t{new}\t0\t{}\t0\ndel\t{first}\n", new - 1))
    })
}

/// Lines of nearly 8,192 bytes, with fields of many variables.
fn fields() -> Vec<u8> {
    let mut random = Random::new(2);
    grown("ring\t64\n".to_string(), TEXT_BYTES, |turn| {
        let mut line = format!("in\t{}\t", turn + 1);
        for n in 0..96 {
            let variables = joined((0..16).map(|_| random.below(VARIABLES)), ".");
            let term = format!("{}{}.{variables}", if n == 0 { "" } else { " " }, random.word() | 1);
            if line.len() + term.len() > 8_192 {
                break;
            }
            line.push_str(&term);
        }
        Some(line + "\n")
    })
}

/// Fields of 96 terms that are the longest decimals.
fn decimals() -> Vec<u8> {
    let field = joined((0..96).map(|_| u64::MAX), " ");
    grown("ring\t64\n".to_string(), TEXT_BYTES, |turn| Some(format!("in\t{}\t{field}\n", 4_294_967_295 - turn)))
}

/// Lin lines of 400 pairs with stored polynomials in any order.
fn pairs() -> Vec<u8> {
    let mut random = Random::new(3);
    let inputs = joined((1..=500).map(|i| format!("in\t{i}\t1.{}\n", i % VARIABLES)), "");
    grown(format!("ring\t8\n{inputs}goal\t7\n"), TEXT_BYTES, |turn| {
        let pairs = joined((0..400).map(|_| format!("\t{}\t0", random.between(1, 500))), "");
        (turn < 12).then(|| format!("lin\t{}\t0{pairs}\n", 1_000 + turn))
    })
}

/// As many lines as a text can have that store a polynomial and delete it.
fn longest() -> Vec<u8> {
    let head = "ring\t16\nin\t1\t-1.2 1.0.1\ngoal\t7\n".to_string();
    grown(head, MOST_BYTES, |_| Some("lin\t2\t1.2 -1.0.2\t1\t1.0 -1\ndel\t2\n".to_string()))
}

/// The 8 by 8 multiplier, and with an accumulator of 16 bits and of 32, in each style.
pub fn blocks() -> Vec<Measured> {
    let multiplier = |style| multiplier::text(Block::multiplier(8), 16, style);
    let accumulator = |width, style| multiplier::text(Block::accumulator(8, width), width as u32, style);
    named([
        ("onelin", multiplier(Style::OneLin)),
        ("cells", multiplier(Style::Cells)),
        ("fine", multiplier(Style::Fine)),
        ("onelin-16", accumulator(16, Style::OneLin)),
        ("cells-16", accumulator(16, Style::Cells)),
        ("fine-16", accumulator(16, Style::Fine)),
        ("onelin-32", accumulator(32, Style::OneLin)),
        ("cells-32", accumulator(32, Style::Cells)),
        ("fine-32", accumulator(32, Style::Fine)),
    ])
}

/// All texts to measure with. Only the last is too long for the host call.
pub fn all() -> Vec<Measured> {
    let dearest = named([
        ("products-64", products(64)),
        ("products-256", products(256)),
        ("products-1024", products(1_024)),
        ("deletions", deletions()),
        ("fields", fields()),
        ("decimals", decimals()),
        ("pairs", pairs()),
        ("longest", longest()),
    ]);
    blocks().into_iter().chain(dearest).collect()
}

fn named<const N: usize>(texts: [(&'static str, Vec<u8>); N]) -> Vec<Measured> {
    texts.into_iter().map(|(name, text)| Measured { name, text }).collect()
}
