//! Polynomials for the makers of texts: sums and products modulo 2^k, and random ways to write them.

use crate::random::Random;
use std::collections::BTreeMap;

pub type Variable = u16;

/// Sets of variables, each ascending, with their coefficients: none is zero modulo 2^k.
#[derive(Clone, Debug, Default, PartialEq, Eq)]
pub struct Polynomial(BTreeMap<Vec<Variable>, u64>);

/// The bits of a coefficient that count at this k.
fn cut(k: u32, c: u64) -> u64 {
    c & (u64::MAX >> (64 - k))
}

impl Polynomial {
    pub fn variable(v: Variable) -> Polynomial {
        Polynomial::default().plus_term(64, 1, &[v])
    }

    /// Itself plus c times the product of some variables.
    pub fn plus_term(mut self, k: u32, c: u64, variables: &[Variable]) -> Polynomial {
        let mut set = variables.to_vec();
        set.sort_unstable();
        set.dedup();
        let sum = cut(k, self.0.get(&set).unwrap_or(&0).wrapping_add(c));
        if sum == 0 {
            self.0.remove(&set);
        } else {
            self.0.insert(set, sum);
        }
        self
    }

    /// Itself plus c times q.
    pub fn plus_times(self, k: u32, c: u64, q: &Polynomial) -> Polynomial {
        q.0.iter().fold(self, |p, (set, d)| p.plus_term(k, c.wrapping_mul(*d), set))
    }

    pub fn times(&self, k: u32, q: &Polynomial) -> Polynomial {
        let mut all = Polynomial::default();
        for (s, c) in &self.0 {
            for (t, d) in &q.0 {
                all = all.plus_term(k, c.wrapping_mul(*d), &[&s[..], &t[..]].concat());
            }
        }
        all
    }

    /// How many terms it has.
    pub fn terms(&self) -> usize {
        self.0.len()
    }

    pub fn variables(&self) -> impl Iterator<Item = Variable> + '_ {
        self.0.keys().flatten().copied()
    }

    /// Whether v stands in it.
    pub fn holds(&self, v: Variable) -> bool {
        self.variables().any(|w| w == v)
    }

    /// A field that says this polynomial: any order, terms split in two, variables repeated, signs and multiples of 2^k at will.
    /// No more are split once 40 terms stand there, so that 64 terms stay within the 96 of a field.
    pub fn written(&self, k: u32, random: &mut Random) -> String {
        let mut terms = Vec::new();
        for (set, &c) in &self.0 {
            let part = random.word() >> random.below(64);
            if terms.len() < 40 && random.once_in(8) && part != 0 && part != c {
                terms.push(written_term(k, part, set, random));
                terms.push(written_term(k, c.wrapping_sub(part), set, random));
            } else {
                terms.push(written_term(k, c, set, random));
            }
        }
        random.shuffle(&mut terms);
        if terms.is_empty() {
            "0".to_string()
        } else {
            terms.join(" ")
        }
    }
}

/// A term whose magnitude is not zero and whose coefficient is c modulo 2^k.
fn written_term(k: u32, c: u64, set: &[Variable], random: &mut Random) -> String {
    let multiple = if k < 64 && random.once_in(6) { (random.word() >> 58) << k } else { 0 };
    let c = if c.wrapping_add(multiple) == 0 { c } else { c.wrapping_add(multiple) };
    let negated = cut(k, c.wrapping_neg());
    let mut text = if random.once_in(2) && negated != 0 { format!("-{negated}") } else { c.to_string() };
    let mut variables = set.to_vec();
    if !set.is_empty() && random.once_in(6) {
        variables.push(*random.pick(set));
    }
    random.shuffle(&mut variables);
    for v in variables {
        text += &format!(".{v}");
    }
    text
}
