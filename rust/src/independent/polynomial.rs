//! Reduced polynomials modulo 2^k.

use super::statement::Written;
use crate::width::SET_WORDS;
use std::collections::BTreeMap;

/// A set of variables, the highest first, so that comparing two lists of words compares two numbers.
pub(super) type Set = [u64; SET_WORDS];

/// A reduced polynomial: no coefficient is zero modulo 2^k.
pub(super) type Poly = BTreeMap<Set, u64>;

fn union(a: &Set, b: &Set) -> Set {
    std::array::from_fn(|i| a[i] | b[i])
}

fn mask(k: u32) -> u64 {
    u64::MAX >> (64 - k)
}

/// Adds a term to p.
pub(super) fn add(p: &mut Poly, set: Set, c: u64, k: u32) {
    let sum = p.remove(&set).unwrap_or(0).wrapping_add(c) & mask(k);
    if sum != 0 {
        p.insert(set, sum);
    }
}

/// The word that v is in.
fn word_of(v: u64) -> usize {
    SET_WORDS - 1 - (v / 64) as usize
}

pub(super) fn single(v: u64) -> Set {
    let mut set = [0; SET_WORDS];
    set[word_of(v)] = 1 << (v % 64);
    set
}

/// Whether v is in the set.
pub(super) fn holds(set: &Set, v: u64) -> bool {
    set[word_of(v)] >> (v % 64) & 1 == 1
}

pub(super) fn reduced(written: &Written, k: u32) -> Poly {
    let mut p = Poly::new();
    for t in written {
        let set = t.variables.iter().fold([0; SET_WORDS], |s, v| union(&s, &single(v.unwrap())));
        let m = t.magnitude.unwrap();
        add(&mut p, set, if t.negative { m.wrapping_neg() } else { m }, k);
    }
    p
}

pub(super) fn add_product(sum: &mut Poly, p: &Poly, q: &Poly, k: u32) {
    for (s, c) in p {
        for (t, d) in q {
            add(sum, union(s, t), c.wrapping_mul(*d), k);
        }
    }
}
