//! True proofs at random: every lin line states the sum that it computes, every ext line defines a bit, and the goal is reached.

use crate::polynomial::{Polynomial, Variable};
use crate::random::Random;
use crate::width::{SET_WORDS, VARIABLES};
use std::collections::HashSet;

/// Variables at both ends of each word of a set, and some between.
pub const ENDS: [Variable; 2 * SET_WORDS + 4] = ends();

const fn ends() -> [Variable; 2 * SET_WORDS + 4] {
    let mut all = [0; 2 * SET_WORDS + 4];
    let mut word = 0;
    while word < SET_WORDS {
        all[2 * word] = 64 * word as Variable;
        all[2 * word + 1] = 64 * word as Variable + 63;
        word += 1;
    }
    [all[2 * word], all[2 * word + 1], all[2 * word + 2], all[2 * word + 3]] = [1, 2, 3, 62];
    all
}

/// A proof in the making.
#[derive(Default)]
struct Proof {
    k: u32,
    /// Whether many factors are 1.
    ones: bool,
    inputs: Vec<String>,
    steps: Vec<String>,
    stored: Vec<(u64, Polynomial)>,
    /// All that was ever stored.
    introduced: Vec<Polynomial>,
    /// The variables of ext lines.
    defined: Vec<Variable>,
    seen: HashSet<Variable>,
    /// The next new index.
    next: u64,
}

/// The lines of a proof that a checker accepts, unless no goal could be found for it.
pub fn lines(random: &mut Random) -> Vec<String> {
    made(false, random)
}

/// The same with many factors that are written 1, which published proofs leave out.
pub fn lines_with_ones(random: &mut Random) -> Vec<String> {
    made(true, random)
}

fn made(ones: bool, random: &mut Random) -> Vec<String> {
    let k = *random.pick(&[1, 1, 2, 3, 8, 16, 31, 32, 33, 63, 64]);
    let next = *random.pick(&[1, 1, 1, 9, 4_294_967_200]);
    let mut proof = Proof { k, ones, next, ..Proof::default() };
    for _ in 0..random.below(5) {
        proof.input(random);
    }
    for _ in 0..random.below(8) {
        proof.step(random);
    }
    proof.lines(random)
}

/// A polynomial of up to so many terms.
pub fn polynomial(k: u32, most: usize, random: &mut Random) -> Polynomial {
    let mut p = Polynomial::default();
    for _ in 0..random.between(0, most) {
        let c = *random.pick(&[1, 1, 2, 3, u64::MAX, 1 << (k - 1), 0x1234_5678_9ABC_DEF1]);
        let set: Vec<Variable> = (0..random.below(4)).map(|_| *random.pick(&ENDS)).collect();
        p = p.plus_term(k, c, &set);
    }
    p
}

impl Proof {
    fn store(&mut self, p: Polynomial) {
        self.seen.extend(p.variables());
        self.stored.push((self.next, p.clone()));
        self.introduced.push(p);
        self.next += 1;
    }

    fn input(&mut self, random: &mut Random) {
        let p = polynomial(self.k, 5, random);
        self.inputs.push(format!("in\t{}\t{}", self.next, p.written(self.k, random)));
        self.store(p);
    }

    fn step(&mut self, random: &mut Random) {
        match random.below(8) {
            0 if self.stored.len() > 1 => {
                let (index, _) = self.stored.remove(random.below(self.stored.len()));
                self.steps.push(format!("del\t{index}"));
            }
            3..=7 if !self.stored.is_empty() => self.lin(random),
            _ => self.ext(random),
        }
    }

    fn lin(&mut self, random: &mut Random) {
        let mut sum = Polynomial::default();
        let mut pairs = String::new();
        for _ in 0..random.between(1, 3) {
            let one = self.ones && random.once_in(2);
            let factor = if one { Polynomial::default().plus_term(self.k, 1, &[]) } else { polynomial(self.k, 3, random) };
            let (index, p) = random.pick(&self.stored);
            sum = sum.plus_times(self.k, 1, &factor.times(self.k, p));
            let written = if one { "1".to_string() } else { factor.written(self.k, random) };
            pairs += &format!("\t{index}\t{written}");
            self.seen.extend(factor.variables());
        }
        if sum.terms() <= 40 {
            self.steps.push(format!("lin\t{}\t{}{pairs}", self.next, sum.written(self.k, random)));
            self.store(sum);
        }
    }

    fn ext(&mut self, random: &mut Random) {
        let p = self.bit(2, random);
        let fresh = (0..50).map(|_| random.below(VARIABLES) as Variable).find(|v| !self.seen.contains(v) && !p.holds(*v));
        let Some(v) = fresh else { return };
        self.steps.push(format!("ext\t{}\t{v}\t{}", self.next, p.written(self.k, random)));
        self.defined.push(v);
        self.store(p.plus_term(self.k, u64::MAX, &[v]));
    }

    /// A polynomial that is 0 or 1 everywhere: variables, their products, negations and exclusive ors.
    fn bit(&self, depth: usize, random: &mut Random) -> Polynomial {
        let k = self.k;
        match random.below(if depth == 0 { 2 } else { 6 }) {
            0 => Polynomial::variable(*random.pick(&ENDS)),
            1 if self.defined.is_empty() => Polynomial::default().plus_term(k, random.below(2) as u64, &[]),
            1 => Polynomial::variable(*random.pick(&self.defined)),
            2 => Polynomial::default().plus_term(k, 1, &[]).plus_times(k, u64::MAX, &self.bit(depth - 1, random)),
            3 => self.bit(depth - 1, random).times(k, &self.bit(depth - 1, random)),
            _ => {
                let (p, q) = (self.bit(depth - 1, random), self.bit(depth - 1, random));
                let both = p.times(k, &q);
                p.plus_times(k, 1, &q).plus_times(k, u64::MAX - 1, &both)
            }
        }
    }

    /// The goal is what some line introduces; a variable of an ext line in it would be seen too early.
    fn lines(&self, random: &mut Random) -> Vec<String> {
        let free = |p: &&Polynomial| !self.defined.iter().any(|v| p.holds(*v));
        let reached: Vec<&Polynomial> = self.introduced.iter().filter(free).collect();
        let goal = if reached.is_empty() { Polynomial::default() } else { (*random.pick(&reached)).clone() };
        let mut lines = vec![format!("ring\t{}", self.k)];
        lines.extend(self.inputs.iter().cloned());
        lines.push(format!("goal\t{}", goal.written(self.k, random)));
        lines.extend(self.steps.iter().cloned());
        lines
    }
}
