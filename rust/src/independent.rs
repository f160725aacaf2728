//! A checker written from the rule paper alone, with ordinary containers: what the proved one is compared with.

mod grammar;
mod polynomial;
mod published;
mod statement;

use crate::width::{LEAST_POOL, LEAST_SCRATCH, POOL, SCRATCH, TERM_WORDS, VARIABLES};
use polynomial::{add, add_product, holds, reduced, single, Poly};
use statement::{statement, Decimal, Statement, Written};
use std::collections::{HashMap, HashSet};
use std::fmt;

pub use published::{check_published, numbered_names};

/// The longest text that is checked; the host call and the check program take less.
pub const TEXT_BYTES: usize = 1_048_576;

pub const SHORT: u64 = 1;
pub const LONGTEXT: u64 = 2;
pub const LONGLINE: u64 = 3;
pub const FORM: u64 = 4;
pub const NUMBER: u64 = 5;
pub const TERMS: u64 = 6;
pub const ORDER: u64 = 7;
pub const TAKEN: u64 = 8;
pub const MISSING: u64 = 9;
pub const SEEN: u64 = 10;
pub const PRODUCTS: u64 = 11;
pub const MISMATCH: u64 = 12;
pub const NOTBIT: u64 = 13;
pub const FULL: u64 = 14;
pub const NOGOAL: u64 = 15;
pub const NOTREACHED: u64 = 16;
pub const NAMES: u64 = 17;

/// The six numbers of an answer.
#[derive(Clone, Copy, Debug, Default, PartialEq, Eq)]
pub struct Answer {
    pub verdict: u64,
    pub line: u64,
    pub index: u64,
    pub products: u64,
    pub polynomials: u64,
    pub terms: u64,
}

impl fmt::Display for Answer {
    /// As the check program prints it.
    fn fmt(&self, f: &mut fmt::Formatter) -> fmt::Result {
        let Answer { verdict, line, index, products, polynomials, terms } = self;
        write!(f, "{verdict}\t{line}\t{index}\t{products}\t{polynomials}\t{terms}")
    }
}

// ---- the steps

/// What has stood so far: nothing, the ring line, the goal line.
#[derive(PartialEq)]
enum Phase {
    Opening,
    Inputs,
    Steps,
}

struct State {
    phase: Phase,
    k: u32,
    capacity: usize,
    store: HashMap<u64, Poly>,
    seen: HashSet<u64>,
    goal: Poly,
    reached: bool,
    products: u64,
}

/// NUMBER and TERMS, which what is written decides alone.
fn written_within_limits(statement: &Statement) -> Result<(), u64> {
    if !statement.numbers_in_range() {
        return Err(NUMBER);
    }
    if statement.fields().iter().any(|p| p.len() > 96) {
        return Err(TERMS);
    }
    Ok(())
}

impl State {
    /// Nothing has stood, with so many words of pool.
    fn new(pool: usize) -> State {
        State {
            phase: Phase::Opening,
            k: 0,
            capacity: (pool / TERM_WORDS).min(65_536),
            store: HashMap::new(),
            seen: HashSet::new(),
            goal: Poly::new(),
            reached: false,
            products: 0,
        }
    }

    fn terms(&self) -> usize {
        self.store.values().map(|p| p.len()).sum()
    }

    /// Makes the variables of p seen.
    fn see(&mut self, p: &Poly) {
        for set in p.keys() {
            self.seen.extend((0..VARIABLES as u64).filter(|&v| holds(set, v)));
        }
    }

    /// Stores p, which may be the goal.
    fn place(&mut self, index: u64, p: Poly) -> Result<(), u64> {
        if self.store.len() >= 512 || self.terms() + p.len() > self.capacity {
            return Err(FULL);
        }
        self.see(&p);
        if self.phase == Phase::Steps && p == self.goal {
            self.reached = true;
        }
        self.store.insert(index, p);
        Ok(())
    }

    /// Refuses a line of another phase.
    fn stands(&self, phase: Phase) -> Result<(), u64> {
        if self.phase == phase {
            Ok(())
        } else {
            Err(ORDER)
        }
    }

    /// Refuses an index that is stored already.
    fn free(&self, index: u64) -> Result<(), u64> {
        if self.store.contains_key(&index) {
            Err(TAKEN)
        } else {
            Ok(())
        }
    }

    /// A statement that is written within the limits: the refusals from ORDER to FULL, or what it changes.
    fn step(&mut self, statement: &Statement) -> Result<(), u64> {
        match statement {
            Statement::Ring(k) => {
                self.stands(Phase::Opening)?;
                self.k = k.unwrap() as u32;
                self.phase = Phase::Inputs;
            }
            Statement::In(i, p) => {
                self.stands(Phase::Inputs)?;
                self.free(i.unwrap())?;
                self.place(i.unwrap(), reduced(p, self.k))?;
            }
            Statement::Goal(p) => {
                self.stands(Phase::Inputs)?;
                let goal = reduced(p, self.k);
                self.see(&goal);
                self.reached = self.store.values().any(|q| *q == goal);
                self.goal = goal;
                self.phase = Phase::Steps;
            }
            Statement::Lin(i, stated, pairs) => self.lin(i.unwrap(), stated, pairs)?,
            Statement::Del(i) => {
                self.stands(Phase::Steps)?;
                self.store.remove(&i.unwrap()).ok_or(MISSING)?;
            }
            Statement::Ext(i, v, p) => self.ext(i.unwrap(), v.unwrap(), p)?,
        }
        Ok(())
    }

    fn lin(&mut self, i: u64, stated: &Written, pairs: &[(Decimal, Written)]) -> Result<(), u64> {
        self.stands(Phase::Steps)?;
        self.free(i)?;
        if pairs.iter().any(|q| !self.store.contains_key(&q.0.unwrap())) {
            return Err(MISSING);
        }
        let factors: Vec<Poly> = pairs.iter().map(|q| reduced(&q.1, self.k)).collect();
        let named: Vec<&Poly> = pairs.iter().map(|q| &self.store[&q.0.unwrap()]).collect();
        let products: usize = factors.iter().zip(&named).map(|(f, p)| f.len() * p.len()).sum();
        if products > 1024 {
            return Err(PRODUCTS);
        }
        let mut sum = Poly::new();
        for (f, p) in factors.iter().zip(&named) {
            add_product(&mut sum, f, p, self.k);
        }
        let stated = reduced(stated, self.k);
        if sum != stated {
            return Err(MISMATCH);
        }
        self.place(i, stated)?;
        for f in &factors {
            self.see(f);
        }
        self.products += products as u64;
        Ok(())
    }

    fn ext(&mut self, i: u64, v: u64, p: &Written) -> Result<(), u64> {
        self.stands(Phase::Steps)?;
        self.free(i)?;
        let p = reduced(p, self.k);
        if self.seen.contains(&v) || p.keys().any(|s| holds(s, v)) {
            return Err(SEEN);
        }
        let products = p.len() * p.len();
        if products > 1024 {
            return Err(PRODUCTS);
        }
        let mut square = Poly::new();
        add_product(&mut square, &p, &p, self.k);
        if square != p {
            return Err(NOTBIT);
        }
        let mut stored = p.clone();
        add(&mut stored, single(v), u64::MAX, self.k);
        self.place(i, stored)?;
        self.see(&p);
        self.seen.insert(v);
        self.products += products as u64;
        Ok(())
    }

    fn report(&self, verdict: u64, line: u64, index: u64) -> Answer {
        let polynomials = self.store.len() as u64;
        Answer { verdict, line, index, products: self.products, polynomials, terms: self.terms() as u64 }
    }

    /// The answer where this statement, so many lines down, is refused.
    fn refuse(&self, verdict: u64, line: u64, statement: &Statement) -> Answer {
        self.report(verdict, line, if verdict >= TERMS { statement.index() } else { 0 })
    }

    /// The answer behind so many lines, all of which stood.
    fn end(&self, count: u64) -> Answer {
        match (self.phase == Phase::Steps, self.reached) {
            (false, _) => self.report(NOGOAL, count, 0),
            (true, false) => self.report(NOTREACHED, count, 0),
            (true, true) => self.report(0, 0, 0),
        }
    }
}

/// SHORT and LONGTEXT, which leave everything else unread.
fn room_and_length(bytes: usize, most: usize, pool: usize, scratch: usize) -> Option<Answer> {
    let refused = |verdict| Some(Answer { verdict, ..Answer::default() });
    match (pool < LEAST_POOL || scratch < LEAST_SCRATCH, bytes > most) {
        (true, _) => refused(SHORT),
        (false, true) => refused(LONGTEXT),
        (false, false) => None,
    }
}

/// The answer for a text, with so many words of pool and scratch lent.
pub fn check(text: &[u8], pool: usize, scratch: usize) -> Answer {
    if let Some(refused) = room_and_length(text.len(), TEXT_BYTES, pool, scratch) {
        return refused;
    }
    let mut state = State::new(pool);
    let mut count = 0;
    for line in text.split_inclusive(|&b| b == b'\n') {
        count += 1;
        let content = line.strip_suffix(b"\n");
        if content.unwrap_or(line).len() > 8192 {
            return state.report(LONGLINE, count, 0);
        }
        let Some(Ok(statement)) = content.map(statement) else {
            return state.report(FORM, count, 0);
        };
        if let Err(verdict) = written_within_limits(&statement).and_then(|()| state.step(&statement)) {
            return state.refuse(verdict, count, &statement);
        }
    }
    state.end(count)
}

/// The answer of the host call and the check program, which take 65,536 bytes at most.
pub fn check_hosted(text: &[u8]) -> Answer {
    if text.len() > 65_536 {
        return Answer { verdict: LONGTEXT, ..Answer::default() };
    }
    check(text, POOL, SCRATCH)
}
