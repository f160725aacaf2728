//! Statements as written, how they are read, and which of their numbers are in range.

use crate::width::VARIABLES;

/// A decimal as written: `None` where it does not fit 64 bits, which no range allows.
pub type Decimal = Option<u64>;

pub struct WrittenTerm {
    pub negative: bool,
    pub magnitude: Decimal,
    pub variables: Vec<Decimal>,
}

pub type Written = Vec<WrittenTerm>;

pub enum Statement {
    Ring(Decimal),
    In(Decimal, Written),
    Goal(Written),
    Lin(Decimal, Written, Vec<(Decimal, Written)>),
    Del(Decimal),
    Ext(Decimal, Decimal, Written),
}

// ---- reading: fields are cut at tabs, terms at spaces, variables at dots

fn decimal(s: &[u8]) -> Result<Decimal, ()> {
    if s.is_empty() || !s.iter().all(u8::is_ascii_digit) || (s.len() > 1 && s[0] == b'0') {
        return Err(());
    }
    Ok(std::str::from_utf8(s).unwrap().parse().ok())
}

fn term(s: &[u8]) -> Result<WrittenTerm, ()> {
    let (negative, rest) = match s.strip_prefix(b"-") {
        Some(rest) => (true, rest),
        None => (false, s),
    };
    let mut numbers = rest.split(|&b| b == b'.').map(decimal);
    let magnitude = numbers.next().unwrap()?;
    let variables = numbers.collect::<Result<_, _>>()?;
    Ok(WrittenTerm { negative, magnitude, variables })
}

fn polynomial(s: &[u8]) -> Result<Written, ()> {
    if s == b"0" {
        return Ok(Vec::new());
    }
    s.split(|&b| b == b' ').map(term).collect()
}

pub fn statement(line: &[u8]) -> Result<Statement, ()> {
    let f: Vec<&[u8]> = line.split(|&b| b == b'\t').collect();
    Ok(match (f[0], f.len()) {
        (b"ring", 2) => Statement::Ring(decimal(f[1])?),
        (b"in", 3) => Statement::In(decimal(f[1])?, polynomial(f[2])?),
        (b"goal", 2) => Statement::Goal(polynomial(f[1])?),
        (b"lin", n) if n >= 5 && n % 2 == 1 => {
            let pairs = f[3..].chunks(2).map(|q| Ok((decimal(q[0])?, polynomial(q[1])?)));
            Statement::Lin(decimal(f[1])?, polynomial(f[2])?, pairs.collect::<Result<_, ()>>()?)
        }
        (b"del", 2) => Statement::Del(decimal(f[1])?),
        (b"ext", 4) => Statement::Ext(decimal(f[1])?, decimal(f[2])?, polynomial(f[3])?),
        _ => return Err(()),
    })
}

// ---- ranges

fn within(low: u64, high: u64, d: Decimal) -> bool {
    d.is_some_and(|n| low <= n && n <= high)
}

fn is_index(d: Decimal) -> bool {
    within(1, u32::MAX as u64, d)
}

fn is_variable(d: Decimal) -> bool {
    within(0, VARIABLES as u64 - 1, d)
}

fn in_range(p: &Written) -> bool {
    p.iter().all(|t| within(1, u64::MAX, t.magnitude) && t.variables.iter().all(|&v| is_variable(v)))
}

impl Statement {
    /// The polynomials that it writes.
    pub fn fields(&self) -> Vec<&Written> {
        match self {
            Statement::In(_, p) | Statement::Goal(p) | Statement::Ext(_, _, p) => vec![p],
            Statement::Lin(_, p, pairs) => std::iter::once(p).chain(pairs.iter().map(|q| &q.1)).collect(),
            Statement::Ring(_) | Statement::Del(_) => vec![],
        }
    }

    pub fn numbers_in_range(&self) -> bool {
        let own = match self {
            Statement::Ring(k) => within(1, 64, *k),
            Statement::In(i, _) | Statement::Del(i) => is_index(*i),
            Statement::Goal(_) => true,
            Statement::Lin(i, _, pairs) => is_index(*i) && pairs.iter().all(|q| is_index(q.0)),
            Statement::Ext(i, v, _) => is_index(*i) && is_variable(*v),
        };
        own && self.fields().into_iter().all(in_range)
    }

    /// The index of an in, lin, ext or del line, else 0.
    pub fn index(&self) -> u64 {
        match self {
            Statement::In(i, _) | Statement::Lin(i, _, _) | Statement::Del(i) | Statement::Ext(i, _, _) => i.unwrap_or(0),
            Statement::Ring(_) | Statement::Goal(_) => 0,
        }
    }
}
