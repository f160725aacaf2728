//! Document 001's grammar: the tokens of one statement, and what they say.

use super::statement::{Decimal, Statement, Written, WrittenTerm};

/// The text that a statement stands in.
#[derive(Clone, Copy, PartialEq)]
pub(super) enum Part {
    Constraints,
    Target,
    Proof,
}

// ---- tokens

pub(super) fn is_white(b: &u8) -> bool {
    matches!(b, 9 | 10 | 13 | 32)
}

#[derive(Clone, Copy)]
enum Token<'t> {
    Constant(Decimal),
    Name(&'t [u8]),
    Sign(u8),
}

/// All tokens of a statement, each as long as it can be; none where a byte belongs to no token.
fn tokens(statement: &[u8]) -> Option<Vec<Token<'_>>> {
    let mut tokens = Vec::new();
    let mut rest = statement;
    while let Some(first) = rest.first() {
        let run = |belongs: fn(&u8) -> bool| rest.iter().position(|b| !belongs(b)).unwrap_or(rest.len());
        let taken = match first {
            b if is_white(b) => 1,
            b'0'..=b'9' => {
                let digits = run(u8::is_ascii_digit);
                tokens.push(Token::Constant(std::str::from_utf8(&rest[..digits]).unwrap().parse().ok()));
                digits
            }
            b'a'..=b'z' | b'A'..=b'Z' => {
                let name = run(u8::is_ascii_alphanumeric);
                tokens.push(Token::Name(&rest[..name]));
                name
            }
            b'+' | b'-' | b'*' | b'(' | b')' | b'%' | b',' | b'=' => {
                tokens.push(Token::Sign(*first));
                1
            }
            _ => return None,
        };
        rest = &rest[taken..];
    }
    Some(tokens)
}

// ---- the grammar: each reader takes its tokens from the front, or finds that they are not there

struct Reader<'t, 'n> {
    tokens: &'n [Token<'t>],
    /// Gives a name its number.
    number: &'n mut dyn FnMut(&'t [u8]) -> u64,
}

/// The factor that stands where none is written.
fn one() -> Written {
    vec![WrittenTerm { negative: false, magnitude: Some(1), variables: vec![] }]
}

impl<'t> Reader<'t, '_> {
    fn next(&mut self) -> Option<Token<'t>> {
        let (first, rest) = self.tokens.split_first()?;
        self.tokens = rest;
        Some(*first)
    }

    /// Takes this sign if it comes next.
    fn takes(&mut self, sign: u8) -> bool {
        let comes = matches!(self.tokens.first(), Some(Token::Sign(s)) if *s == sign);
        if comes {
            self.tokens = &self.tokens[1..];
        }
        comes
    }

    fn sign(&mut self, sign: u8) -> Option<()> {
        self.takes(sign).then_some(())
    }

    fn constant(&mut self) -> Option<Decimal> {
        match self.next()? {
            Token::Constant(c) => Some(c),
            _ => None,
        }
    }

    fn variable(&mut self) -> Option<Decimal> {
        match self.next()? {
            Token::Name(name) => Some(Some((self.number)(name))),
            _ => None,
        }
    }

    fn monomial(&mut self, negative: bool) -> Option<WrittenTerm> {
        let written = matches!(self.tokens.first(), Some(Token::Constant(_)));
        let magnitude = if written { self.constant()? } else { Some(1) };
        let mut variables = Vec::new();
        if !written {
            variables.push(self.variable()?);
        }
        while self.takes(b'*') {
            variables.push(self.variable()?);
        }
        Some(WrittenTerm { negative, magnitude, variables })
    }

    /// Its terms; a lone constant 0 without a sign is the zero field, which has none.
    fn poly(&mut self) -> Option<Written> {
        let negative = self.takes(b'-');
        let mut terms = vec![self.monomial(negative)?];
        loop {
            let negative = self.takes(b'-');
            if !negative && !self.takes(b'+') {
                break;
            }
            terms.push(self.monomial(negative)?);
        }
        let zero = |t: &WrittenTerm| !t.negative && t.magnitude == Some(0) && t.variables.is_empty();
        Some(if terms.len() == 1 && zero(&terms[0]) { vec![] } else { terms })
    }

    /// An id and its factor.
    fn pair(&mut self) -> Option<(Decimal, Written)> {
        let id = self.constant()?;
        if !self.takes(b'*') {
            return Some((id, one()));
        }
        self.sign(b'(')?;
        let factor = self.poly()?;
        self.sign(b')')?;
        Some((id, factor))
    }

    fn linear_combination(&mut self, id: Decimal) -> Option<Statement> {
        let mut pairs = vec![self.pair()?];
        while self.takes(b'+') {
            pairs.push(self.pair()?);
        }
        self.sign(b',')?;
        Some(Statement::Lin(id, self.poly()?, pairs))
    }

    fn addition(&mut self, id: Decimal) -> Option<Statement> {
        let first = self.constant()?;
        self.sign(b',')?;
        let second = self.constant()?;
        self.sign(b',')?;
        Some(Statement::Lin(id, self.poly()?, vec![(first, one()), (second, one())]))
    }

    fn multiplication(&mut self, id: Decimal) -> Option<Statement> {
        let source = self.constant()?;
        self.sign(b',')?;
        let factor = self.poly()?;
        self.sign(b',')?;
        Some(Statement::Lin(id, self.poly()?, vec![(source, factor)]))
    }

    fn extension(&mut self, id: Decimal) -> Option<Statement> {
        let variable = self.variable()?;
        self.sign(b',')?;
        Some(Statement::Ext(id, variable, self.poly()?))
    }

    fn step(&mut self) -> Option<Statement> {
        let id = self.constant()?;
        match self.next()? {
            Token::Name(b"d") => Some(Statement::Del(id)),
            Token::Sign(b'%') => self.linear_combination(id),
            Token::Sign(b'+') => self.addition(id),
            Token::Sign(b'*') => self.multiplication(id),
            Token::Sign(b'=') => self.extension(id),
            _ => None,
        }
    }

    /// The statement that all tokens make.
    fn whole(mut self, part: Part) -> Option<Statement> {
        let statement = match part {
            Part::Constraints => Statement::In(self.constant()?, self.poly()?),
            Part::Target => Statement::Goal(self.poly()?),
            Part::Proof => self.step()?,
        };
        self.tokens.is_empty().then_some(statement)
    }
}

/// What the bytes of a statement of this text say, if they have its form. Names are given to `number` in the order of the bytes.
pub(super) fn published_statement<'t>(part: Part, bytes: &'t [u8], number: &mut dyn FnMut(&'t [u8]) -> u64) -> Option<Statement> {
    Reader { tokens: &tokens(bytes)?, number }.whole(part)
}
