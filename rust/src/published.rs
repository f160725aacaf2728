//! Proofs as document 001 publishes them: constraints, target and proof in a text each, with k beside them; and our lines turned
//! into such texts.

use crate::random::Random;
use crate::width::VARIABLES;

/// The three texts, and k.
#[derive(Clone, Debug, PartialEq, Eq)]
pub struct Published {
    pub k: u64,
    pub constraints: Vec<u8>,
    pub target: Vec<u8>,
    pub proof: Vec<u8>,
}

impl Published {
    /// The bytes of the three texts together.
    pub fn bytes(&self) -> usize {
        self.constraints.len() + self.target.len() + self.proof.len()
    }

    pub fn texts(&mut self) -> [&mut Vec<u8>; 3] {
        [&mut self.constraints, &mut self.target, &mut self.proof]
    }
}

/// A statement without its `;`: its tokens, in the pieces that a plain layout parts by a space.
pub type Statement = Vec<Vec<String>>;

/// The statements of the three texts, which are still to be laid out, and k.
#[derive(Default)]
pub struct Draft {
    pub k: u64,
    pub constraints: Vec<Statement>,
    pub target: Vec<Statement>,
    pub proof: Vec<Statement>,
}

impl Draft {
    pub fn texts(&mut self) -> [&mut Vec<Statement>; 3] {
        [&mut self.constraints, &mut self.target, &mut self.proof]
    }

    /// The three texts, each laid out from its statements.
    pub fn laid_out(&self, mut layout: impl FnMut(&[Statement]) -> Vec<u8>) -> Published {
        Published { k: self.k, constraints: layout(&self.constraints), target: layout(&self.target), proof: layout(&self.proof) }
    }
}

/// Turns the lines of a text into statements.
pub struct Publisher<'r> {
    /// The name of each variable.
    pub names: Vec<String>,
    /// Takes one of the other ways that the grammar has to say the same; without it, each has the plain way.
    pub random: Option<&'r mut Random>,
}

/// The names that are their numbers.
pub fn plain_names() -> Vec<String> {
    (0..VARIABLES).map(|v| format!("x{v}")).collect()
}

fn words(tokens: &[&str]) -> Vec<String> {
    tokens.iter().map(|t| t.to_string()).collect()
}

impl Publisher<'_> {
    /// Whether the other way is taken, which it is once in n times.
    fn otherwise(&mut self, n: usize) -> bool {
        self.random.as_mut().is_some_and(|random| random.once_in(n))
    }

    fn constant(&mut self, digits: &str) -> String {
        if self.otherwise(20) {
            format!("00{digits}")
        } else {
            digits.to_string()
        }
    }

    /// A number that no variable has stays one that no plain name has.
    fn name(&self, variable: &str) -> String {
        let place = variable.parse::<usize>().ok();
        place.and_then(|v| self.names.get(v).cloned()).unwrap_or_else(|| format!("x{variable}"))
    }

    /// A term without its sign: `12.0.5` is `12*x0*x5`.
    fn monomial(&mut self, term: &str) -> Vec<String> {
        let (magnitude, variables) = term.split_once('.').unwrap_or((term, ""));
        let mut factors = Vec::new();
        if magnitude != "1" || variables.is_empty() || self.otherwise(3) {
            factors.push(self.constant(magnitude));
        }
        factors.extend(variables.split('.').filter(|v| !v.is_empty()).map(|v| self.name(v)));
        let mut tokens = vec![factors.remove(0)];
        tokens.extend(factors.into_iter().flat_map(|f| ["*".to_string(), f]));
        tokens
    }

    fn poly(&mut self, field: &str) -> Vec<String> {
        let mut tokens = Vec::new();
        for (place, term) in field.split(' ').enumerate() {
            match term.strip_prefix('-') {
                Some(_) => tokens.push("-".to_string()),
                None if place > 0 => tokens.push("+".to_string()),
                None => {}
            }
            tokens.extend(self.monomial(term.trim_start_matches('-')));
        }
        tokens
    }

    /// An index and its factor, which may be left out if it is 1.
    fn pair(&mut self, index: &str, factor: &str) -> Vec<String> {
        let mut tokens = vec![self.constant(index)];
        if factor != "1" || self.otherwise(3) {
            tokens.extend(words(&["*", "("]));
            tokens.extend(self.poly(factor));
            tokens.push(")".to_string());
        }
        tokens
    }

    /// A linear combination without its own index; an addition or a multiplication where it is one, if the other way is taken.
    fn lin(&mut self, stated: &str, pairs: &[&str]) -> Statement {
        let other = self.otherwise(2);
        let mut pieces = match *pairs {
            [i, "1", j, "1"] if other => vec![words(&["+"]), words(&[i, ","]), words(&[j])],
            [i, factor] if other => vec![words(&["*"]), words(&[i, ","]), self.poly(factor)],
            _ => {
                let mut pieces = Vec::new();
                for (place, pair) in pairs.chunks(2).enumerate() {
                    pieces.push(words(&[if place == 0 { "%" } else { "+" }]));
                    pieces.push(self.pair(pair[0], pair[1]));
                }
                pieces
            }
        };
        pieces.last_mut().unwrap().push(",".to_string());
        pieces.push(self.poly(stated));
        pieces
    }

    /// Adds the statement that a line stands for to its text.
    fn publish(&mut self, line: &str, draft: &mut Draft) {
        let fields: Vec<&str> = line.split('\t').collect();
        if let ["ring", k] = fields[..] {
            draft.k = k.parse().unwrap_or(u64::MAX);
            return;
        }
        if let ["goal", p] = fields[..] {
            return draft.target.push(vec![self.poly(p)]);
        }
        let mut statement = vec![vec![self.constant(fields[1])]];
        match &fields[..] {
            ["in", _, p] => statement.push(self.poly(p)),
            ["lin", _, stated, pairs @ ..] => statement.extend(self.lin(stated, pairs)),
            ["del", _] => statement.push(words(&["d"])),
            ["ext", _, v, p] => {
                statement.extend([words(&["="]), words(&[&self.name(v), ","]), self.poly(p)]);
            }
            _ => panic!("a line of the known shapes: {line}"),
        }
        if fields[0] == "in" { &mut draft.constraints } else { &mut draft.proof }.push(statement);
    }

    /// The statements that lines of good form stand for.
    pub fn draft(&mut self, lines: &[String]) -> Draft {
        let mut draft = Draft::default();
        for line in lines {
            self.publish(line, &mut draft);
        }
        draft
    }
}

/// A statement a line, its pieces parted by a space.
pub fn plain(statements: &[Statement]) -> Vec<u8> {
    let line = |s: &Statement| s.iter().map(|piece| piece.concat()).collect::<Vec<_>>().join(" ") + ";\n";
    statements.iter().map(line).collect::<String>().into_bytes()
}

/// The published form of lines of good form, in plain names and a plain layout.
pub fn of_lines(lines: &[String]) -> Published {
    Publisher { names: plain_names(), random: None }.draft(lines).laid_out(plain)
}
