//! The gates of a block as polynomials, and what the block promises.

/// A term: a coefficient and the variables it stands with.
pub type Term = (i64, Vec<usize>);

/// The terms of a goal.
const MOST_TERMS: usize = 96;

/// The n by n array multiplier: n rows of partial products, which n - 1 rows of n adder cells add up. Where it accumulates, one more
/// row of so many cells stands behind it, which adds the product to the bits that it held.
#[derive(Clone, Copy, Debug, PartialEq, Eq)]
pub struct Block {
    pub n: usize,
    pub accumulate: Option<usize>,
}

impl Block {
    /// The most bits of an accumulator: its new and old ones and the 16 of a product are the terms of a goal.
    pub const GREATEST_WIDTH: usize = (MOST_TERMS - 16) / 2;

    pub fn multiplier(n: usize) -> Block {
        Block { n, accumulate: None }
    }

    pub fn accumulator(n: usize, width: usize) -> Block {
        Block { n, accumulate: Some(width) }
    }

    /// The greatest k at which the block keeps its promise. An accumulator keeps it modulo 2^width: its last carry is lost.
    pub fn greatest_ring(&self) -> u32 {
        self.accumulate.unwrap_or(64) as u32
    }
}

/// An adder cell: the signals that it adds up, and its weight.
pub struct Cell {
    pub inputs: Vec<usize>,
    pub sum: usize,
    pub carry: usize,
    pub weight: i64,
}

/// Signals are numbered in this order: the bits of a, the bits of b, the partial products, for each cell its sum and its carry; the bits
/// that the accumulator held, and for each of its cells its sum, which is a new bit, and its carry.
/// At n = 8 the multiplier has 16 + 64 + 112 = 192, and an accumulator of 32 bits has 96 more.
pub struct Circuit {
    n: usize,
    width: Option<usize>,
    signals: usize,
    rows: Vec<Vec<Cell>>,
    /// The bits of the product, the lowest first.
    outputs: Vec<usize>,
    /// The bits that the accumulator held.
    old: Vec<usize>,
}

impl Circuit {
    pub fn new(Block { n, accumulate: width }: Block) -> Circuit {
        let mut circuit = Circuit { n, width, signals: 2 * n + n * n, rows: Vec::new(), outputs: Vec::new(), old: Vec::new() };
        circuit.multiply();
        if let Some(width) = width {
            circuit.accumulate(width);
        }
        circuit
    }

    fn multiply(&mut self) {
        let n = self.n;
        self.outputs.push(self.product_of(0, 0));
        let mut above: Vec<Vec<usize>> = (1..n).map(|i| vec![self.product_of(i, 0)]).chain([vec![]]).collect();
        for r in 1..n {
            let added = above.iter().enumerate().map(|(i, signals)| [&signals[..], &[self.product_of(i, r)]].concat()).collect();
            let (sums, carry) = self.add_row(added, r);
            self.outputs.push(sums[0]);
            above = sums[1..].iter().map(|&s| vec![s]).chain([vec![carry]]).collect();
        }
        self.outputs.extend(above.into_iter().flatten());
    }

    fn accumulate(&mut self, width: usize) {
        self.old = (self.signals..self.signals + width).collect();
        self.signals += width;
        let added = self.old.iter().enumerate().map(|(i, &old)| [old].into_iter().chain(self.outputs.get(i).copied()).collect()).collect();
        self.add_row(added, 0);
    }

    /// A row of cells, the lowest of weight 2^r, each with the signals that it adds up beside the carry of the one before it.
    /// Gives their sums and the last carry.
    fn add_row(&mut self, added: Vec<Vec<usize>>, r: usize) -> (Vec<usize>, usize) {
        let first = self.signals;
        let cell = |(i, mut inputs): (usize, Vec<usize>)| {
            let sum = first + 2 * i;
            inputs.extend((i > 0).then_some(sum - 1));
            Cell { inputs, sum, carry: sum + 1, weight: 1 << (r + i) }
        };
        let row: Vec<Cell> = added.into_iter().enumerate().map(cell).collect();
        self.signals += 2 * row.len();
        let sums = row.iter().map(|c| c.sum).collect();
        self.rows.push(row);
        (sums, self.signals - 1)
    }

    /// The signal of a_i and b_j.
    fn product_of(&self, i: usize, j: usize) -> usize {
        2 * self.n + i * self.n + j
    }

    /// The places i, j of the partial products.
    fn places(&self) -> impl Iterator<Item = (usize, usize)> {
        let n = self.n;
        (0..n * n).map(move |p| (p / n, p % n))
    }

    /// The weight of each partial product and its polynomial, -p + ab.
    pub fn products(&self) -> Vec<(i64, Vec<Term>)> {
        self.places().map(|(i, j)| (1 << (i + j), vec![(-1, vec![self.product_of(i, j)]), (1, vec![i, self.n + j])])).collect()
    }

    /// All cells, row by row.
    pub fn rows(&self) -> &[Vec<Cell>] {
        &self.rows
    }

    /// Whether the goal is about a and b. That of a wide accumulator would have too many terms, and is about the product's bits.
    pub fn is_whole(&self) -> bool {
        2 * self.old.len() + self.n * self.n <= MOST_TERMS
    }

    /// How many rows stand before the first that the goal rests on.
    pub fn rows_passed_over(&self) -> usize {
        if self.is_whole() {
            0
        } else {
            self.rows.len() - 1
        }
    }

    /// The product's bits less the product of a and b; the accumulator's new bits less the old ones and that product, or its bits.
    pub fn goal(&self) -> Vec<Term> {
        let weighed = |sign: i64, bits: &[usize]| -> Vec<Term> { bits.iter().enumerate().map(|(i, &z)| (sign << i, vec![z])).collect() };
        let new: Vec<usize> = self.rows.last().into_iter().flatten().map(|c| c.sum).collect();
        let mut goal = weighed(1, if self.width.is_some() { &new } else { &self.outputs });
        goal.extend(weighed(-1, &self.old));
        if self.is_whole() {
            goal.extend(self.places().map(|(i, j)| (-1 << (i + j), vec![i, self.n + j])));
        } else {
            goal.extend(weighed(-1, &self.outputs));
        }
        self.cut(&mut goal);
        goal
    }

    /// Adds q times c to p.
    pub fn add(&self, p: &mut Vec<Term>, q: &[Term], c: i64) {
        for (d, vs) in q {
            match p.iter().position(|t| t.1 == *vs) {
                Some(i) => p[i].0 += c * d,
                None => p.push((c * d, vs.clone())),
            }
        }
        self.cut(p);
    }

    /// Leaves out what is zero, at every k that the block is proved at.
    fn cut(&self, p: &mut Vec<Term>) {
        p.retain(|t| t.0 != 0 && self.width.is_none_or(|width| t.0 % (1 << width) != 0));
    }
}

impl Cell {
    /// All sets of so many inputs, each with a coefficient.
    fn of_size(&self, size: usize, c: i64) -> Vec<Term> {
        let x = &self.inputs;
        match size {
            1 => x.iter().map(|&v| (c, vec![v])).collect(),
            2 => (0..x.len()).flat_map(|i| (i + 1..x.len()).map(move |j| (c, vec![x[i], x[j]]))).collect(),
            _ if x.len() == 3 => vec![(c, x.clone())],
            _ => vec![],
        }
    }

    /// -sum + xor.
    pub fn sum_poly(&self) -> Vec<Term> {
        [vec![(-1, vec![self.sum])], self.of_size(1, 1), self.of_size(2, -2), self.of_size(3, 4)].concat()
    }

    /// -carry + majority.
    pub fn carry_poly(&self) -> Vec<Term> {
        [vec![(-1, vec![self.carry])], self.of_size(2, 1), self.of_size(3, -2)].concat()
    }

    /// The inputs less the sum and twice the carry: what `sum_poly` and twice `carry_poly` add up to.
    pub fn balance(&self) -> Vec<Term> {
        [self.of_size(1, 1), vec![(-1, vec![self.sum]), (-2, vec![self.carry])]].concat()
    }
}

#[cfg(test)]
mod tests {
    use super::*;
    use crate::random::Random;

    #[test]
    fn the_8_by_8_multiplier_has_192_signals_and_an_accumulator_three_more_a_bit() {
        let circuit = Circuit::new(Block::multiplier(8));
        assert_eq!((circuit.signals, circuit.rows.iter().flatten().count(), circuit.outputs.len()), (192, 56, 16));
        for width in [16, 32, Block::GREATEST_WIDTH] {
            assert_eq!(Circuit::new(Block::accumulator(8, width)).signals, 192 + 3 * width);
        }
    }

    fn bits(number: i64, count: usize) -> Vec<i64> {
        (0..count).map(|i| number >> i & 1).collect()
    }

    /// What each signal is, where a and b come in and the accumulator held `old`.
    fn values(circuit: &Circuit, a: i64, b: i64, old: i64) -> Vec<i64> {
        let mut values = [bits(a, circuit.n), bits(b, circuit.n)].concat();
        values.extend(circuit.places().map(|(i, j)| a >> i & b >> j & 1));
        for row in &circuit.rows {
            if row[0].sum > values.len() {
                values.extend(bits(old, circuit.old.len()));
            }
            for cell in row {
                let ones: i64 = cell.inputs.iter().map(|&v| values[v]).sum();
                values.extend([ones & 1, ones >> 1]);
            }
        }
        values
    }

    fn value(p: &[Term], values: &[i64]) -> i64 {
        p.iter().map(|(c, vs)| c * vs.iter().map(|&v| values[v]).product::<i64>()).sum()
    }

    /// The gates' polynomials are zero at what the gates do, and the last row's sums are the number that the block promises.
    #[test]
    fn the_gates_multiply_and_accumulate() {
        let random = &mut Random::new(1);
        for (n, width) in (2..=8).flat_map(|n| [1, n, 2 * n, 2 * n + 1, Block::GREATEST_WIDTH].map(|width| (n, width))) {
            let circuit = Circuit::new(Block::accumulator(n, width));
            let [a, b, old] = [n, n, width].map(|count| (random.word() >> (64 - count)) as i64);
            let values = values(&circuit, a, b, old);
            assert_eq!(values.len(), circuit.signals);
            for cell in circuit.rows.iter().flatten() {
                assert_eq!([cell.sum_poly(), cell.carry_poly()].map(|p| value(&p, &values)), [0, 0]);
            }
            assert!(circuit.products().iter().all(|(_, p)| value(p, &values) == 0));
            let new: i64 = circuit.rows.last().unwrap().iter().map(|c| values[c.sum] * c.weight).sum();
            assert_eq!(new, (old + a * b) % (1 << width), "{n} {width}");
            assert_eq!(value(&circuit.goal(), &values) % (1 << width), 0, "{n} {width}");
        }
    }
}
