//! Proof texts for multipliers, alone or with an accumulator behind them.

mod circuit;

use crate::published::{of_lines, Published};
use circuit::{Cell, Circuit, Term};

pub use circuit::Block;

/// How fine the steps are.
#[derive(Clone, Copy, Debug, PartialEq, Eq)]
pub enum Style {
    /// One lin for everything.
    OneLin,
    /// A lin a cell and a lin a row, with dels.
    Cells,
    /// Every sum a lin of its own, with dels.
    Fine,
}

pub const STYLES: [Style; 3] = [Style::OneLin, Style::Cells, Style::Fine];

fn field(p: &[Term]) -> String {
    let term = |(c, vs): &Term| vs.iter().fold(c.to_string(), |s, v| s + "." + &v.to_string());
    if p.is_empty() {
        "0".to_string()
    } else {
        p.iter().map(term).collect::<Vec<_>>().join(" ")
    }
}

/// Lines of a text and the next index.
struct Lines {
    text: String,
    next: usize,
}

impl Lines {
    fn push(&mut self, keyword: &str, fields: &[String]) {
        self.text += &format!("{keyword}\t{}\n", fields.join("\t"));
    }

    fn input(&mut self, p: &[Term]) -> usize {
        self.next += 1;
        self.push("in", &[(self.next - 1).to_string(), field(p)]);
        self.next - 1
    }

    fn lin(&mut self, stated: &[Term], pairs: &[(usize, i64)]) -> usize {
        self.next += 1;
        let mut fields = vec![(self.next - 1).to_string(), field(stated)];
        fields.extend(pairs.iter().flat_map(|(i, c)| [i.to_string(), c.to_string()]));
        self.push("lin", &fields);
        self.next - 1
    }

    fn del(&mut self, i: usize) {
        self.push("del", &[i.to_string()]);
    }
}

/// A row of cells, and the indices of the two gates of each.
type Row<'c> = (&'c [Cell], Vec<(usize, usize)>);

/// The text that proves the block modulo 2^k, for n from 2 to 8 and k up to its greatest ring.
pub fn text(block: Block, k: u32, style: Style) -> Vec<u8> {
    let circuit = Circuit::new(block);
    let mut lines = Lines { text: format!("ring\t{k}\n"), next: 1 };
    let products: Vec<(usize, i64)> = circuit.products().iter().map(|(w, p)| (lines.input(p), -w)).collect();
    let mut gates = |c: &Cell| (lines.input(&c.sum_poly()), lines.input(&c.carry_poly()));
    let mut rows: Vec<Row> = circuit.rows().iter().map(|row| (&row[..], row.iter().map(&mut gates).collect())).collect();
    rows.drain(..circuit.rows_passed_over());
    let goal = circuit.goal();
    lines.push("goal", &[field(&goal)]);
    let mut pairs = if circuit.is_whole() { products } else { vec![] };
    match style {
        Style::OneLin => pairs.extend(cells(&rows).flat_map(|(c, (s, d))| [(*s, -c.weight), (*d, -2 * c.weight)])),
        Style::Cells => pairs.extend(rows.iter().map(|row| row_sum(&circuit, row, &mut lines))),
        Style::Fine => pairs.push((total(&circuit, &rows, &mut lines), -1)),
    }
    lines.lin(&goal, &pairs);
    lines.text.into_bytes()
}

/// The same proof as three published texts, in plain names.
pub fn published(block: Block, k: u32, style: Style) -> Published {
    let text = String::from_utf8(text(block, k, style)).expect("lines are ASCII");
    of_lines(&text.lines().map(String::from).collect::<Vec<_>>())
}

/// The cells of these rows, each with its gates.
fn cells<'r>(rows: &'r [Row]) -> impl Iterator<Item = (&'r Cell, &'r (usize, usize))> {
    rows.iter().flat_map(|(cells, gates)| cells.iter().zip(gates))
}

/// Derives the balance of a cell from its two gates, which are deleted, and gives its index.
fn balance(cell: &Cell, gates: &(usize, usize), lines: &mut Lines) -> usize {
    let i = lines.lin(&cell.balance(), &[(gates.0, 1), (gates.1, 2)]);
    lines.del(gates.0);
    lines.del(gates.1);
    i
}

/// Derives the sum of a row's weighted balances, and gives its index with its factor in the last lin.
fn row_sum(circuit: &Circuit, (cells, gates): &Row, lines: &mut Lines) -> (usize, i64) {
    let first = cells[0].weight;
    let parts: Vec<(usize, i64)> = cells.iter().zip(gates).map(|(c, g)| (balance(c, g, lines), c.weight / first)).collect();
    let mut stated = Vec::new();
    for c in *cells {
        circuit.add(&mut stated, &c.balance(), c.weight / first);
    }
    let sum = lines.lin(&stated, &parts);
    for (i, _) in parts {
        lines.del(i);
    }
    (sum, -first)
}

/// Adds the weighted balances of all cells one by one, and gives the index of their sum.
fn total(circuit: &Circuit, rows: &[Row], lines: &mut Lines) -> usize {
    let mut stated = Vec::new();
    let mut sum = None;
    for (cell, gates) in cells(rows) {
        let i = balance(cell, gates, lines);
        circuit.add(&mut stated, &cell.balance(), cell.weight);
        let pairs: Vec<(usize, i64)> = sum.iter().map(|&s| (s, 1)).chain([(i, cell.weight)]).collect();
        let next = lines.lin(&stated, &pairs);
        lines.del(i);
        if let Some(s) = sum {
            lines.del(s);
        }
        sum = Some(next);
    }
    sum.unwrap()
}

#[cfg(test)]
mod tests {
    use super::*;
    use crate::independent::{check_hosted, check_published, MISMATCH};
    use crate::width::{POOL, SCRATCH};

    /// Multipliers, and accumulators of fewer bits than the product has, of as many, and of more.
    fn blocks() -> Vec<Block> {
        let widths = |n: usize| [1, 2, n, 2 * n - 1, 2 * n, 2 * n + 1, 16, 17, 32, Block::GREATEST_WIDTH];
        let accumulators = (2..=8).flat_map(|n| widths(n).map(|width| Block::accumulator(n, width)));
        (2..=8).map(Block::multiplier).chain(accumulators).collect()
    }

    #[test]
    fn every_size_and_style_is_accepted_at_every_ring_of_a_multiplier() {
        for (n, k) in (2..=8).flat_map(|n| (1..=64).map(move |k| (n, k))) {
            for style in STYLES {
                assert_eq!(check_hosted(&text(Block::multiplier(n), k, style)).verdict, 0, "{n} {k} {style:?}");
            }
        }
    }

    #[test]
    fn lines_and_published_texts_are_accepted_with_one_answer() {
        for block in blocks() {
            for (k, style) in [1, 8, 16, 64].iter().flat_map(|&k| STYLES.map(|style| (block.greatest_ring().min(k), style))) {
                let answer = check_hosted(&text(block, k, style));
                assert_eq!(answer.verdict, 0, "{block:?} {k} {style:?}");
                assert_eq!(check_published(&published(block, k, style), 65_536, POOL, SCRATCH), answer, "{block:?} {k} {style:?}");
            }
        }
    }

    /// The bit that is lost counts one ring above the greatest.
    #[test]
    fn an_accumulator_is_refused_above_its_greatest_ring() {
        for (width, style) in [1, 15, 16, 17, 32, Block::GREATEST_WIDTH].iter().flat_map(|&width| STYLES.map(|style| (width, style))) {
            let answer = check_hosted(&text(Block::accumulator(8, width), width as u32 + 1, style));
            assert_eq!(answer.verdict, MISMATCH, "{width} {style:?}");
        }
    }

    #[test]
    fn the_published_texts_are_plain() {
        let Published { k, constraints, target, proof } = published(Block::multiplier(2), 16, Style::Cells);
        assert_eq!(k, 16);
        assert!(constraints.starts_with(b"1 -x4+x0*x2;\n2 -x5+x0*x3;\n"));
        assert_eq!(target, b"x4+2*x8+4*x10+8*x11-x0*x2-2*x0*x3-2*x1*x2-4*x1*x3;\n");
        assert!(proof.starts_with(b"9 % 5 + 6*(2), x6+x5-x8-2*x9;\n5 d;\n6 d;\n"), "{}", proof.escape_ascii());
    }

    #[test]
    fn a_wrong_gate_is_refused_at_the_step_that_uses_it() {
        for (style, block) in STYLES.iter().flat_map(|&style| [Block::multiplier(4), Block::accumulator(4, 8)].map(|block| (style, block)))
        {
            let good = String::from_utf8(text(block, 8, style)).unwrap();
            let line = good.lines().position(|l| l.starts_with("in\t17\t")).unwrap();
            let mut lines: Vec<String> = good.lines().map(String::from).collect();
            lines[line] += " 1";
            let user = lines.iter().position(|l| l.starts_with("lin") && l.split('\t').skip(3).step_by(2).any(|i| i == "17")).unwrap();
            let a = check_hosted((lines.join("\n") + "\n").as_bytes());
            assert_eq!((a.verdict, a.line), (MISMATCH, user as u64 + 1), "{block:?} {style:?}");
        }
    }
}
