//! Published LPAC, each rule with a small text: the independent checker's answer is written beside it, and the host call agrees with it.

mod document_001;
mod maker;
mod names;
mod reading;
mod whole;

use lofashunge::host;
use lofashunge::independent::{check_published, TEXT_BYTES};
use lofashunge::published::Published;
use lofashunge::width::{POOL, SCRATCH};

fn published(k: u64, constraints: &str, target: &str, proof: &str) -> Published {
    Published { k, constraints: constraints.into(), target: target.into(), proof: proof.into() }
}

/// The six numbers, parted by spaces. Of texts that the host call takes, it gives the first two.
fn answer(p: &Published) -> String {
    let answer = check_published(p, TEXT_BYTES, POOL, SCRATCH);
    if p.bytes() <= host::TEXT_BYTES {
        let said = host::check_published(p.k, &p.constraints, &p.target, &p.proof);
        assert_eq!((said.number, said.line), (answer.verdict, answer.line), "{p:?}");
    }
    answer.to_string().replace('\t', " ")
}

/// At k = 8 the three texts have this answer.
fn gives(constraints: &str, target: &str, proof: &str, expected: &str) {
    let p = published(8, constraints, target, proof);
    let beginning = |text: &str| text.chars().take(60).collect::<String>();
    assert_eq!(answer(&p), expected, "{} | {} | {}", beginning(constraints), beginning(target), beginning(proof));
}

const CONSTRAINTS: &str = "1 x-y; 2 y;";

/// So does a proof of x from x - y and y, whose statements have the places from 4 upward. Nothing but the constraints stands
/// before it: no products, 2 polynomials, 3 terms.
fn proof_gives(proof: &str, expected: &str) {
    gives(CONSTRAINTS, "x;", proof, expected);
}

fn each_proof_gives(proofs: &[&str], expected: &str) {
    proofs.iter().for_each(|proof| proof_gives(proof, expected));
}

/// What a proof of x in one step gives: 1 * 2 + 1 * 1 products, and a third polynomial of one term.
const PROVED: &str = "0 0 0 3 3 4";
