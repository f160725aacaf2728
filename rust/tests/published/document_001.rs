//! Document 001's examples. Its text has the digit 1 for the letter l in the names of nodes, which is corrected in all of them.

use super::{answer, gives, published};

#[test]
fn example_7_resolution_by_extension() {
    let [constraints, target, proof] = [
        include_str!("../../../examples/published/resolution/constraints"),
        include_str!("../../../examples/published/resolution/target"),
        include_str!("../../../examples/published/resolution/proof"),
    ];
    gives(constraints, target, proof, "0 0 0 33 10 25");
    gives(constraints, target, &proof.replace("y-1,", "y,"), "12 5 4 4 3 8");
    gives(constraints, target, &proof.replace("fz", "z"), "10 4 3 0 2 5");
    gives(constraints, target, &proof.replace("-z+1;", "-z+2;"), "13 4 3 0 2 5");
}

/// The 2-bit multiplier of figure 3, whose polynomials the text of the document has in figure 5.
fn multiplier_gives(k: u64, proof: &str, expected: &str) {
    let constraints = include_str!("../../../examples/published/multiplier/constraints");
    let target = include_str!("../../../examples/published/multiplier/target");
    assert_eq!(answer(&published(k, constraints, target, proof)), expected);
}

#[test]
fn figure_6_the_multiplier_in_lpac() {
    let proof = include_str!("../../../examples/published/multiplier/lpac_proof");
    multiplier_gives(16, proof, "0 0 0 96 23 82");
    // As printed, step 17 ends with +l22*l16, which does not add up: steps 18 and, in figure 4, 20 have +l22+l16.
    let printed = include_str!("../../../examples/published/multiplier/lpac_proof_as_printed");
    assert_eq!(printed, proof.replace("-l22*l16+l22+l16;\n18", "-l22*l16+l22*l16;\n18"));
    multiplier_gives(16, printed, "12 18 17 28 16 51");
}

#[test]
fn figure_4_the_multiplier_in_pac() {
    let proof = include_str!("../../../examples/published/multiplier/pac_proof");
    for k in [4, 16, 64] {
        multiplier_gives(k, proof, "0 0 0 176 43 162");
    }
    // As printed, step 33 begins with -2*s1, which does not add up: twice step 18 has -2*l20, and step 34 needs it.
    let printed = proof.replace("33 * 18, 2, -2*l20", "33 * 18, 2, -2*s1");
    multiplier_gives(16, &printed, "12 34 33 122 32 120");
}

#[test]
fn example_6_lacks_a_sign() {
    gives("1 -b+1-a;\n2 -c+a+b-2a*b;\n", "-c+1;", "4 * 1, -2a, 2a*b;\n", "4 2 0 0 1 3");
    gives("1 -b+1-a;\n2 -c+a+b-2*a*b;\n", "-c+1;", "3 + 1, 2, -c+1-2*a*b;\n4 * 1, -2*a, 2*a*b;\n1 d;\n5 + 3, 4, -c+1;\n", "0 0 0 14 4 10");
}
