//! The command on published proofs: what it says of the examples, where a refused statement stands, and bad arguments.

mod common;

use common::{at_root, c_example, fails, run, run_lpac, PublishedFiles};
use lofashunge::host;
use lofashunge::multiplier::{self, Block, Style, STYLES};
use lofashunge::published::Published;
use std::process::{Command, Output};

const MULTIPLIER: [&str; 2] = ["examples/published/multiplier/constraints", "examples/published/multiplier/target"];
const RESOLUTION: [&str; 2] = ["examples/published/resolution/constraints", "examples/published/resolution/target"];

fn check(ring: &str, [constraints, target]: [&str; 2], proof: &str) -> Output {
    run_lpac(&["check", "--ring", ring, constraints, target, proof], b"")
}

/// The one line that was said, with its status.
fn says(said: Output, status: i32, words: &str) {
    assert_eq!(String::from_utf8(said.stdout).unwrap(), format!("{words}\n"));
    assert_eq!((said.status.code(), said.stderr.escape_ascii().to_string()), (Some(status), String::new()));
}

// ---- examples

#[test]
fn the_examples_of_document_001_are_accepted() {
    for (two, proof) in [(MULTIPLIER, "multiplier/lpac_proof"), (MULTIPLIER, "multiplier/pac_proof"), (RESOLUTION, "resolution/proof")] {
        let proof = format!("examples/published/{proof}");
        for ring in ["4", "16", "64"] {
            says(check(ring, two, &proof), 0, &format!("{proof}: accepted"));
        }
    }
}

#[test]
fn a_refused_step_is_shown_with_its_place_and_the_rule() {
    let proof = "examples/published/multiplier/lpac_proof_as_printed";
    let step = "17 % 9*(l24-1) + 10, -l28+l24*l22*l16-l24*l22-l24*l16-l22*l16+l22*l16;";
    let why = "refused, MISMATCH (12): the stated polynomial of a linear combination is not the sum";
    says(check("4", MULTIPLIER, proof), 1, &format!("{proof}:3:1: {why}: {step}"));
}

#[test]
fn the_readme_shows_what_the_command_says() {
    let readme = std::fs::read_to_string(at_root("README.md")).unwrap();
    let folders = [("$ ./lpac ", ""), ("$ ../../../lpac ", "examples/published/multiplier")];
    let mut shown = 0;
    for (line, below) in readme.lines().zip(readme.lines().skip(1)) {
        for (arguments, folder) in folders.iter().filter_map(|(prompt, folder)| Some((line.strip_prefix(prompt)?, folder))) {
            let said = run(Command::new(env!("CARGO_BIN_EXE_lpac")).current_dir(at_root(folder)).args(arguments.split(' ')), b"");
            assert_eq!(String::from_utf8(said.stdout).unwrap(), format!("{below}\n"));
            shown += 1;
        }
    }
    assert_eq!(shown, 5);
}

#[test]
fn what_the_maker_makes_is_accepted_in_each_style() {
    let blocks = [(Block::multiplier(8), 16), (Block::accumulator(8, 16), 16), (Block::accumulator(8, 32), 32)];
    for (place, style) in STYLES.into_iter().enumerate() {
        for (block, k) in blocks {
            let files = PublishedFiles::new(&format!("eight_{place}"), &multiplier::published(block, k, style));
            let [constraints, target, proof] = files.paths().map(|path| path.to_str().unwrap().to_string());
            says(check(&k.to_string(), [&constraints, &target], &proof), 0, &format!("{proof}: accepted"));
            files.remove();
        }
    }
}

#[test]
fn the_accumulators_are_those_that_the_maker_makes_and_are_accepted() {
    for width in [16, 32] {
        let texts = multiplier::published(Block::accumulator(8, width), width as u32, Style::Cells);
        let [constraints, target, proof] =
            ["constraints", "target", "proof"].map(|name| format!("examples/published/accumulator-{width}/{name}"));
        let shipped = [&constraints, &target, &proof].map(|path| std::fs::read(at_root(path)).unwrap());
        assert_eq!(shipped, [texts.constraints, texts.target, texts.proof]);
        says(check(&width.to_string(), [&constraints, &target], &proof), 0, &format!("{proof}: accepted"));
    }
}

#[test]
fn the_c_example_checks_them_too() {
    let program = c_example();
    for (proof, numbers) in [("lpac_proof", "0\t0\n"), ("pac_proof", "0\t0\n"), ("lpac_proof_as_printed", "12\t18\n")] {
        let proof = format!("examples/published/multiplier/{proof}");
        let said = run(Command::new(&program).current_dir(at_root("")).arg("4").args(MULTIPLIER).arg(proof), b"");
        assert_eq!((said.stdout, said.status.code()), (numbers.into(), Some((numbers != "0\t0\n") as i32)));
    }
}

// ---- places and words

/// At k = 8 the command says this of three texts, with C, T and P for their files.
fn of_texts(folder: &str, [constraints, target, proof]: [&str; 3], words: &str) {
    let texts = Published { k: 8, constraints: constraints.into(), target: target.into(), proof: proof.into() };
    let files = PublishedFiles::new(folder, &texts);
    let [c, t, p] = files.paths().map(|path| path.to_str().unwrap().to_string());
    let said = check("8", [&c, &t], &p);
    let shown = String::from_utf8(said.stdout).unwrap().replace(&c, "C").replace(&t, "T").replace(&p, "P");
    assert_eq!(shown, format!("{words}\n"));
    assert_eq!(said.status.code(), Some((words != "P: accepted") as i32));
    files.remove();
}

#[test]
fn a_place_is_the_line_and_column_of_a_statements_first_byte() {
    let refused = |words: &str, [c, t, p]: [&str; 3]| of_texts("places", [c, t, p], words);
    let missing = "refused, MISSING (9): an index is not stored";
    refused("P: accepted", ["1 x;", "x;", ""]);
    refused(&format!("P:1:1: {missing}: 7 d;"), ["1 x;", "x;", "7 d;"]);
    refused(&format!("P:1:6: {missing}: 7 d;"), ["1 x;", "x;", "1 d; 7 d;"]);
    refused(&format!("P:3:4: {missing}: 7\\r\\n\\td;"), ["1 x;\n2 y;\n", " x\n;\n", "1 d;\r\n\r\n \t 7\r\n\td;"]);
    refused("C:2:3: refused, TAKEN (8): the new index is stored already: 1 y;", ["1 x;\n  1 y;", "x;", ""]);
    refused("T:2:1: refused, NUMBER (5): a well-formed number is out of its range: 0*y;", ["1 x;", "\n0*y;", ""]);
}

#[test]
fn a_statement_of_bad_form_is_told_the_forms_of_its_text() {
    let constraint = "refused, FORM (4): a constraint is `ID POLY;`:";
    let target = "refused, FORM (4): the target is one `POLY;`:";
    let step = "refused, FORM (4): a step is `ID % ID*(POLY) + ID, POLY;`, `ID d;`, `ID = NAME, POLY;`, \
                `ID + ID, ID, POLY;` or `ID * ID, POLY, POLY;`:";
    of_texts("form", ["1 x; ;", "x;", ""], &format!("C:1:6: {constraint} ;"));
    of_texts("form", ["1 2x;", "x;", ""], &format!("C:1:1: {constraint} 1 2x;"));
    of_texts("form", ["1 x;", "x; y;", ""], &format!("T:1:4: {target} y;"));
    of_texts("form", ["1 x;", "x", ""], &format!("T:1:1: {target} x"));
    of_texts("form", ["1 x;", "x;", "1 x;"], &format!("P:1:1: {step} 1 x;"));
    of_texts("form", ["1 x;", "x;", "\u{b}1 d;\n"], &format!("P:1:1: {step} \\x0b1 d;"));
}

#[test]
fn a_long_statement_is_shown_up_to_a_readable_width() {
    let long = format!("\n 2 % 1, x{};", "+x".repeat(4_100));
    let shown = &long[2..74];
    let why = "refused, LONGLINE (3): more than 8,192 bytes in a line or statement";
    of_texts("long", ["1 x;", "x;", &long], &format!("P:2:2: {why}: {shown} ..."));
    let name = "n".repeat(32);
    let why = "refused, NAMES (17): a published proof has a name of more than 31 bytes, or a 321st name";
    of_texts("long", [&format!("1 {name};"), "x;", ""], &format!("C:1:1: {why}: 1 {name};"));
}

#[test]
fn a_refusal_of_the_whole_names_what_it_is_about() {
    let not_reached = "refused, NOTREACHED (16): each of the 3 statements stood, and none gave the target";
    of_texts("whole", ["1 x;", "y;", "1 d;"], &format!("P: {not_reached}"));
    of_texts("whole", ["1 x;", " \n", "?"], "T: refused, NOGOAL (15): it has no statement, so there is no target");
    let white = " ".repeat(host::TEXT_BYTES - 5);
    let long = "refused, LONGTEXT (2): together they have more than 65,536 bytes";
    of_texts("whole", ["1 x;", "x", &white], "T:1:1: refused, FORM (4): the target is one `POLY;`: x");
    of_texts("whole", ["1 x;", "x;", &white], &format!("C, T, P: {long}"));
}

// ---- arguments

#[test]
fn a_ring_out_of_range_is_refused() {
    for ring in ["0", "65", "18446744073709551624", "99999999999999999999999999"] {
        let words = format!("--ring {ring}: refused, NUMBER (5): the ring is 1 to 64");
        says(check(ring, RESOLUTION, "examples/published/resolution/proof"), 1, &words);
    }
}

#[test]
fn a_ring_that_is_no_decimal_is_told() {
    for ring in ["", "08", "00", "x", "8 ", "+8", "-8", "8.0", "8\n"] {
        let words = format!("lpac: --ring {}: no decimal without leading zero\n", ring.replace('\n', "\\n"));
        fails(check(ring, RESOLUTION, "examples/published/resolution/proof"), &words);
    }
}

#[test]
fn a_file_that_cannot_be_read_is_named() {
    let [constraints, target] = RESOLUTION;
    let proof = "examples/published/resolution/proof";
    for files in [["no/such", target, proof], [constraints, "no/such", proof], [constraints, target, "no/such"]] {
        let [c, t, p] = files;
        fails(check("8", [c, t], p), "lpac: no/such: cannot be read: No such file");
    }
    fails(check("8", [constraints, "examples"], proof), "lpac: examples: cannot be read: ");
}

#[test]
fn one_of_the_three_may_be_standard_input() {
    let texts = multiplier::published(Block::multiplier(2), 4, Style::Cells);
    let files = PublishedFiles::new("standard_input", &texts);
    let [constraints, target, proof] = files.paths().map(|path| path.to_str().unwrap().to_string());
    says(run_lpac(&["check", "--ring", "4", &constraints, &target, "-"], &texts.proof), 0, "-: accepted");
    says(run_lpac(&["check", "--ring", "4", "-", &target, &proof], &texts.constraints), 0, &format!("{proof}: accepted"));
    files.remove();
}

#[test]
fn other_arguments_are_bad_usage() {
    let file = "examples/published/resolution/proof";
    for arguments in [
        &["check", "--ring"][..],
        &["check", "--ring", "8"],
        &["check", "--ring", "8", file, file],
        &["check", "--ring", "8", file, file, file, file],
        &["check", "--ring", "8", "-", "-", file],
        &["check", file, "--ring", "8", file, file],
    ] {
        let said = run_lpac(arguments, b"");
        assert_eq!((said.status.code(), said.stdout), (Some(2), vec![]));
        assert!(said.stderr.starts_with(b"usage: lpac check FILE..."));
    }
}

#[test]
fn help_shows_both_ways() {
    let said = run_lpac(&["check", "--help"], b"");
    let words = String::from_utf8(said.stdout).unwrap();
    assert!(words.contains("lpac check FILE...") && words.contains("lpac check --ring K CONSTRAINTS TARGET PROOF"));
    assert_eq!(said.status.code(), Some(0));
}
