//! The examples that are shipped, through the command, the check program and the C example.

mod common;

use common::{at_root, c_example, run, run_check_program, run_lpac};
use lofashunge::host::{self, VERDICTS};
use lofashunge::multiplier::{self, Block, Style};
use lofashunge::width::{LEAST_POOL, LEAST_SCRATCH, POOL_TERMS, TERM_WORDS, VARIABLES};
use std::path::Path;
use std::process::{Command, Output};

/// Each file with what the command says of it, and its verdict and line.
const EXAMPLES: [(&str, &str, &str); 5] = [
    ("examples/accumulator-16.lpac", "accepted", "0\t0"),
    ("examples/accumulator-32.lpac", "accepted", "0\t0"),
    ("examples/multiplier.lpac", "accepted", "0\t0"),
    ("examples/refused.lpac", "refused, MISMATCH (12) at line 4: lin\\t2\\t1.2\\t1\\t1.0 -1", "12\t4"),
    ("examples/sample.lpac", "accepted", "0\t0"),
];

/// What `lpac check` gives for these files.
fn check(names: impl Iterator<Item = &'static str>) -> Output {
    let arguments: Vec<&str> = std::iter::once("check").chain(names).collect();
    run_lpac(&arguments, b"")
}

#[test]
fn the_command_tells_of_each_file_in_the_order_of_the_arguments() {
    let many: Vec<_> = EXAMPLES.iter().cycle().take(40).collect();
    let said = check(many.iter().map(|e| e.0));
    let expected: String = many.iter().map(|(name, words, _)| format!("{name}: {words}\n")).collect();
    assert_eq!(String::from_utf8(said.stdout).unwrap(), expected);
    assert_eq!(said.status.code(), Some(1));
}

#[test]
fn the_command_has_status_0_where_all_are_accepted() {
    let names = EXAMPLES.iter().filter(|e| e.1 == "accepted").map(|e| e.0);
    let said = check(names);
    assert_eq!(said.status.code(), Some(0));
}

#[test]
fn the_check_program_gives_the_same_verdict_and_line() {
    for (name, _, numbers) in EXAMPLES {
        let said = run_check_program(&std::fs::read(at_root(name)).unwrap());
        assert!(String::from_utf8(said.stdout).unwrap().starts_with(&format!("{numbers}\t")));
    }
}

#[test]
fn help_lists_every_verdict() {
    let said = run_lpac(&["--help"], b"");
    let words = String::from_utf8(said.stdout).unwrap();
    for (number, (name, when)) in VERDICTS.iter().enumerate() {
        assert!(words.contains(&format!("{number:2}  {name:10}  {when}\n")));
    }
    assert_eq!(said.status.code(), Some(0));
}

/// A number below a million as the pages write it.
fn written(n: usize) -> String {
    if n < 1_000 {
        n.to_string()
    } else {
        format!("{},{:03}", n / 1_000, n % 1_000)
    }
}

#[test]
fn help_header_and_pages_have_the_numbers_of_the_width() {
    let said = run_lpac(&["--help"], b"");
    let page = |path: &str| std::fs::read_to_string(at_root(path)).unwrap();
    let (last, one_more) = (VARIABLES - 1, VARIABLES + 1);
    let [least, scratch, terms] = [LEAST_POOL, LEAST_SCRATCH, POOL_TERMS].map(written);
    for (page, numbers) in [
        (String::from_utf8(said.stdout).unwrap(), vec![format!("or {terms} terms are not enough"), format!("a {one_more}st name")]),
        (page("include/lpac.h"), vec![format!("Variables are 0 to {last}, and {terms} terms")]),
        (page("README.md"), vec![format!("A text may have {VARIABLES} variables")]),
        (
            page("docs/FORMAT.md"),
            vec![
                format!("| variable | 0 to {last} |"),
                format!("pool words / {TERM_WORDS}, never above 65,536; {terms} in"),
                format!("pool below {least} words or scratch below {scratch};"),
                format!("SHORT (scratch below {least} words)"),
            ],
        ),
        (
            page("docs/PUBLISHED.md"),
            vec![format!("a decimal from 0 to {last} without"), format!("a {one_more}st name"), format!("| names | {VARIABLES} |")],
        ),
    ] {
        for number in numbers {
            assert!(page.contains(&number), "{number}");
        }
    }
}

#[test]
fn the_blocks_are_those_that_the_maker_makes() {
    for (name, block, k) in [
        ("multiplier", Block::multiplier(2), 4),
        ("accumulator-16", Block::accumulator(8, 16), 16),
        ("accumulator-32", Block::accumulator(8, 32), 32),
    ] {
        assert_eq!(std::fs::read(at_root(&format!("examples/{name}.lpac"))).unwrap(), multiplier::text(block, k, Style::Cells), "{name}");
    }
}

// ---- C

#[test]
fn the_c_example_gives_the_same_verdict_and_line() {
    let program = c_example();
    let long = Path::new(env!("CARGO_TARGET_TMPDIR")).join("long");
    std::fs::write(&long, vec![b'\n'; 1_000_000]).unwrap();
    for (name, numbers) in EXAMPLES.iter().map(|e| (at_root(e.0), e.2)).chain([(long, "2\t0")]) {
        let said = run(Command::new(&program).arg(&name), b"");
        let verdict = host::check(&std::fs::read(&name).unwrap());
        assert_eq!(String::from_utf8(said.stdout).unwrap(), format!("{numbers}\n"));
        assert_eq!(format!("{}\t{}", verdict.number, verdict.line), numbers);
        assert_eq!(said.status.code(), Some((verdict.number != 0) as i32));
    }
    assert_eq!(run(Command::new(&program).arg("no/such"), b"").status.code(), Some(2));
}

#[test]
fn the_header_has_the_verdicts_names_and_numbers() {
    let header = std::fs::read_to_string(at_root("include/lpac.h")).unwrap();
    for (number, (name, _)) in VERDICTS.iter().enumerate() {
        assert!(header.contains(&format!("LPAC_{name} = {number},")) || header.contains(&format!("LPAC_{name} = {number}\n")));
    }
}

/// What an archive needs from outside.
fn needed_by(library: &str) -> Vec<String> {
    let said = Command::new("nm").arg("-u").arg(at_root(&format!("target/staticlib/lib{library}.a"))).output().expect("nm is there");
    assert!(said.status.success());
    String::from_utf8(said.stdout).unwrap().lines().filter_map(|l| l.trim().strip_prefix("U ")).map(str::to_string).collect()
}

#[test]
fn the_libraries_need_nothing_from_outside_but_to_copy_and_to_fill() {
    for library in ["lpac_host", "lpac_rooms"] {
        let needed = needed_by(library);
        assert!(!needed.is_empty() && needed.iter().all(|name| ["memcpy", "memset"].contains(&&name[..])), "{library}: {needed:?}");
    }
}
