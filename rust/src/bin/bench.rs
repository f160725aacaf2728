//! What checking costs.
//!
//! `bench` times the host call, the independent checker and a loop that only looks at each byte, in turns in one run.
//! `bench room` tells how full the multipliers make the host's pool and the table. `bench names` and `bench text NAME` write the texts.
//! For a tool that counts instructions, `bench proved`, `bench independent` and `bench floor` take one from standard input,
//! `bench lines FILE` and `bench published K CONSTRAINTS TARGET PROOF` give files to the host calls, and `bench reduce N ORDER` reduces a
//! run of N terms.

use lofashunge::host::{self, Verdict};
use lofashunge::independent::{self, Answer};
use lofashunge::rooms;
use lofashunge::width::{LEAST_POOL, POOL, POOL_TERMS, SCRATCH, TERM_WORDS};
use lofashunge::worst::{self, Measured};
use std::hint::black_box;
use std::io::{Read, Write};
use std::time::Instant;

/// Looks at each byte once.
fn floor(text: &[u8]) -> u64 {
    let mut lines = 0;
    for &b in text {
        if black_box(b) == b'\n' {
            lines += 1;
        }
    }
    lines
}

/// The proved checker, in rooms as the host call has them.
fn proved(text: &[u8]) -> Answer {
    rooms::answer(text, &mut [0; POOL], &mut [0; SCRATCH])
}

/// The independent checker, with rooms cleared as the proved one clears its own.
fn independently(text: &[u8], rooms: &mut [u64]) -> u64 {
    rooms.fill(0);
    black_box(&rooms);
    independent::check(text, POOL, SCRATCH).verdict
}

/// Nanoseconds of the quickest of some turns.
fn quickest(mut f: impl FnMut() -> u64) -> f64 {
    (0..9)
        .map(|_| {
            let start = Instant::now();
            black_box(f());
            start.elapsed().as_nanos() as f64
        })
        .fold(f64::INFINITY, f64::min)
}

fn row(m: &Measured) {
    let mut rooms = vec![0; POOL + SCRATCH];
    let bytes = m.text.len() as f64;
    let ours = quickest(|| host::check(&m.text).number) / bytes;
    let theirs = quickest(|| independently(&m.text, &mut rooms)) / bytes;
    let least = quickest(|| floor(&m.text)) / bytes;
    println!("| {} | {} | {ours:.1} | {theirs:.1} | {least:.1} | {:.1} |", m.name, m.text.len(), theirs / ours);
}

fn table() {
    println!("| text | bytes | proved, ns a byte | independent | floor | independent to proved |\n|---|---|---|---|---|---|");
    worst::all().iter().filter(|m| m.text.len() <= host::TEXT_BYTES).for_each(row);
}

/// The terms that a pool must hold for a text that is accepted in the host's.
fn terms_needed(text: &[u8]) -> usize {
    let accepted = |terms: usize| rooms::answer(text, &mut vec![0; terms * TERM_WORDS], &mut [0; SCRATCH]).verdict == 0;
    let (mut refused, mut enough) = (LEAST_POOL / TERM_WORDS - 1, POOL_TERMS);
    assert!(accepted(enough) && !accepted(refused), "accepted in the host's pool and not in the least that is too short");
    while refused + 1 < enough {
        let between = (refused + enough) / 2;
        *if accepted(between) { &mut enough } else { &mut refused } = between;
    }
    enough
}

/// The most polynomials that the lines of a text store at once.
fn most_stored(text: &[u8]) -> usize {
    let mut stored = 0;
    let after_line = text.split(|&b| b == b'\n').map(|line| {
        stored += [&b"in\t"[..], b"lin\t", b"ext\t"].iter().any(|keyword| line.starts_with(keyword)) as usize;
        stored -= line.starts_with(b"del\t") as usize;
        stored
    });
    after_line.max().unwrap_or(0)
}

fn room_table() {
    println!("| text | terms stored at once, of {POOL_TERMS} | polynomials, of 512 |\n|---|---|---|");
    for m in worst::blocks() {
        println!("| {} | {} | {} |", m.name, terms_needed(&m.text), most_stored(&m.text));
    }
}

/// The lowest word of the set of the i-th term of n.
fn key(order: &str) -> fn(n: u64, i: u64) -> u64 {
    match order {
        "random" => |_, i| i.wrapping_mul(0x9e37_79b9_7f4a_7c15),
        "sorted" => |n, i| n - i,
        "reversed" => |_, i| i,
        "equal" => |_, _| 1,
        _ => panic!("an order is random, sorted, reversed or equal"),
    }
}

/// Reduces n terms of coefficient 1, whose sets differ in their lowest words alone, and gives how many are left.
/// The room is the same for every n up to 1,024, so that to zero it is a cost of the empty run too.
fn reduced(n: usize, order: &str) -> usize {
    let key = key(order);
    let mut room = vec![0; 1_024 * TERM_WORDS];
    let run = &mut room[..n * TERM_WORDS];
    for (i, term) in run.chunks_exact_mut(TERM_WORDS).enumerate() {
        term[0] = key(n as u64, i as u64);
        term[TERM_WORDS - 1] = 1;
    }
    rooms::reduce(run)
}

/// The whole of standard input, however long it is: the checker itself finds a text too long.
fn text_from_input() -> Vec<u8> {
    let mut text = Vec::new();
    std::io::stdin().read_to_end(&mut text).expect("standard input can be read");
    text
}

fn text_of(file: &str) -> Vec<u8> {
    std::fs::read(file).expect("the file can be read")
}

fn say(verdict: Verdict) {
    println!("{}\t{}", verdict.number, verdict.line);
}

fn main() {
    let args: Vec<String> = std::env::args().skip(1).collect();
    let words: Vec<&str> = args.iter().map(String::as_str).collect();
    match words[..] {
        [] => table(),
        ["room"] => room_table(),
        ["names"] => worst::all().iter().for_each(|m| println!("{}", m.name)),
        ["text", name] => {
            let all = worst::all();
            let m = all.iter().find(|m| m.name == name).expect("a name that `bench names` writes");
            std::io::stdout().write_all(&m.text).expect("standard output can be written");
        }
        ["proved"] => println!("{}", proved(&text_from_input())),
        ["independent"] => println!("{}", independently(&text_from_input(), &mut vec![0; POOL + SCRATCH])),
        ["floor"] => println!("{}", floor(&text_from_input())),
        ["lines", file] => say(host::check(&text_of(file))),
        ["published", k, constraints, target, proof] => {
            let k = k.parse().expect("k is a number");
            say(host::check_published(k, &text_of(constraints), &text_of(target), &text_of(proof)));
        }
        ["reduce", n, order] => println!("{}", reduced(n.parse().expect("a count of terms"), order)),
        _ => panic!(
            "usage: bench [room | names | text NAME | proved | independent | floor | lines FILE | published K CONSTRAINTS TARGET PROOF | reduce N ORDER]"
        ),
    }
}
