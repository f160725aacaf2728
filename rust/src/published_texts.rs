//! Published proofs for comparing two checkers: true ones, near misses of them, damaged bytes, every limit on both sides, multipliers.
//! The one with a given number is the same in every run.

mod limits;

use crate::multiplier;
use crate::proofs::{lines_with_ones, ENDS};
use crate::published::{plain, plain_names, Draft, Published, Publisher, Statement};
use crate::random::Random;
use crate::texts::{damaged, end_number, some_block, wrong_step};
use crate::width::VARIABLES;

/// The three texts with this number, for a checker that takes so many bytes of them together.
pub fn published(number: u64, most_bytes: usize) -> Published {
    let mut random = Random::new(number);
    match number % 64 {
        0..=15 => laid_out(true_proof(&mut random), &mut random),
        16..=37 => near_miss(&mut random),
        38..=47 => {
            let published = laid_out(true_proof(&mut random), &mut random);
            with_damage(published, &mut random)
        }
        48..=62 => limits::limit(most_bytes, &mut random),
        _ => multiplier(&mut random),
    }
}

fn true_proof(random: &mut Random) -> Draft {
    let (lines, names) = (lines_with_ones(random), names(random));
    Publisher { names, random: Some(random) }.draft(&lines)
}

// ---- names

/// A name that is almost x and the number of a variable, or almost the word of a deletion; no list of names below has it.
fn odd_name(random: &mut Random) -> String {
    let beyond = format!("x{VARIABLES}");
    random.pick(&["d", "D", "ddd", "d1d", "x", &beyond, "x00", "x01", "X00", "x1x"]).to_string()
}

/// Two letters; each two neighbours differ in the case of one.
fn letters(v: usize) -> String {
    let case = if v.is_multiple_of(2) { b'a' } else { b'A' };
    String::from_utf8(vec![b'a' + (v / 24) as u8, case + (v / 2 % 12) as u8]).unwrap()
}

/// Different names for all variables: numbers, or numbers behind letters, up to 31 bytes, or letters alone. One may be odd.
fn names(random: &mut Random) -> Vec<String> {
    let letter = |random: &mut Random| *random.pick(b"abdlsxyzABDLSXYZ") as char;
    let mut names: Vec<String> = match random.below(8) {
        0..=3 => plain_names(),
        4 => (0..VARIABLES).map(letters).collect(),
        kind => {
            let letters = if kind == 5 { 28 } else { random.between(1, 9) };
            let prefix: String = (0..letters).map(|_| letter(random)).collect();
            (0..VARIABLES).map(|v| format!("{prefix}{v}")).collect()
        }
    };
    if random.once_in(3) {
        names[*random.pick(&ENDS) as usize] = odd_name(random);
    }
    names
}

// ---- layout

fn white(bytes: usize, random: &mut Random) -> String {
    (0..bytes).map(|_| *random.pick(b" \t\n\r") as char).collect()
}

/// Whether two tokens without white space between them would be read as other tokens.
fn run_together(first: &str, second: &str) -> bool {
    let ends_a_name = first.starts_with(|c: char| c.is_ascii_alphabetic());
    let ends_a_constant = first.starts_with(|c: char| c.is_ascii_digit());
    second.starts_with(|c: char| c.is_ascii_digit()) && (ends_a_name || ends_a_constant)
        || second.starts_with(|c: char| c.is_ascii_alphabetic()) && ends_a_name
}

/// Up to so many bytes of white space at each place where they may stand, and one where they must.
fn spread(statements: &[Statement], most: usize, random: &mut Random) -> Vec<u8> {
    let mut text = String::new();
    for statement in statements {
        let mut last = "";
        for token in statement.iter().flatten().map(String::as_str).chain([";"]) {
            let least = run_together(last, token) as usize;
            text += &white(random.between(least, most.max(least)), random);
            text += token;
            last = token;
        }
    }
    text += &white(random.between(0, most), random);
    text.into_bytes()
}

fn laid_out(draft: Draft, random: &mut Random) -> Published {
    match random.below(6) {
        0 | 1 => draft.laid_out(plain),
        2 => draft.laid_out(|statements| String::from_utf8(plain(statements)).unwrap().replace('\n', "\r\n").into_bytes()),
        3 => draft.laid_out(|statements| spread(statements, 0, random)),
        4 => draft.laid_out(|statements| spread(statements, 1, random)),
        _ => draft.laid_out(|statements| spread(statements, 3, random)),
    }
}

// ---- near misses: a step is added, a statement or a token of it changed, lost, doubled or moved, an end is cut

fn near_miss(random: &mut Random) -> Published {
    match random.below(8) {
        0..=2 => {
            let (mut lines, names) = (lines_with_ones(random), names(random));
            let at = if random.once_in(2) { lines.len() } else { random.between(1, lines.len()) };
            lines.insert(at, wrong_step(&lines, random));
            let draft = Publisher { names, random: Some(random) }.draft(&lines);
            laid_out(draft, random)
        }
        3..=6 => {
            let draft = true_proof(random);
            let draft = near_miss_of(draft, random);
            laid_out(draft, random)
        }
        _ => {
            let published = laid_out(true_proof(random), random);
            with_other_end(published, random)
        }
    }
}

fn near_miss_of(mut draft: Draft, random: &mut Random) -> Draft {
    let at = random.below(3);
    match random.below(8) {
        0 => draft.k = *random.pick(&[0, 1, 2, 8, 63, 64, 65, 66, 4_294_967_304, u64::MAX]),
        1 => {
            let moved = draft.texts()[at].pop();
            draft.texts()[random.below(3)].extend(moved);
        }
        2 | 3 => change_statements(draft.texts()[at], random),
        _ => {
            let text = &mut *draft.texts()[at];
            if !text.is_empty() {
                let place = random.below(text.len());
                change_tokens(&mut text[place], random);
            }
        }
    }
    draft
}

fn change_statements(text: &mut Vec<Statement>, random: &mut Random) {
    if text.is_empty() {
        return;
    }
    let (at, other) = (random.below(text.len()), random.below(text.len()));
    match random.below(4) {
        0 => drop(text.remove(at)),
        1 => text.insert(other, text[at].clone()),
        2 => text.swap(at, other),
        _ => text.truncate(at),
    }
}

const TOKENS: [&str; 14] = ["+", "-", "*", "(", ")", "%", ",", "=", "d", "x", "x0", "y", "0", "1"];

fn change_tokens(statement: &mut Statement, random: &mut Random) {
    let at = random.below(statement.len());
    let piece = &mut statement[at];
    let place = random.below(piece.len());
    let other = random.pick(&TOKENS).to_string();
    match random.below(10) {
        0 => drop(piece.remove(place)),
        1 => piece.insert(place, piece[place].clone()),
        2 => piece.insert(place, other),
        3 => piece[place] = other,
        4 | 5 => piece.extend(["+".to_string(), random.pick(&["1", "x1", "y"]).to_string()]),
        _ => change_word(&mut piece[place], random),
    }
}

/// Another number for a number, another name for a name, another sign for a sign.
fn change_word(token: &mut String, random: &mut Random) {
    *token = match token.as_bytes()[0] {
        b'0'..=b'9' if random.once_in(2) => random.between(0, 9).to_string(),
        b'0'..=b'9' => end_number(random),
        b'+' => "-".to_string(),
        b'-' => "+".to_string(),
        b'a'..=b'z' | b'A'..=b'Z' if random.once_in(2) => "n".repeat(random.between(30, 33)),
        b'a'..=b'z' | b'A'..=b'Z' => odd_name(random),
        _ => ",".to_string(),
    };
}

/// A text emptied, a second target, a `;` too few or too many.
fn with_other_end(mut published: Published, random: &mut Random) -> Published {
    let at = random.below(3);
    let blank = white(random.below(4), random).into_bytes();
    match random.below(8) {
        0 | 1 => published.target = blank,
        2 => *published.texts()[at] = blank,
        3 => published.target.extend(random.pick(&["x;", "0;", ";", " \r\n1", "x^2;"]).as_bytes()),
        4 => published.texts()[at].extend(random.pick(&[";", " ;", "x", "1 ", "\x0b", "?"]).as_bytes()),
        _ => {
            let text = &mut *published.texts()[at];
            let end = text.iter().rposition(|&b| b == b';').unwrap_or(0);
            text.truncate(end);
        }
    }
    published
}

// ---- damage: some bytes of one text replaced, added or lost

const BYTES: &[u8] = b"0123456789+-*()%,=;; \t\n\rdxyA\0\x0b\x0c\xff";

fn with_damage(mut published: Published, random: &mut Random) -> Published {
    let text = &mut *published.texts()[random.below(3)];
    *text = damaged(std::mem::take(text), BYTES, random);
    published
}

// ---- multiplier proofs, most of them small, one of two with an accumulator; two of three with a statement changed or damaged

fn multiplier(random: &mut Random) -> Published {
    let (block, k, style) = some_block(random);
    match random.below(3) {
        0 => multiplier::published(block, k, style),
        1 => {
            let text = String::from_utf8(multiplier::text(block, k, style)).unwrap();
            let lines: Vec<String> = text.lines().map(String::from).collect();
            let draft = Publisher { names: names(random), random: Some(random) }.draft(&lines);
            near_miss_of(draft, random).laid_out(plain)
        }
        _ => with_damage(multiplier::published(block, k, style), random),
    }
}

#[cfg(test)]
mod tests {
    use super::*;
    use crate::independent::{check, check_published, Answer, FORM, LONGLINE, NUMBER, TEXT_BYTES};
    use crate::published::of_lines;
    use crate::texts::{many_terms, wide_ext, wide_lin};
    use crate::width::{POOL, SCRATCH};

    /// Lines of the known shapes, some of which are refused.
    fn some_lines(random: &mut Random) -> Vec<String> {
        let text = match random.below(8) {
            0 => many_terms(random),
            1 => wide_ext(random),
            2 => wide_lin(random),
            _ => {
                let mut lines = lines_with_ones(random);
                if random.once_in(2) {
                    lines.push(wrong_step(&lines, random));
                }
                return lines;
            }
        };
        String::from_utf8(text).unwrap().lines().map(String::from).collect()
    }

    /// Whether each line stands where its statement does.
    fn in_order(lines: &[String]) -> bool {
        let rank = |line: &String| ["ring\t", "in\t", "goal\t"].iter().position(|keyword| line.starts_with(keyword)).unwrap_or(3);
        lines.is_sorted_by_key(rank)
    }

    /// The answer that the published form of lines in order must have, unless they have bad form, or a number that is none there.
    fn expected(lines: &[String]) -> Option<Answer> {
        let text: String = lines.iter().map(|line| format!("{line}\n")).collect();
        let answer = check(text.as_bytes(), POOL, SCRATCH);
        let ring_line = (answer.line > 0) as u64;
        (![FORM, NUMBER].contains(&answer.verdict)).then_some(Answer { line: answer.line - ring_line, ..answer })
    }

    #[test]
    fn lines_keep_their_answer_when_they_are_published() {
        let mut counts = [0; 17];
        for number in 0..6_000 {
            let random = &mut Random::new(number);
            let lines = some_lines(random);
            let Some(expected) = expected(&lines).filter(|_| in_order(&lines)) else { continue };
            let draft = Publisher { names: names(random), random: Some(random) }.draft(&lines);
            let layouts = [of_lines(&lines), draft.laid_out(plain), draft.laid_out(|statements| spread(statements, 0, random))];
            for answer in layouts.map(|published| check_published(&published, TEXT_BYTES, POOL, SCRATCH)) {
                // With long names a statement may be too long though its line is not.
                assert!(answer == expected || answer.verdict == LONGLINE, "{answer} for {expected}: {lines:?}");
                counts[answer.verdict as usize] += 1;
            }
        }
        assert!([0, 6, 8, 9, 10, 11, 12, 13, 16].iter().all(|&verdict| counts[verdict] >= 300), "{counts:?}");
    }
}
