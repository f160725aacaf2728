//! Published LPAC: the statements of three texts, their names' numbers, and the answer of the lines that they stand for.

use super::grammar::{is_white, published_statement, Part};
use super::statement::Statement;
use super::{room_and_length, written_within_limits, Answer, Phase, State, FORM, LONGLINE, NAMES, NUMBER};
use crate::published::Published;
use crate::width::VARIABLES;
use std::collections::{HashMap, HashSet};

// ---- statements: a text is cut behind each `;`

struct Item<'t> {
    part: Part,
    /// From its first byte that is not white space up to its `;`, or to the end of the text.
    bytes: &'t [u8],
    /// Whether it has its `;`.
    ended: bool,
    /// Whether none stands before it in its text.
    first: bool,
}

fn items(part: Part, text: &[u8]) -> Vec<Item<'_>> {
    let mut items = Vec::new();
    for piece in text.split_inclusive(|&b| b == b';') {
        let content = piece.strip_suffix(b";").unwrap_or(piece);
        let ended = content.len() < piece.len();
        let start = content.iter().position(|b| !is_white(b)).unwrap_or(content.len());
        if ended || start < content.len() {
            items.push(Item { part, bytes: &content[start..], ended, first: items.is_empty() });
        }
    }
    items
}

/// Those of the three texts in their order, without the proof where there is no target.
fn all_items(published: &Published) -> Vec<Item<'_>> {
    let target = items(Part::Target, &published.target);
    let proof = if target.is_empty() { vec![] } else { items(Part::Proof, &published.proof) };
    items(Part::Constraints, &published.constraints).into_iter().chain(target).chain(proof).collect()
}

/// The statement, or LONGLINE or FORM; its names get their numbers in the order in which they are written.
fn read<'t>(item: &Item<'t>, number: &mut dyn FnMut(&'t [u8]) -> u64) -> Result<Statement, u64> {
    if item.bytes.len() > 8192 {
        return Err(LONGLINE);
    }
    if !item.ended || (item.part == Part::Target && !item.first) {
        return Err(FORM);
    }
    published_statement(item.part, item.bytes, number).ok_or(FORM)
}

// ---- names

/// x and the number of a variable without leading zero.
fn plain_number(name: &[u8]) -> Option<u64> {
    let digits = std::str::from_utf8(name.strip_prefix(b"x")?).unwrap();
    let number: u64 = digits.parse().ok()?;
    (number < VARIABLES as u64 && number.to_string() == digits).then_some(number)
}

/// The names of the statements that can be read, up to the first that can't, as they first appear.
fn names<'t>(items: &[Item<'t>]) -> Vec<&'t [u8]> {
    let mut known = HashSet::new();
    let mut names = Vec::new();
    for item in items {
        let mut found = Vec::new();
        let mut no_number_yet = |name| {
            found.push(name);
            0
        };
        if read(item, &mut no_number_yet).is_err() {
            break;
        }
        names.extend(found.into_iter().filter(|name| known.insert(*name)));
    }
    names
}

fn numbers<'t>(items: &[Item<'t>]) -> HashMap<&'t [u8], u64> {
    let names = names(items);
    let plain: Option<Vec<u64>> = names.iter().map(|name| plain_number(name)).collect();
    let numbers = plain.unwrap_or_else(|| (0..names.len() as u64).collect());
    names.into_iter().zip(numbers).collect()
}

/// Each name of the three texts with its number, the lowest number first. One name too many has one too, though it is refused.
pub fn numbered_names(published: &Published) -> Vec<(String, u64)> {
    let mut named: Vec<(String, u64)> =
        numbers(&all_items(published)).into_iter().map(|(name, number)| (String::from_utf8_lossy(name).into_owned(), number)).collect();
    named.sort_by_key(|(_, number)| *number);
    named
}

// ---- the answer

/// The statement, or LONGLINE or FORM, and whether none of its names is refused. One that is gets a number in range, so that
/// NUMBER, which comes first, is about what is written as a number.
fn read_named<'t>(item: &Item<'t>, numbers: &HashMap<&'t [u8], u64>) -> Result<(Statement, bool), u64> {
    let mut named_well = true;
    let statement = read(item, &mut |name| {
        // A name of the statement that can't be read may have no number, and needs none.
        let number = numbers.get(name).copied().unwrap_or(0);
        named_well &= name.len() <= 31 && number < VARIABLES as u64;
        number.min(VARIABLES as u64 - 1)
    });
    Ok((statement?, named_well))
}

fn judge(state: &mut State, statement: &Statement, named_well: bool) -> Result<(), u64> {
    written_within_limits(statement)?;
    if !named_well {
        return Err(NAMES);
    }
    state.step(statement)
}

/// The answer for three texts of at most so many bytes together, with so many words of pool and scratch lent.
pub fn check_published(published: &Published, most_bytes: usize, pool: usize, scratch: usize) -> Answer {
    if let Some(refused) = room_and_length(published.bytes(), most_bytes, pool, scratch) {
        return refused;
    }
    let mut state = State::new(pool);
    if !(1..=64).contains(&published.k) {
        return state.report(NUMBER, 0, 0);
    }
    state.k = published.k as u32;
    state.phase = Phase::Inputs;
    let items = all_items(published);
    let numbers = numbers(&items);
    let mut count = 0;
    for item in &items {
        count += 1;
        let (statement, named_well) = match read_named(item, &numbers) {
            Ok(named) => named,
            Err(verdict) => return state.report(verdict, count, 0),
        };
        if let Err(verdict) = judge(&mut state, &statement, named_well) {
            return state.refuse(verdict, count, &statement);
        }
    }
    state.end(count)
}
