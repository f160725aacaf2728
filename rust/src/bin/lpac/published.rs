//! Published texts: constraints, target and proof in a file each, checked together.

use crate::report::{printable, read, readable, Report, REFUSED, UNREADABLE};
use lofashunge::host::{self, Verdict, VERDICTS};
use std::ffi::{OsStr, OsString};

/// The forms of a statement of each text.
const FORMS: [&str; 3] = [
    "a constraint is `ID POLY;`",
    "the target is one `POLY;`",
    "a step is `ID % ID*(POLY) + ID, POLY;`, `ID d;`, `ID = NAME, POLY;`, `ID + ID, ID, POLY;` or `ID * ID, POLY, POLY;`",
];

/// A file, its text, and the forms of its statements.
struct Source<'n> {
    name: &'n OsStr,
    text: Vec<u8>,
    form: &'static str,
}

/// The ring that is asked for: a decimal without leading zero. One that no word holds is out of range like any other above 64.
fn ring(word: &OsStr) -> Option<u64> {
    let digits = word.to_str()?;
    let decimal = digits.bytes().all(|b| b.is_ascii_digit()) && !digits.is_empty() && (digits == "0" || !digits.starts_with('0'));
    decimal.then(|| digits.parse().unwrap_or(u64::MAX))
}

// ---- places

/// Where a statement stands in its text: from its first byte that is not white space to its `;`, or to the end of the text.
struct Place {
    start: usize,
    end: usize,
}

/// The statements of a text; white space alone behind the last `;` is none.
fn places(text: &[u8]) -> Vec<Place> {
    let mut places = Vec::new();
    let mut at = 0;
    for piece in text.split_inclusive(|&b| b == b';') {
        let end = at + piece.len();
        if let Some(white) = piece.iter().position(|b| !b" \t\r\n".contains(b)) {
            places.push(Place { start: at + white, end });
        }
        at = end;
    }
    places
}

/// The statement with this number over all texts, from 1, and the text that it stands in.
fn find<'s, 'n>(sources: &'s [Source<'n>; 3], number: u64) -> Option<(&'s Source<'n>, Place)> {
    let mut all = sources.iter().flat_map(|source| places(&source.text).into_iter().map(move |place| (source, place)));
    all.nth(number.checked_sub(1)? as usize)
}

/// The line and the column of a byte, from 1.
fn line_and_column(text: &[u8], byte: usize) -> (usize, usize) {
    let before = &text[..byte];
    let start = before.iter().rposition(|&b| b == b'\n').map_or(0, |end| end + 1);
    (1 + before.iter().filter(|&&b| b == b'\n').count(), 1 + byte - start)
}

// ---- words

/// A refusal that names no statement: where it belongs, and why.
fn of_the_whole(verdict: Verdict, ring: &OsStr, [constraints, target, proof]: &[Source; 3]) -> Option<(String, String)> {
    let shown = |source: &Source| printable(source.name);
    let (name, _) = VERDICTS[verdict.number as usize];
    match (name, verdict.line) {
        ("LONGTEXT", _) => {
            let three = format!("{}, {}, {}", shown(constraints), shown(target), shown(proof));
            Some((three, "together they have more than 65,536 bytes".to_string()))
        }
        ("NUMBER", 0) => Some((format!("--ring {}", printable(ring)), "the ring is 1 to 64".to_string())),
        ("NOGOAL", _) => Some((shown(target), "it has no statement, so there is no target".to_string())),
        ("NOTREACHED", all) => Some((shown(proof), format!("each of the {all} statements stood, and none gave the target"))),
        _ => None,
    }
}

/// A refused statement: where it stands, and why it is refused, with the statement itself.
fn of_a_statement(verdict: Verdict, sources: &[Source; 3]) -> (String, String) {
    let (name, when) = VERDICTS[verdict.number as usize];
    let (source, place) = find(sources, verdict.line).expect("a refusal names a statement");
    let rule = if name == "FORM" { source.form } else { when };
    let (line, column) = line_and_column(&source.text, place.start);
    let at = format!("{}:{line}:{column}", printable(source.name));
    (at, format!("{rule}: {}", readable(&source.text[place.start..place.end])))
}

fn refused(verdict: Verdict, ring: &OsStr, sources: &[Source; 3]) -> Report {
    let (at, why) = of_the_whole(verdict, ring, sources).unwrap_or_else(|| of_a_statement(verdict, sources));
    let (name, _) = VERDICTS[verdict.number as usize];
    Report { words: format!("{at}: refused, {name} ({}): {why}", verdict.number), status: REFUSED }
}

// ---- files

fn source<'n>(name: &'n OsStr, form: &'static str) -> Result<Source<'n>, Report> {
    read(name).map(|text| Source { name, text, form }).map_err(|why| Report::unreadable(name, why))
}

/// The verdict on three files in this ring, in words, or what is wrong with the arguments.
fn checked(word: &OsStr, [constraints, target, proof]: &[OsString; 3]) -> Result<Report, Report> {
    let bad_ring = || Report { words: format!("--ring {}: no decimal without leading zero", printable(word)), status: UNREADABLE };
    let k = ring(word).ok_or_else(bad_ring)?;
    let sources = [source(constraints, FORMS[0])?, source(target, FORMS[1])?, source(proof, FORMS[2])?];
    let [c, t, p] = &sources;
    let verdict = host::check_published(k, &c.text, &t.text, &p.text);
    Ok(if verdict.number == 0 { Report::accepted(p.name) } else { refused(verdict, word, &sources) })
}

pub fn report(ring: &OsStr, files: &[OsString; 3]) -> Report {
    checked(ring, files).unwrap_or_else(|wrong| wrong)
}

#[cfg(test)]
mod tests {
    use super::places;
    use lofashunge::host::TEXT_BYTES;
    use lofashunge::independent::{check_published, NOTREACHED};
    use lofashunge::published_texts::published;
    use lofashunge::width::{POOL, SCRATCH};

    /// Where all statements stood, the independent checker's line is their count.
    #[test]
    fn there_are_as_many_places_as_statements() {
        let mut counted = 0;
        for proof in (0..4_000).map(|number| published(number, TEXT_BYTES)) {
            let answer = check_published(&proof, TEXT_BYTES, POOL, SCRATCH);
            if answer.verdict == NOTREACHED {
                let all = [&proof.constraints, &proof.target, &proof.proof].map(|text| places(text).len() as u64);
                assert_eq!(all.iter().sum::<u64>(), answer.line);
                counted += 1;
            }
        }
        assert!(counted >= 300, "{counted}");
    }
}
