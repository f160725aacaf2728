//! How wide a set of variables is, and the numbers of docs/FORMAT.md that follow from it.

/// The words of a set of variables.
pub const SET_WORDS: usize = 5;

/// How many variables there are, and how many names a published proof may have.
pub const VARIABLES: usize = 64 * SET_WORDS;

/// The words of a term: its set, the lowest word first, and its coefficient.
pub const TERM_WORDS: usize = SET_WORDS + 1;

/// The least pool that can be lent, in words: room for a field of 96 terms.
pub const LEAST_POOL: usize = 96 * TERM_WORDS;

/// The least scratch: room for 1,024 products and three fields.
pub const LEAST_SCRATCH: usize = (1_024 + 3 * 96) * TERM_WORDS;

/// The room that the host calls and the check programs have, in words.
pub const POOL: usize = 8_000;
pub const SCRATCH: usize = LEAST_SCRATCH;

/// The terms that their pool holds.
pub const POOL_TERMS: usize = POOL / TERM_WORDS;

#[cfg(test)]
mod tests {
    use super::*;

    #[test]
    fn the_numbers_are_those_of_the_page() {
        assert_eq!((VARIABLES, TERM_WORDS, LEAST_POOL, LEAST_SCRATCH, POOL_TERMS), (320, 6, 576, 7_872, 1_333));
    }
}
