//! The proved checker in rooms that are lent to it, and the proved reduction: the calls of the crate `lpac_rooms`.

use crate::independent::Answer;

mod proved {
    extern "C" {
        pub fn lpac_answer(
            text: *const u8,
            bytes: usize,
            pool: *mut u64,
            pool_words: usize,
            scratch: *mut u64,
            scratch_words: usize,
            numbers: *mut [u64; 6],
        );
        pub fn lpac_reduce(run: *mut u64, words: usize) -> usize;
    }
}

/// What the proved checker answers to a text in these rooms, which are left as it leaves them.
pub fn answer(text: &[u8], pool: &mut [u64], scratch: &mut [u64]) -> Answer {
    let mut numbers = [0; 6];
    // SAFETY: a slice crosses as its pointer and its length, an array as its pointer. No two of them overlap; the call reads and
    // writes those bytes and words alone and keeps nothing.
    unsafe {
        proved::lpac_answer(text.as_ptr(), text.len(), pool.as_mut_ptr(), pool.len(), scratch.as_mut_ptr(), scratch.len(), &mut numbers);
    }
    let [verdict, line, index, products, polynomials, terms] = numbers;
    Answer { verdict, line, index, products, polynomials, terms }
}

/// Reduces a run of terms modulo 2^64 in place, and gives how many are left at its front.
pub fn reduce(run: &mut [u64]) -> usize {
    // SAFETY: as above.
    unsafe { proved::lpac_reduce(run.as_mut_ptr(), run.len()) }
}
