//! The proved checker as functions: the host calls of the crate `lpac_host`, with their number taken apart.

/// The verdict's number, and the line that it names (0 where it names none). The line of three published texts is a statement's place
/// over all of them.
#[derive(Clone, Copy, Debug, PartialEq, Eq)]
pub struct Verdict {
    pub number: u64,
    pub line: u64,
}

/// The longest text that a call takes, or three texts together; a longer one is LONGTEXT.
pub const TEXT_BYTES: usize = 65_536;

/// The name of each verdict by its number, and when it is given.
pub const VERDICTS: [(&str, &str); 18] = [
    ("ACCEPTED", "everything stood and the goal was reached"),
    ("SHORT", "too little room was lent; this command never gives it"),
    ("LONGTEXT", "the text, or the three together, has more than 65,536 bytes"),
    ("LONGLINE", "more than 8,192 bytes in a line or statement"),
    ("FORM", "a line or statement is not of the known shapes"),
    ("NUMBER", "a well-formed number is out of its range"),
    ("TERMS", "a polynomial has more than 96 written terms"),
    ("ORDER", "this kind of line is not allowed at this place"),
    ("TAKEN", "the new index is stored already"),
    ("MISSING", "an index is not stored"),
    ("SEEN", "the variable of an extension is seen, or stands in its polynomial"),
    ("PRODUCTS", "a step has more than 1,024 products"),
    ("MISMATCH", "the stated polynomial of a linear combination is not the sum"),
    ("NOTBIT", "the polynomial of an extension is not its own square"),
    ("FULL", "512 polynomials are stored already, or 1,333 terms are not enough"),
    ("NOGOAL", "there is no goal line, or no target"),
    ("NOTREACHED", "everything stood and the goal was not reached"),
    ("NAMES", "a published proof has a name of more than 31 bytes, or a 321st name"),
];

mod proved {
    extern "C" {
        pub fn lpac_verdict(text: *const u8, bytes: usize) -> u64;
        pub fn lpac_published_verdict(
            k: u64,
            constraints: *const u8,
            constraints_bytes: usize,
            target: *const u8,
            target_bytes: usize,
            proof: *const u8,
            proof_bytes: usize,
        ) -> u64;
    }
}

fn told_by(number: u64) -> Verdict {
    Verdict { number: number % 32, line: number / 32 }
}

/// What the proved checker says of a text.
pub fn check(text: &[u8]) -> Verdict {
    // SAFETY: a slice crosses as its pointer and its length; the call reads those bytes alone and keeps nothing.
    told_by(unsafe { proved::lpac_verdict(text.as_ptr(), text.len()) })
}

/// What the proved checker says of three published texts modulo 2^k.
pub fn check_published(k: u64, constraints: &[u8], target: &[u8], proof: &[u8]) -> Verdict {
    // SAFETY: as above, for each of the three.
    told_by(unsafe {
        proved::lpac_published_verdict(
            k,
            constraints.as_ptr(),
            constraints.len(),
            target.as_ptr(),
            target.len(),
            proof.as_ptr(),
            proof.len(),
        )
    })
}
