//! Around the proved checker: its calls as functions, an independent checker written from the rule paper alone,
//! and makers of texts for both.

pub mod host;
pub mod independent;
pub mod multiplier;
pub mod polynomial;
pub mod proofs;
pub mod published;
pub mod published_texts;
pub mod random;
#[cfg(feature = "rooms")]
pub mod rooms;
pub mod texts;
pub mod width;
pub mod worst;
