//! The URI record and the Smart Poster record (E6), after the NFC Forum's record type documents.
//! The payload of a URI record is a code, which stands for a prefix, and the rest of the URI. The
//! payload of a poster is a message.

mod first;
mod payload;
mod prefixes;

pub use first::first;
pub use payload::{expand, shorten};
pub use prefixes::PREFIXES;
