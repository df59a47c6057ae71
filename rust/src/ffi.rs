//! The C interface, and all the unsafe code of this crate. The C functions require three things: no
//! pointer is null, every length is right, and a buffer that is written to overlaps no other
//! argument. Slices and references guarantee all three.

mod ndef;
mod type2;
mod type3;
mod type6;
mod uri;

pub use ndef::*;
pub use type2::*;
pub use type3::*;
pub use type6::*;
pub use uri::*;

/// The numbers that a call has just written, each loaded separately. Left to itself, the compiler
/// loads address and length together. A load of what two stores wrote waits until both have reached
/// the cache: four nanoseconds, a quarter of a call that reads a Type 3 tag.
#[inline]
pub fn fetched(out: &[u64; 6]) -> [u64; 6] {
    out.each_ref()
        // SAFETY: the pointer comes from a reference.
        .map(|number| unsafe { core::ptr::read_volatile(number) })
}
