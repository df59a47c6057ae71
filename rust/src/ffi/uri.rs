//! The calls for URIs.

mod c {
    unsafe extern "C" {
        pub fn zan_uri_expand(
            payload: *const u8,
            payload_len: usize,
            uri: *mut u8,
            uri_len: usize,
        ) -> u64;
        pub fn zan_uri_shorten(
            uri: *const u8,
            uri_len: usize,
            payload: *mut u8,
            payload_len: usize,
        ) -> u64;
        pub fn zan_uri_first(
            message: *const u8,
            message_len: usize,
            uri: *mut u8,
            uri_len: usize,
            found: *mut u64,
        ) -> u64;
    }
}

#[inline]
pub fn uri_expand(payload: &[u8], uri: &mut [u8]) -> u64 {
    let (uri, uri_len) = (uri.as_mut_ptr(), uri.len());
    // SAFETY: pointers and lengths come from slices and references that live through the call.
    unsafe { c::zan_uri_expand(payload.as_ptr(), payload.len(), uri, uri_len) }
}

#[inline]
pub fn uri_shorten(uri: &[u8], payload: &mut [u8]) -> u64 {
    let (payload, payload_len) = (payload.as_mut_ptr(), payload.len());
    // SAFETY: pointers and lengths come from slices and references that live through the call.
    unsafe { c::zan_uri_shorten(uri.as_ptr(), uri.len(), payload, payload_len) }
}

#[inline]
pub fn uri_first(message: &[u8], uri: &mut [u8], found: &mut u64) -> u64 {
    let (uri, uri_len) = (uri.as_mut_ptr(), uri.len());
    // SAFETY: pointers and lengths come from slices and references that live through the call.
    unsafe { c::zan_uri_first(message.as_ptr(), message.len(), uri, uri_len, found) }
}
