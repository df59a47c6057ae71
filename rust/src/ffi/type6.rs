//! The calls for Type 6 tags.

mod c {
    unsafe extern "C" {
        pub fn zan_type6_read(image: *const u8, image_len: usize, out: *mut u64) -> u64;
        pub fn zan_type6_write(
            image: *const u8,
            image_len: usize,
            message: *const u8,
            message_len: usize,
            list: *mut u8,
            list_len: usize,
        ) -> u64;
        pub fn zan_type6_judge(
            image: *const u8,
            image_len: usize,
            message: *const u8,
            message_len: usize,
            list: *const u8,
            list_len: usize,
        ) -> u64;
        pub fn zan_type6_model(
            image: *mut u8,
            image_len: usize,
            command: *const u8,
            command_len: usize,
        ) -> u64;
        pub fn zan_type6_encode(
            block: u64,
            data: *const u8,
            block_size: u64,
            blocks: u64,
            bytes: *mut u8,
            bytes_len: usize,
        ) -> u64;
        pub fn zan_type6_decode(
            bytes: *const u8,
            bytes_len: usize,
            block_size: u64,
            blocks: u64,
            block: *mut u64,
            data: *mut u8,
        ) -> u64;
    }
}

#[inline]
pub fn type6_read(image: &[u8], out: &mut [u64; 6]) -> u64 {
    // SAFETY: pointers and lengths come from slices and references that live through the call.
    unsafe { c::zan_type6_read(image.as_ptr(), image.len(), out.as_mut_ptr()) }
}

pub fn type6_write(image: &[u8], message: &[u8], list: &mut [u8]) -> u64 {
    // SAFETY: pointers and lengths come from slices and references that live through the call.
    unsafe {
        c::zan_type6_write(
            image.as_ptr(),
            image.len(),
            message.as_ptr(),
            message.len(),
            list.as_mut_ptr(),
            list.len(),
        )
    }
}

pub fn type6_judge(image: &[u8], message: &[u8], list: &[u8]) -> u64 {
    // SAFETY: pointers and lengths come from slices and references that live through the call.
    unsafe {
        c::zan_type6_judge(
            image.as_ptr(),
            image.len(),
            message.as_ptr(),
            message.len(),
            list.as_ptr(),
            list.len(),
        )
    }
}

#[inline]
pub fn type6_model(image: &mut [u8], command: &[u8]) -> u64 {
    let (image, image_len) = (image.as_mut_ptr(), image.len());
    // SAFETY: pointers and lengths come from slices and references that live through the call.
    unsafe { c::zan_type6_model(image, image_len, command.as_ptr(), command.len()) }
}

pub fn type6_encode(
    block: u64,
    data: &[u8; 32],
    block_size: u64,
    blocks: u64,
    bytes: &mut [u8],
) -> u64 {
    let (bytes, bytes_len) = (bytes.as_mut_ptr(), bytes.len());
    // SAFETY: pointers and lengths come from slices and references that live through the call.
    unsafe { c::zan_type6_encode(block, data.as_ptr(), block_size, blocks, bytes, bytes_len) }
}

pub fn type6_decode(
    bytes: &[u8],
    block_size: u64,
    blocks: u64,
    block: &mut u64,
    data: &mut [u8; 32],
) -> u64 {
    let data = data.as_mut_ptr();
    let (bytes, bytes_len) = (bytes.as_ptr(), bytes.len());
    // SAFETY: pointers and lengths come from slices and references that live through the call.
    unsafe { c::zan_type6_decode(bytes, bytes_len, block_size, blocks, block, data) }
}
