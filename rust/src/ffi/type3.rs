//! The calls for Type 3 tags.

mod c {
    unsafe extern "C" {
        pub fn zan_type3_read(image: *const u8, image_len: usize, out: *mut u64) -> u64;
        pub fn zan_type3_write(
            image: *const u8,
            image_len: usize,
            message: *const u8,
            message_len: usize,
            idm: *const u8,
            list: *mut u8,
            list_len: usize,
        ) -> u64;
        pub fn zan_type3_command_len(list: *const u8, list_len: usize) -> u64;
        pub fn zan_type3_judge(
            image: *const u8,
            image_len: usize,
            message: *const u8,
            message_len: usize,
            idm: *const u8,
            list: *const u8,
            list_len: usize,
        ) -> u64;
        pub fn zan_type3_model(
            image: *mut u8,
            image_len: usize,
            idm: *const u8,
            command: *const u8,
            command_len: usize,
        ) -> u64;
        pub fn zan_type3_encode(
            count: u64,
            blocks: *const u64,
            data: *const u8,
            idm: *const u8,
            nbw: u64,
            nmaxb: u64,
            bytes: *mut u8,
            bytes_len: usize,
        ) -> u64;
        pub fn zan_type3_decode(
            bytes: *const u8,
            bytes_len: usize,
            idm: *const u8,
            nbw: u64,
            nmaxb: u64,
            count: *mut u64,
            blocks: *mut u64,
            data: *mut u8,
        ) -> u64;
    }
}

#[inline]
pub fn type3_read(image: &[u8], out: &mut [u64; 6]) -> u64 {
    // SAFETY: pointers and lengths come from slices and references that live through the call.
    unsafe { c::zan_type3_read(image.as_ptr(), image.len(), out.as_mut_ptr()) }
}

pub fn type3_write(image: &[u8], message: &[u8], idm: &[u8; 8], list: &mut [u8]) -> u64 {
    // SAFETY: pointers and lengths come from slices and references that live through the call.
    unsafe {
        c::zan_type3_write(
            image.as_ptr(),
            image.len(),
            message.as_ptr(),
            message.len(),
            idm.as_ptr(),
            list.as_mut_ptr(),
            list.len(),
        )
    }
}

#[inline]
pub fn type3_command_len(list: &[u8]) -> u64 {
    // SAFETY: pointers and lengths come from slices and references that live through the call.
    unsafe { c::zan_type3_command_len(list.as_ptr(), list.len()) }
}

pub fn type3_judge(image: &[u8], message: &[u8], idm: &[u8; 8], list: &[u8]) -> u64 {
    // SAFETY: pointers and lengths come from slices and references that live through the call.
    unsafe {
        c::zan_type3_judge(
            image.as_ptr(),
            image.len(),
            message.as_ptr(),
            message.len(),
            idm.as_ptr(),
            list.as_ptr(),
            list.len(),
        )
    }
}

#[inline]
pub fn type3_model(image: &mut [u8], idm: &[u8; 8], command: &[u8]) -> u64 {
    // SAFETY: pointers and lengths come from slices and references that live through the call.
    unsafe {
        c::zan_type3_model(
            image.as_mut_ptr(),
            image.len(),
            idm.as_ptr(),
            command.as_ptr(),
            command.len(),
        )
    }
}

pub fn type3_encode(
    (count, blocks, data): (u64, &[u64; 8], &[u8; 128]),
    idm: &[u8; 8],
    nbw: u64,
    nmaxb: u64,
    bytes: &mut [u8],
) -> u64 {
    // SAFETY: pointers and lengths come from slices and references that live through the call.
    unsafe {
        c::zan_type3_encode(
            count,
            blocks.as_ptr(),
            data.as_ptr(),
            idm.as_ptr(),
            nbw,
            nmaxb,
            bytes.as_mut_ptr(),
            bytes.len(),
        )
    }
}

pub fn type3_decode(
    bytes: &[u8],
    idm: &[u8; 8],
    nbw: u64,
    nmaxb: u64,
    (count, blocks, data): (&mut u64, &mut [u64; 8], &mut [u8; 128]),
) -> u64 {
    // SAFETY: pointers and lengths come from slices and references that live through the call.
    unsafe {
        c::zan_type3_decode(
            bytes.as_ptr(),
            bytes.len(),
            idm.as_ptr(),
            nbw,
            nmaxb,
            count,
            blocks.as_mut_ptr(),
            data.as_mut_ptr(),
        )
    }
}
