//! The archive's seven calls, and the only unsafe code of this crate.
//!
//! A slice passes as a pointer and then a length. The calls are proved to read
//! and write within the slices they are given, to keep nothing of them, and to
//! end.

mod c {
    unsafe extern "C" {
        pub fn minutefrost_take_frame(
            image: *const u8,
            image_len: usize,
            frame: *const u8,
            frame_len: usize,
            out: *mut u8,
            out_len: usize,
        ) -> i64;

        pub fn minutefrost_beat(
            image: *const u8,
            image_len: usize,
            out: *mut u8,
            out_len: usize,
            frames: *mut u8,
            frames_len: usize,
        ) -> i64;

        pub fn minutefrost_enter(
            image: *const u8,
            image_len: usize,
            key: u64,
            out: *mut u8,
            out_len: usize,
        ) -> i64;

        pub fn minutefrost_count(image: *const u8, image_len: usize) -> i64;

        pub fn minutefrost_sheet(
            image: *const u8,
            image_len: usize,
            out: *mut u8,
            out_len: usize,
        ) -> i64;

        pub fn minutefrost_join(
            first: *const u8,
            first_len: usize,
            second: *const u8,
            second_len: usize,
            out: *mut u8,
            out_len: usize,
        ) -> i64;

        pub fn minutefrost_opening_cost(keys: usize) -> i64;
    }
}

/// The new image's length, or minus the number of the refusal.
pub fn take_frame(image: &[u8], frame: &[u8], out: &mut [u8]) -> i64 {
    // SAFETY: each pointer comes with the length of its slice, and the slice
    // that is written overlaps none that is read.
    unsafe {
        c::minutefrost_take_frame(
            image.as_ptr(),
            image.len(),
            frame.as_ptr(),
            frame.len(),
            out.as_mut_ptr(),
            out.len(),
        )
    }
}

/// The frames' length, or minus the number of the refusal.
pub fn beat(image: &[u8], out: &mut [u8], frames: &mut [u8]) -> i64 {
    // SAFETY: each pointer comes with the length of its slice, and neither of
    // the slices that are written overlaps another.
    unsafe {
        c::minutefrost_beat(
            image.as_ptr(),
            image.len(),
            out.as_mut_ptr(),
            out.len(),
            frames.as_mut_ptr(),
            frames.len(),
        )
    }
}

/// The new image's length, or minus the number of the refusal.
pub fn enter(image: &[u8], key: u64, out: &mut [u8]) -> i64 {
    // SAFETY: each pointer comes with the length of its slice, and the slice
    // that is written doesn't overlap the one that is read.
    unsafe {
        c::minutefrost_enter(
            image.as_ptr(),
            image.len(),
            key,
            out.as_mut_ptr(),
            out.len(),
        )
    }
}

/// How many keys the image holds, or minus the number of the refusal.
pub fn count(image: &[u8]) -> i64 {
    // SAFETY: the pointer comes with the length of its slice, and nothing is
    // written.
    unsafe { c::minutefrost_count(image.as_ptr(), image.len()) }
}

/// The sheet's length, or minus the number of the refusal.
pub fn sheet(image: &[u8], out: &mut [u8]) -> i64 {
    // SAFETY: each pointer comes with the length of its slice, and the slice
    // that is written doesn't overlap the one that is read.
    unsafe { c::minutefrost_sheet(image.as_ptr(), image.len(), out.as_mut_ptr(), out.len()) }
}

/// The joined image's length, or minus the number of the refusal.
pub fn join(first: &[u8], second: &[u8], out: &mut [u8]) -> i64 {
    // SAFETY: each pointer comes with the length of its slice, and the slice
    // that is written overlaps none that is read. Those two may be the same.
    unsafe {
        c::minutefrost_join(
            first.as_ptr(),
            first.len(),
            second.as_ptr(),
            second.len(),
            out.as_mut_ptr(),
            out.len(),
        )
    }
}

/// The deliveries that fill an empty store with so many keys, or minus the
/// number of the refusal.
pub fn opening_cost(keys: usize) -> i64 {
    // SAFETY: a number passes, and nothing is lent.
    unsafe { c::minutefrost_opening_cost(keys) }
}
