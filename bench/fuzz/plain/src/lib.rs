//! The second implementation of the bench, for a caller in C.

#[path = "../../../src/reference.rs"]
mod reference;

/// # Safety
/// Both pointers are valid for their lengths, and what they point to does not overlap.
#[no_mangle]
pub unsafe extern "C" fn plain_margin(text: *const u8, text_length: usize, answer: *mut u8, answer_length: usize) -> i64 {
    let (text, answer) = unsafe {
        (std::slice::from_raw_parts(text, text_length), std::slice::from_raw_parts_mut(answer, answer_length))
    };
    reference::margin(text, answer)
}
