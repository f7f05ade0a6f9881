//! The values of literals, as `rap_string_value` and `rap_number_value` give them: for the package `rap_tree`.
use super::{NO_LITERAL, NO_NUMBER, NumberValue, check_status, processor, rap_number_value, rap_string_value};
use crate::SyntaxKind;

/// The bytes that a string, a byte string or a C string stands for. None if the text is no literal of the kind, or if the
/// lexer reports something about it.
///
/// # Panics
///
/// If memory is out.
#[must_use]
pub fn string_value(kind: SyntaxKind, text: &str) -> Option<Vec<u8>> {
    processor::check();
    let mut value: Vec<u8> = Vec::with_capacity(text.len());
    let (room, at) = (value.capacity(), value.as_mut_ptr());
    // SAFETY: the text is valid for its length, and the array is for its room. They do not overlap.
    let answer = unsafe { rap_string_value(text.as_ptr(), text.len(), kind as u32, at, room) };
    check_status(answer.status, &[NO_LITERAL]);
    assert!(answer.bytes <= room, "no string stands for more bytes than its text has");
    // SAFETY: so many fit the room, so the call has written all of them.
    unsafe { value.set_len(answer.bytes) };
    (answer.status != NO_LITERAL).then_some(value)
}

/// The value of an integer, a float, a character or a byte. None if the text is no literal of the kind, or if the lexer
/// reports something about it.
///
/// # Panics
///
/// If memory is out.
#[must_use]
pub fn number_value(kind: SyntaxKind, text: &str) -> Option<NumberValue> {
    processor::check();
    // SAFETY: the text is valid for its length.
    let answer = unsafe { rap_number_value(text.as_ptr(), text.len(), kind as u32) };
    check_status(answer.status, &[NO_LITERAL, NO_NUMBER]);
    (answer.status != NO_LITERAL).then_some(answer)
}
