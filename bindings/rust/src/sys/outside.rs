//! Whether a text is in the core grammar, as `rap_core` tells: for the package `rap_tree`.
use super::{CoreAnswer, Place, call_on_stack_of, check_status, processor, rap_core};
use crate::Edition;

/// Asks of a text with room for so many places, which are those of the array.
fn asked(text: &str, edition: Edition, places: &mut Vec<Place>) -> CoreAnswer {
    processor::check();
    let (first, room, edition) = (places.as_mut_ptr(), places.capacity(), edition.year());
    // SAFETY: the text is valid for its length, and the array is for its room. They do not overlap.
    let ask = || unsafe { rap_core(text.as_ptr(), text.len(), edition, first, room) };
    let answer = call_on_stack_of(text, edition, ask);
    check_status(answer.status, &[]);
    answer
}

/// Whether the core grammar derives a text as a file, and the lexer has no message, by `rap_core`.
///
/// # Panics
///
/// Where [`crate::TopEntryPoint::parse`] does.
#[must_use]
pub fn is_derived(text: &str, edition: Edition) -> bool {
    asked(text, edition, &mut Vec::new()).derived == 1
}

/// What of a text is outside of the core grammar as a file, by `rap_core`: tokens, and after them nodes.
///
/// # Panics
///
/// Where [`crate::TopEntryPoint::parse`] does.
#[must_use]
pub fn outside_core(text: &str, edition: Edition) -> Vec<Place> {
    let mut places = Vec::with_capacity(64);
    let mut answer = asked(text, edition, &mut places);
    if answer.places > places.capacity() {
        places.reserve_exact(answer.places);
        answer = asked(text, edition, &mut places);
    }
    assert!(answer.places <= places.capacity(), "the same text has the same places");
    // SAFETY: so many fit the room, so the call has written all of them.
    unsafe { places.set_len(answer.places) };
    places
}
