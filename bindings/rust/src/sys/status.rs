//! The statuses of the calls, and which of them can come.
use super::{NO_MEMORY, OK, TEXT_TOO_LONG, TOO_MANY_TOKENS};

/// The names of the statuses by their numbers, as `enum rap_status` has them.
const NAMES: [&str; 15] = [
    "RAP_OK",
    "RAP_NO_TREE",
    "RAP_NO_EDITION",
    "RAP_NO_ENTRY",
    "RAP_NOT_UTF8",
    "RAP_TEXT_TOO_LONG",
    "RAP_TOO_MANY_TOKENS",
    "RAP_NO_MEMORY",
    "RAP_NO_NODE",
    "RAP_NO_BRACE",
    "RAP_NO_RECORD",
    "RAP_NO_STEPS",
    "RAP_NO_SCRIPT",
    "RAP_NO_LITERAL",
    "RAP_NO_NUMBER",
];

/// Returns for `RAP_OK`, and for the statuses that the caller tells apart itself.
///
/// Panics for each other status: for a text that is too long or has too many tokens, if memory is out, and for a status
/// that cannot come, with its name.
#[inline]
#[track_caller]
pub(crate) fn check_status(status: u32, told_apart: &[u32]) {
    if status != OK && !told_apart.contains(&status) {
        refuse(status);
    }
}

#[cold]
#[track_caller]
fn refuse(status: u32) -> ! {
    match status {
        TEXT_TOO_LONG => panic!("the text has more than 4,294,967,295 bytes"),
        TOO_MANY_TOKENS => panic!("there are more than 8,388,607 tokens that are no trivia"),
        NO_MEMORY => panic!("out of memory"),
        _ => match NAMES.get(status as usize) {
            Some(name) => panic!("the library returned {name}, which this call cannot have"),
            None => panic!("the library returned {status}, which is no status"),
        },
    }
}

#[cfg(test)]
mod tests {
    use super::check_status;
    use crate::sys::NO_TREE;
    use std::panic::catch_unwind;

    /// How a status is refused, if it is.
    fn refusal(status: u32, told_apart: &'static [u32]) -> Option<String> {
        let caught = catch_unwind(|| check_status(status, told_apart)).err()?;
        let said = caught.downcast_ref::<&str>().map(|text| text.to_string());
        said.or_else(|| caught.downcast_ref::<String>().cloned())
    }

    #[test]
    fn names_what_cannot_come() {
        assert_eq!([refusal(0, &[]), refusal(1, &[NO_TREE])], [None, None]);
        let cannot_come = |name| Some(format!("the library returned {name}, which this call cannot have"));
        for (status, name) in [
            (1, "RAP_NO_TREE"),
            (2, "RAP_NO_EDITION"),
            (3, "RAP_NO_ENTRY"),
            (4, "RAP_NOT_UTF8"),
            (8, "RAP_NO_NODE"),
            (9, "RAP_NO_BRACE"),
            (10, "RAP_NO_RECORD"),
            (11, "RAP_NO_STEPS"),
            (12, "RAP_NO_SCRIPT"),
            (13, "RAP_NO_LITERAL"),
            (14, "RAP_NO_NUMBER"),
        ] {
            assert_eq!(refusal(status, &[]), cannot_come(name));
        }
        assert_eq!(refusal(15, &[NO_TREE]).as_deref(), Some("the library returned 15, which is no status"));
    }

    #[test]
    fn says_what_is_too_much() {
        assert_eq!(refusal(5, &[]).as_deref(), Some("the text has more than 4,294,967,295 bytes"));
        assert_eq!(refusal(6, &[]).as_deref(), Some("there are more than 8,388,607 tokens that are no trivia"));
        assert_eq!(refusal(7, &[]).as_deref(), Some("out of memory"));
    }
}
