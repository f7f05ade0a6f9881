//! The calls of `include/rap.h`, as they are, and a safe call for each. All of this package that is unsafe stands here.
//!
//! This module is no part of the interface of the Rust crate: it is public for the tests of the package.
//!
//! - `declarations` has what the header declares,
//! - `room` the rooms that a thread keeps,
//! - `words` the reader of a tree in words,
//! - `nodes` the calls for trees in one list,
//! - `literals` the calls for values of literals,
//! - `outside` the call that tells whether a text is in the core grammar,
//! - `stack` the stacks on which calls parse,
//! - `status` the statuses, and `processor` what the library needs of the processor.
#![allow(unsafe_code)]

mod declarations;
mod literals;
mod nodes;
mod outside;
mod processor;
mod room;
mod stack;
mod status;
mod words;

pub use declarations::*;
pub use literals::{number_value, string_value};
pub use nodes::{Nodes, keep_elements, lexer_places, nodes};
pub use outside::{is_derived, outside_core};
pub(crate) use status::check_status;
pub(crate) use words::Woven;

use std::sync::Arc;

/// Frees what the thread keeps from one text to the next.
pub(crate) fn release_thread_memory() {
    room::release();
    stack::release();
}

/// What a call filled: its status, all its steps, and all bytes of its messages.
#[derive(Debug, Default)]
pub(crate) struct Filled<T = Step> {
    pub(crate) status: u32,
    pub(crate) steps: Vec<T>,
    pub(crate) messages: Vec<u8>,
    pub(crate) used: usize,
}

impl Filled {
    /// The message of a step, which a call of the library gave.
    pub(crate) fn message(&self, step: &Step) -> &str {
        std::str::from_utf8(&self.messages[step.start..step.end]).expect("messages are UTF-8")
    }
}

/// A call with the room that it fills: steps and how many there is room for, bytes of messages and how many.
type Fill<'a, T> = &'a dyn Fn(*mut T, usize, *mut u8, usize) -> Answer;

/// Calls with this room for steps, and for so many bytes of messages, and calls once more where that was too little.
/// What is not used of the room takes no memory.
///
/// # Safety
///
/// The call must be one of the library's: it writes from the pointers' begin on no more than there is room for, and
/// what it answers is how many steps and bytes there are in all, of which it has written those that there is room for.
unsafe fn fill<T>(mut steps: Vec<T>, message_room: usize, call: Fill<'_, T>) -> Filled<T> {
    processor::check();
    let mut messages: Vec<u8> = Vec::with_capacity(message_room);
    loop {
        let (step_room, message_room) = (steps.capacity(), messages.capacity());
        let answer = call(steps.as_mut_ptr(), step_room, messages.as_mut_ptr(), message_room);
        if answer.steps <= step_room && answer.message_bytes <= message_room {
            // SAFETY: so many steps and bytes fit the room, so the call has written all of them.
            unsafe {
                steps.set_len(answer.steps);
                messages.set_len(answer.message_bytes);
            }
            return Filled { status: answer.status, steps, messages, used: answer.used };
        }
        steps.reserve_exact(answer.steps);
        messages.reserve_exact(answer.message_bytes);
    }
}

/// Makes a call that parses so many records, on a stack that is large enough for them.
fn call_on_stack<A>(records: usize, call: impl Fn() -> A) -> A {
    match stack::call_on(records, call) {
        Some(answer) => answer,
        None => panic!("no stack of {} bytes can be had, for {records} tokens", stack::size_for(records)),
    }
}

/// Makes a call that parses a text, on a stack that is large enough for it.
fn call_on_stack_of<A>(text: &str, edition: u32, call: impl Fn() -> A) -> A {
    // A text has no more tokens than bytes. They are counted only where the system has no stack for so many.
    stack::call_on(text.len(), &call).unwrap_or_else(|| call_on_stack(count_of_records(text, edition), &call))
}

/// How many words a text's tree has at most, and its messages bytes, as a first guess.
fn guess(text: &str) -> (usize, usize) {
    (2 * text.len() + 64, text.len() + 64)
}

/// The tree of a text, by `rap_tree_words`.
pub(crate) fn tree(text: &Arc<str>, edition: u32, entry: u32) -> Woven {
    let (word_room, message_room) = guess(text);
    // SAFETY: the text is valid for its length, the room is what `fill` gives, which overlaps nothing, and
    // `rap_tree_words` fills it as the header says: with the words of this text's tree.
    unsafe {
        let filled = fill(room::take(word_room), message_room, &|words, n, bytes, m| {
            call_on_stack_of(text, edition, || {
                rap_tree_words(text.as_ptr(), text.len(), edition, entry, words, n, bytes, m)
            })
        });
        Woven::of(text.clone(), filled)
    }
}

/// The parts of a script source, or what refuses it, by `rap_script`, with the message.
pub(crate) fn script(text: &str) -> Filled<Part> {
    // SAFETY: as in `tree`, by `rap_script`.
    unsafe {
        fill(Vec::with_capacity(6), 128, &|parts, n, bytes, m| {
            rap_script(text.as_ptr(), text.len(), parts, n, bytes, m)
        })
    }
}

/// Where the shebang of a text ends, or 0, by `rap_shebang`.
pub(crate) fn shebang(text: &str) -> usize {
    processor::check();
    // SAFETY: the text is valid for its length.
    let answer = unsafe { rap_shebang(text.as_ptr(), text.len()) };
    check_status(answer.status, &[]);
    answer.used
}

/// Where the blank lines at the begin of a text end, or 0, by `rap_blank_lines`.
pub(crate) fn blank_lines(text: &str) -> usize {
    processor::check();
    // SAFETY: the text is valid for its length.
    let answer = unsafe { rap_blank_lines(text.as_ptr(), text.len()) };
    check_status(answer.status, &[]);
    answer.used
}

/// The tokens of a text, by `rap_tokens`.
pub(crate) fn tokens(text: &str, edition: u32) -> Filled {
    // SAFETY: as in `tree`.
    unsafe {
        fill(Vec::with_capacity(text.len() / 2 + 64), text.len() / 2 + 64, &|steps, n, bytes, m| {
            rap_tokens(text.as_ptr(), text.len(), edition, steps, n, bytes, m)
        })
    }
}

/// What a parser reads of a text, by `rap_records`, and the status.
pub(crate) fn records(text: &str, edition: u32) -> (u32, Vec<Record>) {
    // SAFETY: as in `tree`; there are no messages.
    let filled = unsafe {
        fill(Vec::with_capacity(text.len() / 3 + 64), 0, &|records, n, _, _| {
            rap_records(text.as_ptr(), text.len(), edition, records, n)
        })
    };
    (filled.status, filled.steps)
}

/// How many records a text has, by `rap_records`.
fn count_of_records(text: &str, edition: u32) -> usize {
    let mut none = Vec::new();
    // SAFETY: the text is valid for its length, and there is room for no record.
    let answer = unsafe { rap_records(text.as_ptr(), text.len(), edition, none.as_mut_ptr(), 0) };
    check_status(answer.status, &[]);
    answer.steps
}

/// Room for the steps and for the bytes of messages of a parse of so many records, as a first guess.
fn room_of(records: &[Record]) -> (Vec<Step>, usize) {
    let room = 4 * records.len() + 64;
    (Vec::with_capacity(room), room)
}

/// A parse of records as a whole, by `rap_parse`.
pub(crate) fn parse(records: &[Record], entry: u32) -> Filled {
    let (steps, message_room) = room_of(records);
    // SAFETY: the records are valid for their number, and the rest is as in `tree`.
    unsafe {
        fill(steps, message_room, &|steps, n, bytes, m| {
            call_on_stack(records.len(), || rap_parse(records.as_ptr(), records.len(), entry, steps, n, bytes, m))
        })
    }
}

/// A parse of the front of records, by `rap_parse_prefix`.
pub(crate) fn parse_prefix(records: &[Record], entry: u32) -> Filled {
    let (steps, message_room) = room_of(records);
    // SAFETY: as in `parse`.
    unsafe {
        fill(steps, message_room, &|steps, n, bytes, m| {
            call_on_stack(records.len(), || {
                rap_parse_prefix(records.as_ptr(), records.len(), entry, steps, n, bytes, m)
            })
        })
    }
}

/// A parse of a node's own records, by `rap_parse_node`. The node is its kind, that of its first child and that of the
/// node around it.
pub(crate) fn parse_node(records: &[Record], node: (u32, u32, u32)) -> Filled {
    let (steps, message_room) = room_of(records);
    // SAFETY: as in `parse`.
    unsafe {
        fill(steps, message_room, &|steps, n, bytes, m| {
            call_on_stack(records.len(), || {
                rap_parse_node(records.as_ptr(), records.len(), node.0, node.1, node.2, steps, n, bytes, m)
            })
        })
    }
}

/// A tree over a text's tokens with the trivia put back, by `rap_weave`.
pub(crate) fn weave(text: &str, edition: u32, tree: &Filled) -> Filled {
    let (given, bytes_given) = (&tree.steps, &tree.messages);
    let room = 2 * given.len() + text.len() / 4 + 64;
    // SAFETY: the text, the steps and the messages are valid for their lengths, and the rest is as in `tree`.
    unsafe {
        fill(Vec::with_capacity(room), room, &|steps, n, bytes, m| {
            rap_weave(
                text.as_ptr(),
                text.len(),
                edition,
                given.as_ptr(),
                given.len(),
                bytes_given.as_ptr(),
                bytes_given.len(),
                steps,
                n,
                bytes,
                m,
            )
        })
    }
}
