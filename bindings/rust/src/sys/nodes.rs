//! A text's tree in one list, as `rap_nodes` writes it: for the package `rap_tree`.
use super::{Element, MESSAGE, Message, NO_PARENT};
use super::{call_on_stack_of, check_status, processor, rap_nodes, rap_tokens, room, tokens};
use crate::{Edition, TopEntryPoint};

/// A text's tree in one list, and the messages about it.
#[derive(Debug)]
pub struct Nodes {
    /// The nodes and leaves, in preorder.
    pub elements: Vec<Element>,
    /// The messages in the order of the text. Of two at one byte the parser's comes before the lexer's.
    pub messages: Vec<Message>,
    /// The texts of the messages, joined.
    texts: String,
}

impl Nodes {
    /// What a message says.
    #[must_use]
    pub fn text_of(&self, message: &Message) -> &str {
        &self.texts[message.text_start..message.text_end]
    }
}

/// For how many bytes of messages there is room at first, at most. A message has about 16.
const MOST_BYTES: usize = 1 << 14;

/// Arrays that a call fills.
struct Rooms {
    elements: Vec<Element>,
    messages: Vec<Message>,
    bytes: Vec<u8>,
}

impl Rooms {
    /// Room for a text's tree and its messages, as a first guess: most texts have half as many elements, and few have
    /// more. What is not used of it takes no memory.
    fn for_text(text: &str) -> Rooms {
        let (elements, bytes) = (text.len() / 8 * 7 + 64, text.len().min(MOST_BYTES) + 64);
        Rooms { elements: room::take_elements(elements), messages: room::anew(bytes / 16), bytes: room::anew(bytes) }
    }

    /// Fills the arrays with a text's tree, and returns whether they had room for all of it. If not, they are empty and
    /// have it now.
    fn fill(&mut self, text: &str, edition: u32, entry: u32) -> bool {
        let Rooms { elements, messages, bytes } = self;
        let rooms = (elements.capacity(), messages.capacity(), bytes.capacity());
        let first = (elements.as_mut_ptr(), messages.as_mut_ptr(), bytes.as_mut_ptr());
        let (at, length) = (text.as_ptr(), text.len());
        // SAFETY: the text is valid for its length, and the arrays are for their room. They overlap nothing.
        let answer = call_on_stack_of(text, edition, || unsafe {
            rap_nodes(at, length, edition, entry, first.0, rooms.0, first.1, rooms.1, first.2, rooms.2)
        });
        check_status(answer.status, &[]);
        // Of more elements the call writes only so many.
        assert!(answer.elements < NO_PARENT as usize, "the tree has less than 4,294,967,295 elements");
        if answer.elements > rooms.0 || answer.messages > rooms.1 || answer.message_bytes > rooms.2 {
            elements.reserve_exact(answer.elements);
            messages.reserve_exact(answer.messages);
            bytes.reserve_exact(answer.message_bytes);
            return false;
        }
        // SAFETY: so many fit the room, so the call has written all of them.
        unsafe {
            elements.set_len(answer.elements);
            messages.set_len(answer.messages);
            bytes.set_len(answer.message_bytes);
        }
        true
    }
}

/// The tree of a text in one list, and the messages about it, by `rap_nodes`.
///
/// # Panics
///
/// Where [`TopEntryPoint::parse`] does.
#[must_use]
pub fn nodes(text: &str, edition: Edition, entry: &TopEntryPoint) -> Nodes {
    processor::check();
    let mut rooms = Rooms::for_text(text);
    while !rooms.fill(text, edition.year(), entry.number()) {}
    let Rooms { mut elements, messages, bytes } = rooms;
    room::trim_elements(&mut elements);
    Nodes { elements, messages, texts: String::from_utf8(bytes).expect("messages are UTF-8") }
}

/// Keeps the room of a long list that is no longer used, for the next text of this thread.
pub fn keep_elements(elements: Vec<Element>) {
    room::keep_elements(elements);
}

/// The bytes of a text at which the lexer has messages, in their order, by `rap_tokens`.
///
/// # Panics
///
/// For a text of more than 4,294,967,295 bytes, and if the call is out of memory.
#[must_use]
pub fn lexer_places(text: &str, edition: Edition) -> Vec<usize> {
    processor::check();
    let (mut steps, mut bytes) = (Vec::new(), Vec::new());
    let (step, byte) = (steps.as_mut_ptr(), bytes.as_mut_ptr());
    // SAFETY: the text is valid for its length, and there is room for nothing.
    let counted = unsafe { rap_tokens(text.as_ptr(), text.len(), edition.year(), step, 0, byte, 0) };
    check_status(counted.status, &[]);
    if counted.message_bytes == 0 {
        return Vec::new();
    }
    let filled = tokens(text, edition.year());
    check_status(filled.status, &[]);
    filled.steps.iter().filter(|step| step.what == MESSAGE).map(|step| step.at).collect()
}
