//! What `include/rap.h` declares, as it is: structs, numbers and calls.
#![allow(missing_docs)]

use crate::SyntaxKind;

/// A step, as `struct rap_step`.
#[repr(C)]
#[derive(Clone, Copy, Debug, Default, PartialEq, Eq)]
pub struct Step {
    pub what: u32,
    pub kind: u32,
    pub at: usize,
    pub start: usize,
    pub end: usize,
}

/// A token that a parser reads, as `struct rap_record`.
#[repr(C)]
#[derive(Clone, Copy, Debug, Default, PartialEq, Eq)]
pub struct Record {
    pub kind: u32,
    pub contextual_kind: u32,
    pub edition: u32,
    pub joint: u32,
}

/// A part of a script source, as `struct rap_part`.
#[repr(C)]
#[derive(Clone, Copy, Debug, Default, PartialEq, Eq)]
pub struct Part {
    pub there: usize,
    pub start: usize,
    pub end: usize,
}

/// An answer, as `struct rap_answer`.
#[repr(C)]
#[derive(Clone, Copy, Debug, Default, PartialEq, Eq)]
pub struct Answer {
    pub status: u32,
    pub steps: usize,
    pub message_bytes: usize,
    pub used: usize,
}

/// A node or a leaf in the list of a tree, as `struct rap_element`.
///
/// Its kind is always the number of one: the library writes no other, and [`Element::new`] takes none.
#[repr(C)]
#[derive(Clone, Copy, Debug, PartialEq, Eq)]
pub struct Element {
    kind: u32,
    pub start: u32,
    pub end: u32,
    pub after: u32,
    pub parent: u32,
}

const _: () = assert!(size_of::<Element>() == 20);

impl Element {
    #[must_use]
    pub fn new(kind: SyntaxKind, start: u32, end: u32, after: u32, parent: u32) -> Element {
        Element { kind: kind as u32, start, end, after, parent }
    }

    #[inline(always)]
    #[must_use]
    pub fn kind(&self) -> SyntaxKind {
        // SAFETY: it is the number of a kind, from 0 to 329, and the enum has these numbers.
        unsafe { std::mem::transmute::<u16, SyntaxKind>(self.kind as u16) }
    }
}

/// A message about a text, as `struct rap_message`.
#[repr(C)]
#[derive(Clone, Copy, Debug, Default, PartialEq, Eq)]
pub struct Message {
    pub at: usize,
    pub start: usize,
    pub end: usize,
    pub text_start: usize,
    pub text_end: usize,
}

/// An answer with a tree in one list, as `struct rap_nodes_answer`.
#[repr(C)]
#[derive(Clone, Copy, Debug, Default, PartialEq, Eq)]
pub struct NodesAnswer {
    pub status: u32,
    pub elements: usize,
    pub messages: usize,
    pub message_bytes: usize,
    pub used: usize,
}

/// A token or a node that is outside of the core grammar, as `struct rap_place`.
///
/// Its kind is always the number of one: the library writes no other.
#[repr(C)]
#[derive(Clone, Copy, Debug, PartialEq, Eq)]
pub struct Place {
    kind: u32,
    pub is_token: u32,
    pub start: usize,
    pub end: usize,
}

impl Place {
    #[must_use]
    pub fn new(kind: SyntaxKind, is_token: u32, start: usize, end: usize) -> Place {
        Place { kind: kind as u32, is_token, start, end }
    }

    #[must_use]
    pub fn kind(&self) -> SyntaxKind {
        // SAFETY: it is the number of a kind, from 0 to 329, and the enum has these numbers.
        unsafe { std::mem::transmute::<u16, SyntaxKind>(self.kind as u16) }
    }
}

/// Whether a text is in the core grammar, as `struct rap_core_answer`.
#[repr(C)]
#[derive(Clone, Copy, Debug, Default, PartialEq, Eq)]
pub struct CoreAnswer {
    pub status: u32,
    pub derived: u32,
    pub places: usize,
    pub used: usize,
}

/// What a string stands for, as `struct rap_string`.
#[repr(C)]
#[derive(Clone, Copy, Debug, Default, PartialEq, Eq)]
pub struct StringValue {
    pub status: u32,
    pub bytes: usize,
}

/// What another literal stands for, as `struct rap_number`.
#[repr(C)]
#[derive(Clone, Copy, Debug, Default, PartialEq)]
pub struct NumberValue {
    pub status: u32,
    pub radix: u32,
    pub low: u64,
    pub high: u64,
    pub real: f64,
    pub suffix: usize,
}

pub const ENTER: u32 = 0;
pub const EXIT: u32 = 1;
pub const TOKEN: u32 = 2;
pub const MESSAGE: u32 = 3;
pub const SPLIT: u32 = 4;

pub const OK: u32 = 0;
pub const NO_TREE: u32 = 1;
pub const TEXT_TOO_LONG: u32 = 5;
pub const TOO_MANY_TOKENS: u32 = 6;
pub const NO_MEMORY: u32 = 7;
pub const NO_NODE: u32 = 8;
pub const NO_BRACE: u32 = 9;
pub const NO_RECORD: u32 = 10;
pub const NO_STEPS: u32 = 11;
pub const NO_SCRIPT: u32 = 12;
pub const NO_LITERAL: u32 = 13;
pub const NO_NUMBER: u32 = 14;

/// What a token's word holds in the place of its length where a second word has it, as `RAP_LONG`.
pub const LONG: u32 = 8191;

/// A number that is no kind's, as `RAP_NO_KIND`.
pub const NO_KIND: u32 = 330;

/// The parent of a list's root, as `RAP_NO_PARENT`.
pub const NO_PARENT: u32 = u32::MAX;

/// The version of the interface that is declared here, as `RAP_VERSION`.
pub const VERSION: u32 = 1_002_000;

unsafe extern "C" {
    pub fn rap_tree(
        text: *const u8,
        text_length: usize,
        edition: u32,
        entry: u32,
        steps: *mut Step,
        step_room: usize,
        messages: *mut u8,
        message_room: usize,
    ) -> Answer;

    pub fn rap_core(
        text: *const u8,
        text_length: usize,
        edition: u32,
        places: *mut Place,
        place_room: usize,
    ) -> CoreAnswer;

    pub fn rap_tokens(
        text: *const u8,
        text_length: usize,
        edition: u32,
        steps: *mut Step,
        step_room: usize,
        messages: *mut u8,
        message_room: usize,
    ) -> Answer;

    pub fn rap_prefix(
        text: *const u8,
        text_length: usize,
        edition: u32,
        entry: u32,
        steps: *mut Step,
        step_room: usize,
        messages: *mut u8,
        message_room: usize,
    ) -> Answer;

    pub fn rap_reparse(
        text: *const u8,
        text_length: usize,
        edition: u32,
        node: u32,
        first_child: u32,
        parent: u32,
        steps: *mut Step,
        step_room: usize,
        messages: *mut u8,
        message_room: usize,
    ) -> Answer;

    pub fn rap_records(
        text: *const u8,
        text_length: usize,
        edition: u32,
        records: *mut Record,
        record_room: usize,
    ) -> Answer;

    pub fn rap_parse(
        records: *const Record,
        record_count: usize,
        entry: u32,
        steps: *mut Step,
        step_room: usize,
        messages: *mut u8,
        message_room: usize,
    ) -> Answer;

    pub fn rap_parse_prefix(
        records: *const Record,
        record_count: usize,
        entry: u32,
        steps: *mut Step,
        step_room: usize,
        messages: *mut u8,
        message_room: usize,
    ) -> Answer;

    pub fn rap_parse_node(
        records: *const Record,
        record_count: usize,
        node: u32,
        first_child: u32,
        parent: u32,
        steps: *mut Step,
        step_room: usize,
        messages: *mut u8,
        message_room: usize,
    ) -> Answer;

    pub fn rap_weave(
        text: *const u8,
        text_length: usize,
        edition: u32,
        tree: *const Step,
        tree_steps: usize,
        tree_messages: *const u8,
        tree_message_bytes: usize,
        steps: *mut Step,
        step_room: usize,
        messages: *mut u8,
        message_room: usize,
    ) -> Answer;

    pub fn rap_tree_words(
        text: *const u8,
        text_length: usize,
        edition: u32,
        entry: u32,
        words: *mut u32,
        word_room: usize,
        messages: *mut u8,
        message_room: usize,
    ) -> Answer;

    pub fn rap_nodes(
        text: *const u8,
        text_length: usize,
        edition: u32,
        entry: u32,
        elements: *mut Element,
        element_room: usize,
        messages: *mut Message,
        message_room: usize,
        message_bytes: *mut u8,
        byte_room: usize,
    ) -> NodesAnswer;

    pub fn rap_script(
        text: *const u8,
        text_length: usize,
        parts: *mut Part,
        part_room: usize,
        messages: *mut u8,
        message_room: usize,
    ) -> Answer;

    pub fn rap_shebang(text: *const u8, text_length: usize) -> Answer;

    pub fn rap_blank_lines(text: *const u8, text_length: usize) -> Answer;

    pub fn rap_string_value(
        text: *const u8,
        text_length: usize,
        kind: u32,
        value: *mut u8,
        value_room: usize,
    ) -> StringValue;

    pub fn rap_number_value(text: *const u8, text_length: usize, kind: u32) -> NumberValue;

    pub fn rap_kind_name(kind: u32, name: *mut u8, name_room: usize) -> usize;

    pub fn rap_kind_of_name(name: *const u8, name_length: usize) -> u32;

    pub fn rap_status_text(status: u32, text: *mut u8, text_room: usize) -> usize;

    pub fn rap_version() -> u32;
}
