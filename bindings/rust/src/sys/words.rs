//! A text's tree in words of 32 bits, and how they are read.
use super::{ENTER, EXIT, Filled, LONG, TOKEN, room};
use crate::{StrStep, SyntaxKind};
use std::sync::Arc;

/// A text's tree in words, as `rap_tree_words` returns it: its status, the text, all words, how many of them are the
/// tree's, and all bytes of the messages.
pub(crate) struct Woven {
    pub(crate) status: u32,
    text: Arc<str>,
    words: Vec<u32>,
    tree: usize,
    messages: Vec<u8>,
}

/// The kind whose number stands in a word.
///
/// # Safety
///
/// The word must be that of a node's begin or of a token, which the library has written.
#[inline(always)]
unsafe fn kind_in(word: u32) -> SyntaxKind {
    // SAFETY: the library writes the number of a kind, from 0 to 329, and the enum has these numbers.
    unsafe { std::mem::transmute::<u16, SyntaxKind>((word >> 16) as u16) }
}

impl Woven {
    /// What `rap_tree_words` filled for a text.
    ///
    /// # Safety
    ///
    /// All words must be those that the call has written for exactly this text.
    pub(super) unsafe fn of(text: Arc<str>, filled: Filled<u32>) -> Woven {
        Woven { status: filled.status, text, words: filled.steps, tree: filled.used, messages: filled.messages }
    }

    /// Whether it is the tree of this text.
    pub(crate) fn is_of(&self, text: &str) -> bool {
        *self.text == *text
    }

    /// Hands the tree's steps to a function.
    #[inline(always)]
    pub(crate) fn each(&self, mut take: impl FnMut(StrStep<'_>)) {
        let (text, words) = (&*self.text, &self.words[..self.tree]);
        let messages = std::str::from_utf8(&self.messages).expect("messages are UTF-8");
        let (mut at, mut start, mut said) = (0, 0, 0);
        while let Some(&word) = words.get(at) {
            at += 1;
            match word & 7 {
                // SAFETY: it is the word of a node's begin.
                ENTER => take(StrStep::Enter { kind: unsafe { kind_in(word) } }),
                EXIT => take(StrStep::Exit),
                TOKEN => {
                    let mut length = word >> 3 & LONG;
                    if length == LONG {
                        length = words[at];
                        at += 1;
                    }
                    let end = start + length as usize;
                    // SAFETY: the texts of the tokens joined are the text, so there are as many bytes, and a character
                    // begins and ends there; and it is the word of a token.
                    let (text, kind) = unsafe { (text.get_unchecked(start..end), kind_in(word)) };
                    start = end;
                    take(StrStep::Token { kind, text });
                }
                _ => {
                    let end = said + words[at + 1] as usize;
                    take(StrStep::Error { msg: &messages[said..end], pos: words[at] as usize });
                    at += 2;
                    said = end;
                }
            }
        }
    }
}

impl Drop for Woven {
    fn drop(&mut self) {
        room::keep(std::mem::take(&mut self.words));
    }
}
