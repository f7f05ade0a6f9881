//! The answer to the page for a text: numbers for the steps of its tree, and its messages.
use rap_tree::{Edition, NodeOrToken, SyntaxKind, TopEntryPoint, Tree, WalkEvent};
use std::fmt::Write as _;

/// How many levels of nodes a tree has at most that is shown.
const MOST_LEVELS: usize = 10_000;

/// What is answered for a text: its tree and messages, or why they are not shown.
pub type Answer = Result<Vec<u8>, String>;

/// A text, and how it is to be read.
pub struct Asked {
    edition: Edition,
    entry: TopEntryPoint,
    text: String,
}

/// The top entry with this name.
fn entry_named(name: &str) -> Option<TopEntryPoint> {
    Some(match name {
        "SourceFile" => TopEntryPoint::SourceFile,
        "MacroStmts" => TopEntryPoint::MacroStmts,
        "MacroItems" => TopEntryPoint::MacroItems,
        "Pattern" => TopEntryPoint::Pattern,
        "Type" => TopEntryPoint::Type,
        "Expr" => TopEntryPoint::Expr,
        "MetaItem" => TopEntryPoint::MetaItem,
        _ => return None,
    })
}

impl Asked {
    /// What a query asks of a body: `edition=2024&entry=Expr`.
    pub fn of(query: &str, body: &[u8]) -> Option<Asked> {
        let (edition, entry) = query.strip_prefix("edition=")?.split_once("&entry=")?;
        let text = std::str::from_utf8(body).ok()?.to_owned();
        Some(Asked { edition: edition.parse().ok()?, entry: entry_named(entry)?, text })
    }
}

/// Adds a text as JSON, in quotes. A `<` stands as a number, so that no text ends or begins markup.
fn push_json(json: &mut String, text: &str) {
    json.push('"');
    for c in text.chars() {
        match c {
            '"' | '\\' => json.extend(['\\', c]),
            '\0'..='\u{1f}' | '<' | '\u{2028}' | '\u{2029}' => {
                let _ = write!(json, "\\u{:04x}", c as u32);
            }
            _ => json.push(c),
        }
    }
    json.push('"');
}

/// The data of the page: the names of all kinds, how many bytes a text has at most, and the text that the page begins
/// with, as JSON.
pub fn data(most: usize, text: &str) -> String {
    let mut json = String::from("{\"kinds\":[");
    for number in 0..SyntaxKind::__LAST as u16 {
        if number > 0 {
            json.push(',');
        }
        push_json(&mut json, SyntaxKind::from(number).name());
    }
    json.push_str(&format!("],\"most\":{most},\"text\":"));
    push_json(&mut json, text);
    json.push('}');
    json
}

/// How many units of UTF-16 stand before a byte of a text, as a page counts them.
struct Units(Option<Vec<u32>>);

impl Units {
    fn of(text: &str) -> Units {
        if text.is_ascii() {
            return Units(None);
        }
        let mut before = Vec::with_capacity(text.len() + 1);
        let mut units = 0;
        for c in text.chars() {
            before.resize(before.len() + c.len_utf8(), units);
            units += c.len_utf16() as u32;
        }
        before.push(units);
        Units(Some(before))
    }

    fn before(&self, byte: usize) -> u32 {
        self.0.as_ref().map_or(byte as u32, |before| before[byte])
    }
}

/// Whether a tree has more than so many levels of nodes. The walk ends at the first node of one more.
fn is_deeper(tree: &Tree, most: usize) -> bool {
    let mut levels = 0;
    tree.root().preorder_with_tokens().any(|event| {
        match event {
            WalkEvent::Enter(NodeOrToken::Node(_)) => levels += 1,
            WalkEvent::Leave(NodeOrToken::Node(_)) => levels -= 1,
            WalkEvent::Enter(NodeOrToken::Token(_)) | WalkEvent::Leave(NodeOrToken::Token(_)) => {}
        }
        levels > most
    })
}

/// A message, and the unit of the text at which it stands.
fn push_message(messages: &mut String, at: u32, message: &str) {
    messages.push_str(if messages.is_empty() { "[" } else { "," });
    let _ = write!(messages, "{at},");
    push_json(messages, message);
}

/// The tree of a text in numbers of 32 bits, the lowest byte first: how many there are, then those of the steps, and
/// after them the messages as JSON, each with its place before it.
///
/// A node's begin is its kind times four and 1; a token its kind times four and 2, and its length; a node's end is 0.
///
/// # Errors
///
/// Where the tree has more than [`MOST_LEVELS`], before any of it is written.
pub fn answer_to(asked: Asked) -> Answer {
    let tree = Tree::of_text(asked.edition, asked.entry, asked.text);
    if is_deeper(&tree, MOST_LEVELS) {
        return Err(format!("the tree is too deep to be shown: it has more than {MOST_LEVELS} levels"));
    }
    let units = Units::of(tree.text());
    let (mut numbers, mut messages) = (vec![0], String::new());
    for event in tree.root().preorder_with_tokens() {
        match event {
            WalkEvent::Enter(NodeOrToken::Node(node)) => numbers.push(node.kind() as u32 * 4 + 1),
            WalkEvent::Leave(NodeOrToken::Node(_)) => numbers.push(0),
            WalkEvent::Enter(NodeOrToken::Token(token)) => {
                let range = token.text_range();
                let length = units.before(range.end) - units.before(range.start);
                numbers.extend([token.kind() as u32 * 4 + 2, length]);
            }
            WalkEvent::Leave(NodeOrToken::Token(_)) => {}
        }
    }
    for message in tree.messages() {
        push_message(&mut messages, units.before(message.position()), message.text());
    }
    messages.push_str(if messages.is_empty() { "[]" } else { "]" });
    numbers[0] = numbers.len() as u32 - 1;
    let mut bytes: Vec<u8> = numbers.iter().flat_map(|number| number.to_le_bytes()).collect();
    bytes.extend_from_slice(messages.as_bytes());
    Ok(bytes)
}
