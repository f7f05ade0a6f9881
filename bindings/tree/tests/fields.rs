//! What the accessors of all views find, in the trees of the replayed sample, of files of this repository with edits, and
//! of the `.rs` files below the folder that `RAP_TEXTS` names, if it is set.
mod common;

use common::random::Random;
use common::texts::{Sample, files, replayed};
use list::fields_of;
use rap_tree::{Node, NodeOrToken, SyntaxKind, Tree};
use std::collections::HashMap;
use std::path::{Path, PathBuf};

/// What all accessors find.
mod list {
    use rap_tree::ast::*;
    use rap_tree::{Node, NodeOrToken, SyntaxKind, Token};

    /// A field: how many children it has in the words of the list, its name, and what it finds.
    pub struct Found<'t> {
        pub count: &'static str,
        pub field: &'static str,
        pub children: Vec<NodeOrToken<'t>>,
    }

    fn nodes<'t, N: AstNode<'t>>(found: impl IntoIterator<Item = N>) -> Vec<NodeOrToken<'t>> {
        found.into_iter().map(|it| it.syntax().into()).collect()
    }

    fn token(found: Option<Token<'_>>) -> Vec<NodeOrToken<'_>> {
        found.into_iter().map(NodeOrToken::from).collect()
    }

    /// Makes the function that calls all accessors of a node.
    macro_rules! fields {
        ($($view:ident $kind:ident: $($count:ident $field:tt)* ;)*) => {
            /// What the fields of a node find. `None` of a node that has no view.
            pub fn fields_of(node: Node<'_>) -> Option<Vec<Found<'_>>> {
                match node.kind() {
                    $(SyntaxKind::$kind => {
                        #[allow(unused_variables)]
                        let it = $view::cast(node)?;
                        Some(vec![$(fields!(@ it $count $field)),*])
                    })*
                    _ => None,
                }
            }
        };
        (@ $it:ident $count:ident [$field:ident]) => {
            Found { count: stringify!($count), field: stringify!($field), children: token($it.$field()) }
        };
        (@ $it:ident $count:ident $field:ident) => {
            Found { count: stringify!($count), field: stringify!($field), children: nodes($it.$field()) }
        };
    }

    include!("common/fields.rs");
}

/// What no field finds of a node without a message, or two do: the kind of the node, and how many fields.
const EXCEPTIONS: [(SyntaxKind, usize); 6] = [
    (SyntaxKind::ASSOC_ITEM_LIST, 0),
    (SyntaxKind::EXTERN_ITEM_LIST, 0),
    (SyntaxKind::RECORD_PAT_FIELD_LIST, 0),
    (SyntaxKind::RECORD_FIELD, 0),
    (SyntaxKind::STMT_LIST, 2),
    (SyntaxKind::MACRO_STMTS, 2),
];

/// Whether a node has no `ERROR` right in it, and no message from its first byte to behind its last one. The `ERROR` that
/// an entry puts around all that it read is not measured.
fn is_whole(tree: &Tree, node: Node<'_>) -> bool {
    let range = node.text_range();
    let is_in = |message: &rap_tree::Message| (range.start..=range.end).contains(&message.position());
    let is_root_of_all = node == tree.root() && node.kind() == SyntaxKind::ERROR;
    !is_root_of_all && node.children().all(|it| it.kind() != SyntaxKind::ERROR) && !tree.messages().iter().any(is_in)
}

/// Each node in a whole node is found by one field, and what cannot be missing is there. Returns how many nodes were
/// whole.
fn check(tree: &Tree) -> usize {
    let mut measured = 0;
    for node in tree.root().descendants().filter(|node| is_whole(tree, *node)) {
        let found = fields_of(node).unwrap_or_else(|| panic!("{node:?} has no view"));
        for child in node.children() {
            let times = found.iter().flat_map(|it| &it.children).filter(|it| **it == child.into()).count();
            let is_known = EXCEPTIONS.contains(&(node.kind(), times));
            assert!(times == 1 || is_known, "{child:?} in {node:?} is found by {times} fields:\n{}", tree.text());
        }
        for it in found.iter().filter(|it| it.count == "one") {
            assert_eq!(it.children.len(), 1, "{} of {node:?}:\n{}", it.field, tree.text());
        }
        measured += 1;
    }
    measured
}

fn tree_of(sample: &Sample) -> Tree {
    Tree::of_text(sample.edition, sample.entry(), sample.text.as_str())
}

/// The `.rs` files below a folder.
fn files_below(folder: &Path) -> Vec<PathBuf> {
    let entries =
        std::fs::read_dir(folder).expect("the folder is there").map(|entry| entry.expect("it is read").path());
    let mut found: Vec<PathBuf> =
        entries.flat_map(|path| if path.is_dir() { files_below(&path) } else { vec![path] }).collect();
    found.retain(|path| path.extension().is_some_and(|it| it == "rs"));
    found.sort();
    found
}

#[test]
fn find_each_node_once() {
    let mut samples = replayed(1);
    samples.extend(files().into_iter().map(Sample::of_file));
    if let Some(folder) = std::env::var_os("RAP_TEXTS") {
        let read = |path: PathBuf| std::fs::read_to_string(path).ok().map(Sample::of_file);
        samples.extend(files_below(Path::new(&folder)).into_iter().filter_map(read));
    }
    let measured: usize = samples.iter().map(|sample| check(&tree_of(sample))).sum();
    println!("{measured} nodes of {} texts", samples.len());
    assert!(measured > 50_000);
}

/// A text with some of its bytes lost.
fn broken(text: &str, random: &mut Random) -> String {
    let lost: Vec<usize> = (0..1 + random.below(4)).map(|_| random.below(text.len() + 1)).collect();
    text.char_indices().filter(|(at, _)| !lost.contains(at)).map(|(_, c)| c).collect()
}

#[test]
fn find_what_there_is_in_broken_files() {
    let (mut random, mut measured) = (Random(7), 0);
    for text in files() {
        for _ in 0..3 {
            measured += check(&tree_of(&Sample::of_file(broken(&text, &mut random))));
        }
    }
    assert!(measured > 10_000);
}

/// What is found in a tree: a line for each child, of its node, the field and itself, each by its index in preorder.
fn lines(tree: &Tree) -> String {
    let all = tree.root().descendants_with_tokens();
    let index: HashMap<NodeOrToken<'_>, usize> = all.enumerate().map(|(index, it)| (it, index)).collect();
    let mut text = String::new();
    for node in tree.root().descendants() {
        for it in fields_of(node).unwrap_or_default() {
            for child in it.children {
                text += &format!("{} {} {}\n", index[&node.into()], it.field, index[&child]);
            }
        }
    }
    text
}

/// The FNV-1a hash, of 64 bits.
fn fnv1a(bytes: impl Iterator<Item = u8>) -> u64 {
    bytes.fold(0xcbf29ce484222325, |hash, byte| (hash ^ u64::from(byte)).wrapping_mul(0x100000001b3))
}

#[test]
fn find_what_the_other_packages_find() {
    let samples = replayed(8);
    let found: Vec<String> = samples.iter().map(|sample| lines(&tree_of(sample))).collect();
    let children: usize = found.iter().map(|text| text.lines().count()).sum();
    let hash = fnv1a(found.iter().flat_map(|text| text.bytes()));
    let recorded = Path::new(env!("CARGO_MANIFEST_DIR")).join("../../tests/fields.hash");
    let wanted = std::fs::read_to_string(recorded).expect("the hash is there");
    assert_eq!(format!("{} texts, {children} children: {hash:016x}\n", samples.len()), wanted);
}
