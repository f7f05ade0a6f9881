//! Each way through a tree leads where it does in a tree that is built the plain way.
mod common;

use common::naive::{Naive, matched};
use common::random::Random;
use common::texts::{self, Sample};
use rap_tree::{Direction, Node, NodeOrToken, TokenAtOffset, Tree, WalkEvent};

/// A tree, the plain tree of the same text, and what corresponds to each part of it.
struct Pair<'t> {
    tree: &'t Tree,
    naive: &'t Naive,
    elements: Vec<NodeOrToken<'t>>,
}

impl<'t> Pair<'t> {
    fn of(&self, parts: &[usize]) -> Vec<NodeOrToken<'t>> {
        parts.iter().map(|part| self.elements[*part]).collect()
    }

    fn nodes(&self, parts: &[usize]) -> Vec<Node<'t>> {
        self.of(parts).into_iter().filter_map(NodeOrToken::into_node).collect()
    }

    fn text(&self) -> &'t str {
        self.tree.text()
    }
}

/// What a part is, and what stands right around it.
fn check_part(pair: &Pair<'_>, part: usize) {
    let (element, plain) = (pair.elements[part], &pair.naive.parts[part]);
    assert_eq!((element.kind(), element.text_range()), (plain.kind, plain.range.clone()));
    assert_eq!((element.text(), element.to_string()), (plain.text.as_str(), plain.text.clone()));
    assert_eq!(element.into_token().is_some(), plain.is_token);
    assert_eq!(element.parent().map(NodeOrToken::from), plain.parent.map(|parent| pair.elements[parent]));
    let (siblings, place) = pair.naive.siblings(part);
    assert_eq!(element.next_sibling_or_token(), siblings.get(place + 1).map(|part| pair.elements[*part]));
    let before = place.checked_sub(1).map(|place| pair.elements[siblings[place]]);
    assert_eq!(element.prev_sibling_or_token(), before);
    let tokens = pair.naive.tokens(part);
    assert_eq!(element.first_token().map(NodeOrToken::from), tokens.first().map(|part| pair.elements[*part]));
    assert_eq!(element.last_token().map(NodeOrToken::from), tokens.last().map(|part| pair.elements[*part]));
    match element {
        NodeOrToken::Node(node) => check_children(pair, part, node),
        NodeOrToken::Token(token) => {
            assert_eq!(
                (token.kind(), token.text_range(), token.text()),
                (plain.kind, plain.range.clone(), &*plain.text)
            );
            assert_eq!(token.parent(), element.parent());
            assert_eq!(token.next_sibling_or_token(), element.next_sibling_or_token());
            assert_eq!(token.prev_sibling_or_token(), element.prev_sibling_or_token());
        }
    }
}

/// The children of a node, and the siblings that are nodes.
fn check_children(pair: &Pair<'_>, part: usize, node: Node<'_>) {
    let plain = &pair.naive.parts[part];
    assert_eq!((node.kind(), node.text_range(), node.text()), (plain.kind, plain.range.clone(), &*plain.text));
    let (all, nodes) = (pair.of(&plain.children), pair.nodes(&plain.children));
    assert_eq!(node.children_with_tokens().collect::<Vec<_>>(), all);
    assert!(node.children_with_tokens().rev().eq(all.iter().rev().copied()));
    assert_eq!(node.children().collect::<Vec<_>>(), nodes);
    assert!(node.children().rev().eq(nodes.iter().rev().copied()));
    assert_eq!((node.first_child(), node.last_child()), (nodes.first().copied(), nodes.last().copied()));
    assert_eq!(node.first_child_or_token(), all.first().copied());
    assert_eq!(node.last_child_or_token(), all.last().copied());
    let (siblings, place) = pair.naive.siblings(part);
    assert_eq!(node.next_sibling(), pair.nodes(&siblings[place + 1..]).first().copied());
    assert_eq!(node.prev_sibling(), pair.nodes(&siblings[..place]).last().copied());
}

/// All that is around a part, beside it and inside it.
fn check_lists(pair: &Pair<'_>, part: usize) {
    let element = pair.elements[part];
    let (siblings, place) = pair.naive.siblings(part);
    let around = pair.naive.around(part);
    assert_eq!(element.ancestors().collect::<Vec<_>>(), pair.nodes(&around));
    let (behind, mut before) = (&siblings[place..], siblings[..=place].to_vec());
    before.reverse();
    match element {
        NodeOrToken::Node(node) => {
            assert_eq!(node.ancestors().collect::<Vec<_>>(), pair.nodes(&around));
            assert_eq!(node.siblings(Direction::Next).collect::<Vec<_>>(), pair.nodes(behind));
            assert_eq!(node.siblings(Direction::Prev).collect::<Vec<_>>(), pair.nodes(&before));
            assert_eq!(node.siblings_with_tokens(Direction::Next).collect::<Vec<_>>(), pair.of(behind));
            assert_eq!(node.siblings_with_tokens(Direction::Prev).collect::<Vec<_>>(), pair.of(&before));
            check_inside(pair, part, node);
        }
        NodeOrToken::Token(token) => {
            assert_eq!(token.parent_ancestors().collect::<Vec<_>>(), pair.nodes(&around[1..]));
            assert_eq!(token.siblings_with_tokens(Direction::Next).collect::<Vec<_>>(), pair.of(behind));
            assert_eq!(token.siblings_with_tokens(Direction::Prev).collect::<Vec<_>>(), pair.of(&before));
        }
    }
}

/// All that is inside a node.
fn check_inside(pair: &Pair<'_>, part: usize, node: Node<'_>) {
    let inside = pair.naive.inside(part);
    let (all, nodes) = (pair.of(&inside), pair.nodes(&inside));
    assert_eq!(node.descendants_with_tokens().len(), all.len());
    assert_eq!(node.descendants_with_tokens().collect::<Vec<_>>(), all);
    assert!(node.descendants_with_tokens().rev().eq(all.iter().rev().copied()));
    assert_eq!(node.descendants().collect::<Vec<_>>(), nodes);
    assert!(node.descendants().rev().eq(nodes.iter().rev().copied()));
    assert_eq!(node.preorder_with_tokens().collect::<Vec<_>>(), walk(pair, part));
}

/// A walk through the plain tree.
fn walk<'t>(pair: &Pair<'t>, part: usize) -> Vec<WalkEvent<NodeOrToken<'t>>> {
    let (mut events, mut rest) = (Vec::new(), vec![WalkEvent::Enter(part)]);
    while let Some(event) = rest.pop() {
        events.push(event.map(|part| pair.elements[part]));
        if let WalkEvent::Enter(part) = event {
            rest.push(WalkEvent::Leave(part));
            rest.extend(pair.naive.parts[part].children.iter().rev().map(|child| WalkEvent::Enter(*child)));
        }
    }
    events
}

/// The tokens one after another, and their texts joined.
fn check_tokens(pair: &Pair<'_>) {
    let tokens = pair.of(&pair.naive.tokens(0));
    let root = pair.tree.root();
    let onwards = std::iter::successors(root.first_token(), |token| token.next_token());
    assert!(onwards.map(NodeOrToken::from).eq(tokens.iter().copied()));
    let backwards = std::iter::successors(root.last_token(), |token| token.prev_token());
    assert!(backwards.map(NodeOrToken::from).eq(tokens.iter().rev().copied()));
    assert_eq!(tokens.iter().map(|token| token.text()).collect::<String>(), pair.text());
    assert_eq!(pair.tree.to_string(), pair.text());
}

/// The tokens of a node that touch an offset.
fn check_offset(pair: &Pair<'_>, part: usize, tokens: &[usize], offset: usize) {
    let node = pair.elements[part].into_node().expect("it is a node");
    let touches = |part: &&usize| {
        let range = &pair.naive.parts[**part].range;
        range.start <= offset && offset <= range.end
    };
    let want: Vec<_> = tokens.iter().filter(touches).map(|part| pair.elements[*part]).collect();
    let found = node.token_at_offset(offset);
    let is_as_many = match &found {
        TokenAtOffset::None => want.is_empty(),
        TokenAtOffset::Single(_) => want.len() == 1,
        TokenAtOffset::Between(..) => want.len() == 2,
    };
    assert!(is_as_many, "{found:?} at {offset}, not {want:?}");
    assert_eq!(found.map(NodeOrToken::from).collect::<Vec<_>>(), want);
}

/// The tokens that touch each offset of the text.
fn check_each_offset(pair: &Pair<'_>) {
    let tokens = pair.naive.tokens(0);
    let mut first = 0;
    for offset in 0..=pair.text().len() {
        while first < tokens.len() && pair.naive.parts[tokens[first]].range.end < offset {
            first += 1;
        }
        check_offset(pair, 0, &tokens[first..tokens.len().min(first + 3)], offset);
    }
}

/// What covers ranges in a node: none of its own children does, and what does is where the plain way down ends.
fn check_covering(pair: &Pair<'_>, part: usize, random: &mut Random) {
    let node = pair.elements[part].into_node().expect("it is a node");
    let range = random.range(&node.text_range());
    let found = node.covering_element(range.clone());
    assert_eq!(found, pair.elements[pair.naive.covering(part, &range)], "{node:?} {range:?}");
    let has = |it: NodeOrToken<'_>| it.text_range().start <= range.start && range.end <= it.text_range().end;
    assert!(has(found));
    if let Some(node) = found.into_node() {
        assert!(!node.children_with_tokens().any(has), "{node:?} {range:?}");
    }
}

/// The messages: the parser's, the lexer's after them, each with the range of the token that begins there or before.
/// Of these `message.rs` takes none that begins with `expected ` for the lexer's.
fn check_messages(pair: &Pair<'_>) {
    let tokens = pair.naive.tokens(0);
    let messages = pair.tree.messages().iter().map(|message| (message.position(), message.text().to_owned()));
    assert_eq!(messages.collect::<Vec<_>>(), pair.naive.messages);
    assert!(pair.naive.of_lexer().iter().all(|(_, text)| !text.starts_with("expected ")));
    for message in pair.tree.messages() {
        let at = message.position();
        let token = tokens.iter().map(|part| &pair.naive.parts[*part].range).find(|range| range.contains(&at));
        assert_eq!(message.range(), token.cloned().unwrap_or(at..at));
    }
}

/// Compares a tree with the plain one: each part, and of large trees the lists of so many parts, drawn by lot. Returns
/// how many empty nodes are inside the root.
fn check(sample: &Sample, lists: usize, random: &mut Random) -> usize {
    let tree = Tree::of_text(sample.edition, sample.entry(), sample.text.as_str());
    let naive = Naive::of(sample);
    let pair = Pair { tree: &tree, naive: &naive, elements: matched(&tree, &naive) };
    let count = naive.parts.len();
    assert_eq!(tree.root().descendants_with_tokens().len(), count);
    (0..count).for_each(|part| check_part(&pair, part));
    let drawn: Vec<usize> = (0..lists).map(|_| random.below(count)).collect();
    let chosen: Vec<usize> = if count <= lists { (0..count).collect() } else { drawn };
    chosen.iter().chain(&[0]).for_each(|part| check_lists(&pair, *part));
    check_tokens(&pair);
    check_messages(&pair);
    check_each_offset(&pair);
    for part in chosen.into_iter().chain([0]).filter(|part| !naive.parts[*part].is_token) {
        let (range, tokens) = (naive.parts[part].range.clone(), naive.tokens(part));
        check_offset(&pair, part, &tokens, range.start);
        check_offset(&pair, part, &tokens, range.end);
        check_offset(&pair, part, &tokens, range.start + random.below(range.len() + 1));
        (0..8).for_each(|_| check_covering(&pair, part, random));
    }
    naive.parts[1..].iter().filter(|part| part.range.is_empty()).count()
}

#[test]
fn agrees_over_the_replayed_sample() {
    let mut random = Random(0x9e37_79b9_7f4a_7c15);
    let samples = texts::replayed(16);
    assert!(samples.len() > 400, "{}", samples.len());
    let empty: usize = samples.iter().map(|sample| check(sample, 60, &mut random)).sum();
    assert!(empty > 20, "{empty}");
}

#[test]
fn agrees_over_files() {
    let mut random = Random(0xd1b5_4a32_d192_ed03);
    for text in texts::files() {
        check(&Sample::of_file(text), 40, &mut random);
    }
}

#[test]
fn agrees_over_edited_files() {
    let mut random = Random(0x2545_f491_4f6c_dd1d);
    for text in texts::files() {
        for edits in [1, 3] {
            check(&Sample::of_file(texts::edited(&text, edits, &mut random)), 20, &mut random);
        }
    }
}
