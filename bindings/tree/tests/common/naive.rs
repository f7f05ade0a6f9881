//! A tree of boxes inside boxes, built from the steps alone: each node has a list of its children.
use super::texts::Sample;
use ra_ap_parser::{LexedStr, StrStep, SyntaxKind};
use rap_tree::{NodeOrToken, Tree};
use std::ops::Range;

/// A node or a token.
pub struct Part {
    pub kind: SyntaxKind,
    pub is_token: bool,
    pub range: Range<usize>,
    pub text: String,
    /// The parts right in it, by their places in [`Naive::parts`].
    pub children: Vec<usize>,
    pub parent: Option<usize>,
}

/// A tree: all its parts in the order in which they begin.
pub struct Naive {
    pub parts: Vec<Part>,
    /// The parser's messages, and after them the lexer's, each with its position.
    pub messages: Vec<(usize, String)>,
    /// How many of them are the parser's.
    pub of_parser: usize,
}

impl Naive {
    pub fn of(sample: &Sample) -> Naive {
        let lexed = LexedStr::new(sample.edition, &sample.text);
        let output = sample.entry().parse(&lexed.to_input(sample.edition));
        let mut naive = Naive { parts: Vec::new(), messages: Vec::new(), of_parser: 0 };
        let (mut open, mut at) = (Vec::new(), 0);
        lexed.intersperse_trivia(&output, &mut |step| match step {
            StrStep::Enter { kind } => {
                let new = naive.push(kind, false, at..at, open.last().copied());
                open.push(new);
            }
            StrStep::Token { kind, text } => {
                let new = naive.push(kind, true, at..at + text.len(), open.last().copied());
                at += text.len();
                naive.parts[new].text = text.to_owned();
                open.iter().for_each(|node| naive.parts[*node].text.push_str(text));
            }
            StrStep::Exit => naive.parts[open.pop().expect("a node is open")].range.end = at,
            StrStep::Error { msg, pos } => naive.messages.push((pos, msg.to_owned())),
        });
        naive.of_parser = naive.messages.len();
        naive.messages.extend(lexed.errors().map(|(token, message)| (lexed.text_start(token), message.to_owned())));
        naive
    }

    fn push(&mut self, kind: SyntaxKind, is_token: bool, range: Range<usize>, parent: Option<usize>) -> usize {
        let new = self.parts.len();
        self.parts.push(Part { kind, is_token, range, text: String::new(), children: Vec::new(), parent });
        if let Some(parent) = parent {
            self.parts[parent].children.push(new);
        }
        new
    }

    /// The lexer's messages.
    pub fn of_lexer(&self) -> &[(usize, String)] {
        &self.messages[self.of_parser..]
    }

    /// The part and all that is inside it, in the order in which they begin.
    pub fn inside(&self, part: usize) -> Vec<usize> {
        let (mut found, mut rest) = (Vec::new(), vec![part]);
        while let Some(part) = rest.pop() {
            found.push(part);
            rest.extend(self.parts[part].children.iter().rev());
        }
        found
    }

    /// The tokens in a part.
    pub fn tokens(&self, part: usize) -> Vec<usize> {
        self.inside(part).into_iter().filter(|part| self.parts[*part].is_token).collect()
    }

    /// The part, the one around it, and so on.
    pub fn around(&self, part: usize) -> Vec<usize> {
        std::iter::successors(Some(part), |part| self.parts[*part].parent).collect()
    }

    /// The children of the node that the part is in, and its place among them.
    pub fn siblings(&self, part: usize) -> (Vec<usize>, usize) {
        let siblings = self.parts[part].parent.map_or(vec![part], |parent| self.parts[parent].children.clone());
        let place = siblings.iter().position(|sibling| *sibling == part).expect("it is among them");
        (siblings, place)
    }

    /// The way from a part down to the smallest one that has the range; of two the left one.
    pub fn covering(&self, part: usize, range: &Range<usize>) -> usize {
        let mut part = part;
        loop {
            let has = |child: &usize| {
                let own = &self.parts[*child].range;
                own.start <= range.start && range.end <= own.end
            };
            let children: Vec<usize> = self.parts[part].children.iter().copied().filter(has).collect();
            let left = children.iter().rfind(|child| self.parts[**child].range.end == range.start);
            match left.or(children.first()) {
                Some(child) => part = *child,
                None => return part,
            }
        }
    }
}

/// The nodes and tokens of a tree that stand where the parts of the plain one do, found by their children alone.
pub fn matched<'t>(tree: &'t Tree, naive: &Naive) -> Vec<NodeOrToken<'t>> {
    let mut found: Vec<Option<NodeOrToken<'t>>> = vec![None; naive.parts.len()];
    let mut rest = vec![(0, NodeOrToken::from(tree.root()))];
    while let Some((part, element)) = rest.pop() {
        found[part] = Some(element);
        let children: Vec<NodeOrToken<'t>> =
            element.into_node().map_or(Vec::new(), |node| node.children_with_tokens().collect());
        assert_eq!(children.len(), naive.parts[part].children.len(), "{element:?}");
        rest.extend(naive.parts[part].children.iter().copied().zip(children));
    }
    found.into_iter().map(|element| element.expect("each part has one")).collect()
}
