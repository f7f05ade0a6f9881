//! What stands at a byte of the text, or covers a range.
use crate::TokenAtOffset;
use crate::place::Place;
use std::iter::successors;
use std::ops::Range;

impl<'t> Place<'t> {
    /// The token that has a byte of the text.
    ///
    /// Of all elements that begin at a byte or before, the last one is the token that has it, as elements are in the
    /// order of their beginnings, and behind an empty node some token begins where the node does.
    fn token_of_byte(self, offset: usize) -> Place<'t> {
        let begun = self.tree().elements().partition_point(|element| element.start as usize <= offset);
        self.at(begun as u32 - 1)
    }

    /// The tokens of this place that touch an offset. Panics if the offset is not in its range.
    pub(crate) fn token_at_offset(self, offset: usize) -> TokenAtOffset<Place<'t>> {
        let range = self.range();
        assert!(range.start <= offset && offset <= range.end, "the offset {offset} is not in {range:?}");
        if range.is_empty() {
            return TokenAtOffset::None;
        }
        let left = (range.start < offset).then(|| self.token_of_byte(offset - 1));
        let right = (offset < range.end).then(|| self.token_of_byte(offset));
        match (left, right) {
            (Some(left), Some(right)) if left != right => TokenAtOffset::Between(left, right),
            (left, right) => left.or(right).map_or(TokenAtOffset::None, TokenAtOffset::Single),
        }
    }

    /// The smallest place in this one that has a range in it. Panics if the range is not in this place's.
    pub(crate) fn covering_element(self, range: &Range<usize>) -> Place<'t> {
        let own = self.range();
        let is_inside = own.start <= range.start && range.start <= range.end && range.end <= own.end;
        assert!(is_inside, "the range {range:?} is not in {own:?}");
        if range.is_empty() { self.covering_offset(range.start) } else { self.covering_bytes(range) }
    }

    /// The smallest place that has these bytes, of which there is one at least.
    fn covering_bytes(self, range: &Range<usize>) -> Place<'t> {
        let mut place = self.token_of_byte(range.start);
        while place.range().end < range.end {
            place = place.parent().expect("the range is in the root's");
        }
        place
    }

    /// What covers an empty range. The way there goes down from this place: to the child around the offset, or else to
    /// the last of the children that end there, or else to the first child.
    fn covering_offset(self, offset: usize) -> Place<'t> {
        if offset == self.range().start {
            return self.innermost_at_start();
        }
        let mut place = self.token_of_byte(offset - 1);
        let mut found = place;
        // The same way from below: the uppermost empty node behind what ends at the offset is taken.
        while place != self && place.range().end == offset {
            if let Some(last) = place.last_empty_behind() {
                found = last.innermost_at_end();
            }
            place = place.parent().expect("it is inside another one");
        }
        found
    }

    /// The last of the empty nodes that follow it in the same node without anything between them.
    fn last_empty_behind(self) -> Option<Place<'t>> {
        let end = self.range().end;
        successors(self.next_sibling(), |place| place.next_sibling())
            .take_while(|place| place.range().end == end)
            .last()
    }

    /// The last child of the last child, and so on.
    fn innermost_at_end(self) -> Place<'t> {
        successors(Some(self), |place| place.last_child()).last().unwrap_or(self)
    }

    /// The first child of the first child, and so on; of children that begin with empty nodes the last of these.
    fn innermost_at_start(self) -> Place<'t> {
        let first_of = |place: &Place<'t>| {
            let first = place.first_child()?;
            if first.range().is_empty() { first.last_empty_behind().or(Some(first)) } else { Some(first) }
        };
        successors(Some(self), first_of).last().unwrap_or(self)
    }
}

#[cfg(test)]
mod tests {
    use crate::SyntaxKind::{ATTR, NAME, PARAM, SOURCE_FILE, VISIBILITY, WHITESPACE};
    use crate::{Node, Tree};
    use ra_ap_parser::sys::{Element, NO_PARENT};

    /// A tree as no parse gives it, with several empty nodes beside one another.
    fn with_empty_nodes() -> Tree {
        let elements = [
            (SOURCE_FILE, 0..1, 10, NO_PARENT),
            (NAME, 0..0, 2, 0),
            (PARAM, 0..1, 8, 0),
            (ATTR, 0..0, 4, 2),
            (NAME, 0..0, 5, 2),
            (WHITESPACE, 0..1, 6, 2),
            (ATTR, 1..1, 7, 2),
            (VISIBILITY, 1..1, 8, 2),
            (NAME, 1..1, 9, 0),
            (ATTR, 1..1, 10, 0),
        ];
        let element_of = |(kind, range, after, parent): (_, std::ops::Range<u32>, _, _)| {
            Element::new(kind, range.start, range.end, after, parent)
        };
        Tree::of_elements(" ", elements.map(element_of).to_vec())
    }

    #[test]
    fn covers_an_offset_beside_empty_nodes() {
        let tree = with_empty_nodes();
        let covering = |node: Node<'_>, at| node.covering_element(at..at).kind();
        let param = tree.root().children().nth(1).expect("it is there");
        assert_eq!([covering(tree.root(), 0), covering(tree.root(), 1)], [NAME, ATTR]);
        assert_eq!([covering(param, 0), covering(param, 1)], [NAME, VISIBILITY]);
    }
}
