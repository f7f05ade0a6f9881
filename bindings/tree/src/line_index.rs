//! Positions by line and column.
use std::ops::Range;

/// What columns are counted in.
///
/// ```
/// use rap_tree::{LineIndex, Unit};
///
/// let index = LineIndex::new("🦀x");
/// let column = |unit| index.position(4, unit).unwrap().column;
/// assert_eq!([Unit::Bytes, Unit::Utf16, Unit::Characters].map(column), [4, 2, 1]);
/// ```
#[derive(Clone, Copy, Debug, PartialEq, Eq, Hash)]
pub enum Unit {
    /// Bytes of UTF-8.
    Bytes,
    /// Units of UTF-16, as in the language server protocol: two for a character past U+FFFF, and else one.
    Utf16,
    /// Characters, as of `char`.
    Characters,
}

/// A position by its line and its column, both from 0 on.
///
/// ```
/// use rap_tree::{LineIndex, Position, Unit};
///
/// let position = LineIndex::new("a\nbc").position(3, Unit::Bytes);
/// assert_eq!(position, Some(Position { line: 1, column: 1 }));
/// ```
#[derive(Clone, Copy, Debug, PartialEq, Eq, PartialOrd, Ord, Hash)]
pub struct Position {
    /// How many lines come before.
    pub line: usize,
    /// How many units of the line come before.
    pub column: usize,
}

/// A character of more than one byte, and how many units less than bytes the text has up to its end.
#[derive(Clone, Debug)]
struct Wide {
    start: u32,
    end: u32,
    less_utf16: u32,
    less_characters: u32,
}

impl Wide {
    /// How many units less than bytes the text has up to the end of the character.
    fn less(&self, unit: Unit) -> usize {
        match unit {
            Unit::Bytes => 0,
            Unit::Utf16 => self.less_utf16 as usize,
            Unit::Characters => self.less_characters as usize,
        }
    }
}

/// Where the lines of a text begin, and its characters of more than one byte. A line ends with `\n`.
///
/// It holds 4 bytes for each line and 16 for each such character, and not the text. Each answer is found by bisection.
///
/// ```
/// use rap_tree::{Edition, LineIndex, TopEntryPoint, Tree, Unit};
///
/// let tree = Tree::of_text(Edition::CURRENT, TopEntryPoint::SourceFile, "fn f() {}\nfn g() {}\n");
/// let index = LineIndex::new(tree.text());
/// let second = tree.root().last_child().unwrap();
/// assert_eq!(index.position(second.text_range().start, Unit::Utf16).unwrap().line, 1);
/// ```
#[derive(Clone, Debug)]
pub struct LineIndex {
    /// The bytes at which lines begin, and the length of the text.
    starts: Vec<u32>,
    wide: Vec<Wide>,
}

impl LineIndex {
    /// The lines of a text.
    ///
    /// # Panics
    ///
    /// For a text of more than 4,294,967,295 bytes, and if it is out of memory.
    ///
    /// ```
    /// use rap_tree::LineIndex;
    ///
    /// assert_eq!(LineIndex::new("a\nb").len(), 2);
    /// ```
    #[must_use]
    pub fn new(text: &str) -> LineIndex {
        let length = u32::try_from(text.len()).expect("the text has at most 4,294,967,295 bytes");
        let ends = text.bytes().zip(1..).filter_map(|(byte, end)| (byte == b'\n').then_some(end));
        let starts = std::iter::once(0).chain(ends).chain([length]).collect();
        let (mut less_utf16, mut less_characters) = (0, 0);
        let characters = text.char_indices().filter(|(_, c)| !c.is_ascii());
        let wide = characters.map(|(start, c)| {
            less_utf16 += (c.len_utf8() - c.len_utf16()) as u32;
            less_characters += c.len_utf8() as u32 - 1;
            let start = start as u32;
            Wide { start, end: start + c.len_utf8() as u32, less_utf16, less_characters }
        });
        LineIndex { starts, wide: wide.collect() }
    }

    /// How many lines there are: one more than the text has `\n`.
    ///
    /// ```
    /// use rap_tree::LineIndex;
    ///
    /// assert_eq!([LineIndex::new("").len(), LineIndex::new("a\n").len()], [1, 2]);
    /// ```
    #[must_use]
    #[allow(clippy::len_without_is_empty)]
    pub fn len(&self) -> usize {
        self.starts.len() - 1
    }

    /// The bytes of a line, its `\n` included. `None` exactly if there is no such line.
    ///
    /// ```
    /// use rap_tree::LineIndex;
    ///
    /// let index = LineIndex::new("a\nbc");
    /// assert_eq!([index.line(0), index.line(1), index.line(2)], [Some(0..2), Some(2..4), None]);
    /// ```
    #[must_use]
    pub fn line(&self, line: usize) -> Option<Range<usize>> {
        let (start, end) = self.starts.get(line).zip(self.starts.get(line + 1))?;
        Some(*start as usize..*end as usize)
    }

    /// The position of an offset in bytes. `None` exactly past the end of the text and inside a character.
    ///
    /// ```
    /// use rap_tree::{LineIndex, Position, Unit};
    ///
    /// let index = LineIndex::new("é = 1;\né");
    /// let position = |offset| index.position(offset, Unit::Characters);
    /// assert_eq!(position(3), Some(Position { line: 0, column: 2 }));
    /// assert_eq!([position(1), position(12)], [None, None]);
    /// ```
    #[must_use]
    pub fn position(&self, offset: usize, unit: Unit) -> Option<Position> {
        if !self.is_boundary(offset) {
            return None;
        }
        let begins = &self.starts[..self.len()];
        let line = begins.partition_point(|start| *start as usize <= offset) - 1;
        let column = self.units_to(offset, unit) - self.units_to(begins[line] as usize, unit);
        Some(Position { line, column })
    }

    /// The offset of a position in bytes. `None` exactly if there is no such line, if the column is past the line's end
    /// before its `\n`, and inside a character.
    ///
    /// ```
    /// use rap_tree::{LineIndex, Position, Unit};
    ///
    /// let index = LineIndex::new("🦀x\ny");
    /// let offset = |column| index.offset(Position { line: 0, column }, Unit::Utf16);
    /// assert_eq!([offset(0), offset(1), offset(2), offset(3)], [Some(0), None, Some(4), Some(5)]);
    /// assert_eq!(offset(4), None);
    /// ```
    #[must_use]
    pub fn offset(&self, position: Position, unit: Unit) -> Option<usize> {
        let Range { start, end } = self.line(position.line)?;
        let is_last = position.line + 1 == self.len();
        let units = self.units_to(start, unit).checked_add(position.column)?;
        let whole = self.wide.partition_point(|wide| wide.end as usize - wide.less(unit) <= units);
        let offset = units.checked_add(self.less_of(whole, unit))?;
        (offset <= end - usize::from(!is_last) && self.is_boundary(offset)).then_some(offset)
    }

    /// Whether the offset is in the text or at its end, and not inside a character.
    fn is_boundary(&self, offset: usize) -> bool {
        let begun = self.wide.partition_point(|wide| (wide.start as usize) < offset);
        let is_inside = begun > 0 && offset < self.wide[begun - 1].end as usize;
        !is_inside && self.starts.last().is_some_and(|length| offset <= *length as usize)
    }

    /// How many units come before an offset that is not inside a character.
    fn units_to(&self, offset: usize, unit: Unit) -> usize {
        let whole = self.wide.partition_point(|wide| wide.end as usize <= offset);
        offset - self.less_of(whole, unit)
    }

    /// How many units less than bytes the text has up to the end of so many of its wide characters.
    fn less_of(&self, count: usize, unit: Unit) -> usize {
        if count == 0 { 0 } else { self.wide[count - 1].less(unit) }
    }
}
