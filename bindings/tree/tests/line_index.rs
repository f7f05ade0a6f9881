//! Positions are those that are counted character by character, and lead back to where they come from.
mod common;

use common::random::Random;
use common::texts;
use rap_tree::{LineIndex, Position, Unit};

const UNITS: [Unit; 3] = [Unit::Bytes, Unit::Utf16, Unit::Characters];

/// How many units a character is.
fn units_of(c: char, unit: Unit) -> usize {
    match unit {
        Unit::Bytes => c.len_utf8(),
        Unit::Utf16 => c.len_utf16(),
        Unit::Characters => 1,
    }
}

/// The offsets of the characters of a text and of its end, each with its position, counted from the begin on.
fn counted(text: &str, unit: Unit) -> Vec<(usize, Position)> {
    let mut position = Position { line: 0, column: 0 };
    let mut found = vec![(0, position)];
    for (offset, c) in text.char_indices() {
        position = match c {
            '\n' => Position { line: position.line + 1, column: 0 },
            _ => Position { column: position.column + units_of(c, unit), ..position },
        };
        found.push((offset + c.len_utf8(), position));
    }
    found
}

/// Compares all offsets of a text, and positions that no offset has.
fn check(text: &str) {
    let index = LineIndex::new(text);
    assert_eq!(index.len(), text.split('\n').count());
    let lines: Vec<&str> = (0..index.len()).map(|line| &text[index.line(line).expect("it is there")]).collect();
    assert_eq!(lines.concat(), text);
    assert!(lines.iter().all(|line| line.find('\n').is_none_or(|at| at + 1 == line.len())));
    assert_eq!(index.line(lines.len()), None);
    for unit in UNITS {
        let counted = counted(text, unit);
        for (offset, position) in &counted {
            assert_eq!(index.position(*offset, unit), Some(*position), "{text:?} {offset}");
            assert_eq!(index.offset(*position, unit), Some(*offset), "{text:?} {position:?}");
        }
        let is_inside = |offset: &usize| !text.is_char_boundary(*offset);
        assert!((0..=text.len() + 2).filter(is_inside).all(|offset| index.position(offset, unit).is_none()));
        check_refused(&index, &counted, unit);
    }
}

/// Positions up to two columns and lines past the last ones have an offset only if some offset has them.
fn check_refused(index: &LineIndex, counted: &[(usize, Position)], unit: Unit) {
    let mut rest = counted.iter().map(|(_, position)| *position).peekable();
    for line in 0..index.len() + 2 {
        let mut column = 0;
        while rest.peek().is_some_and(|position| position.line == line) {
            let known = rest.next().expect("one is there").column;
            (column..known).for_each(|column| assert_eq!(index.offset(Position { line, column }, unit), None));
            column = known + 1;
        }
        for column in [column, column + 1, usize::MAX] {
            assert_eq!(index.offset(Position { line, column }, unit), None);
        }
    }
}

#[test]
fn agrees_over_the_replayed_sample() {
    texts::replayed(16).iter().for_each(|sample| check(&sample.text));
}

#[test]
fn agrees_over_files() {
    texts::files().iter().for_each(|text| check(text));
}

#[test]
fn agrees_over_texts_of_all_widths() {
    let mut random = Random(0x9e6c_63d0_876a_9f69);
    let characters = ['a', '\n', '\r', 'é', '€', '\u{ffff}', '🦀', '\u{10ffff}', '\0'];
    for _ in 0..2_000 {
        let length = random.below(24);
        check(&(0..length).map(|_| characters[random.below(characters.len())]).collect::<String>());
    }
}
