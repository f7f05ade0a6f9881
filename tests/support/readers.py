"""Whether the rows of the core grammar derive the tokens of a text: read here from the rows alone, as docs/core_page
has them, with each way that a row may go."""
import re
from collections.abc import Iterable
from typing import Optional

from support.rows import KINDS, Piece, Record, Row, Rows

# What names a row, a way of a choice, a turn of a repeat or one around a node: a category and the place of its row, or
# the piece and the place in it.
Key = tuple[int, int]

# The tokens of a text of which each piece is one: white space and comments, literals, words, and marks.
TOKEN = re.compile(r'''
    (?P<SHEBANG>\A\#![^\[\n]*\n) | (?P<FRONTMATTER>^---\n.*?^---\n)
  | (?P<trivia>\s+|//(?![/!])[^\n]*|/\*(?![*!]).*?\*/)
  | (?P<INNER_DOC_COMMENT>//![^\n]*|/\*!.*?\*/) | (?P<OUTER_DOC_COMMENT>///[^\n]*|/\*\*.*?\*/)
  | (?P<C_STRING>c"[^"]*"|cr"[^"]*") | (?P<BYTE_STRING>b"[^"]*"|br"[^"]*") | (?P<STRING>"[^"]*"|r"[^"]*"|r\#"[^"]*"\#)
  | (?P<BYTE>b'(?:\\.|[^'\\])') | (?P<CHAR>'(?:\\.|[^'\\])') | (?P<LIFETIME_IDENT>'\w+)
  | (?P<FLOAT_NUMBER>\d[\d_]*(?:\.\d[\d_]*|\.(?![.\w])|(?=e))(?:e[+-]?\d+)?\w*) | (?P<INT_NUMBER>\d\w*)
  | (?P<word>r\#\w+|\w+) | (?P<mark>[^\w\s])''', re.X | re.S | re.M)


def records_of(text: str) -> list[Record]:
    """The parser's input of a text that has no strange tokens, in the edition 2024."""
    words = {word: kind for kind, word in KINDS.reserved.items()}
    found: list[Record] = []
    places = list(TOKEN.finditer(text))
    assert ''.join(it[0] for it in places) == text, text
    for it, after in zip(places, [*places[1:], None]):
        name = it.lastgroup
        joint = after is not None and after.lastgroup not in ('trivia', 'word')
        if name == 'trivia':
            continue
        if name == 'mark':
            found.append(Record(KINDS.marks[it[0]], 0, joint))
        elif name == 'word' and it[0] == '_':
            found.append(Record(KINDS.numbers['UNDERSCORE'], 0, joint))
        elif name == 'word' and it[0] in words:
            found.append(Record(words[it[0]], 0, joint))
        elif name == 'word':
            found.append(Record(KINDS.ident, KINDS.words.get(it[0], KINDS.ident), False))
        else:
            touches = not it[0].endswith('.') if name == 'FLOAT_NUMBER' else joint
            found.append(Record(KINDS.numbers[str(name)], 0, touches))
    return found


class Reader:
    """Reads tokens by the rows, of which some are not taken. Notes which are of use anywhere."""

    def __init__(self, rows: Rows, records: list[Record], without: frozenset[Key] = frozenset()) -> None:
        self.rows, self.records, self.without = rows, records, without
        self.used: set[Key] = set()
        self.ends: dict[tuple[int, int], frozenset[int]] = {}
        self.open: set[tuple[int, int]] = set()

    def category(self, number: int, at: int) -> frozenset[int]:
        """Where what a category derives may end that begins at a token."""
        key = number, at
        if key not in self.ends:
            assert key not in self.open, f'category {number} begins with itself'
            self.open.add(key)
            rows = [((number, place), row) for place, row in enumerate(self.rows.rows[number])]
            self.ends[key] = frozenset().union(*(self.way(it, row, {at}) for it, row in rows))
        return self.ends[key]

    def way(self, key: Key, row: Row, starts: Iterable[int]) -> set[int]:
        """Where a row may end that has a name."""
        found = set() if key in self.without else self.row(row, starts)
        if found:
            self.used.add(key)
        return found

    def row(self, row: Row, starts: Iterable[int]) -> set[int]:
        """Where what a row derives may end that begins at one of some tokens."""
        found = set(starts)
        for it in row:
            found = self.repeat(it, found) if it[0] == 'repeat' else {end for at in found for end in self.piece(it, at)}
        return found

    def repeat(self, it: Piece, starts: set[int]) -> set[int]:
        found, new = set(starts), set(starts)
        while new:
            new = self.way((id(it), 1), it[1], new) - found
            found |= new
        return self.row(it[2], found)

    def around(self, it: Piece, at: int) -> set[int]:
        """Nodes around one: the numbers of what stands there say which turns may come."""
        _, row, number, turns = it
        met = {(end, number) for end in self.row(row, {at})}
        new = set(met)
        while new:
            new = {(end, then) for here, number in new for place, (numbers, turn, _, then) in enumerate(turns)
                   if number in numbers for end in self.way((id(it), place), turn, {here})} - met
            met |= new
        return {end for end, _ in met}

    def piece(self, it: Piece, at: int) -> Iterable[int]:
        """Where what a piece derives may end."""
        if it[0] == 'unless':
            return () if self.rows.holds(it[1], self.records[at:at + 8]) else (at,)
        if it[0] == 'category':
            return self.category(it[1], at)
        if it[0] == 'node':
            return self.row(it[2], {at})
        if it[0] == 'choice':
            return self.way((id(it), 1), it[1], {at}) | self.way((id(it), 2), it[2], {at})
        if it[0] == 'around':
            return self.around(it, at)
        return (at + self.width(it, at),) if self.fits(it, at) else ()

    @staticmethod
    def width(it: Piece, at: int) -> int:
        return len(KINDS.texts[it[1]]) if it[0] == 'operator' else 1

    def fits(self, it: Piece, at: int) -> bool:
        """Whether a leaf stands there."""
        here = self.records[at:at + self.width(it, at)]
        if it[0] == 'operator':
            text = KINDS.texts[it[1]]
            is_it = [it.kind for it in here] == [KINDS.marks[mark] for mark in text]
            return is_it and all(it.joint for it in here[:-1])
        if not here:
            return False
        if it[0] == 'word':
            return here[0].kind == KINDS.ident and here[0].word == it[1]
        words = None if it[2].name == 'None' else it[2].arguments[0]
        is_word = here[0].kind != KINDS.ident or words is None or here[0].word in (*words, KINDS.ident)
        return here[0].kind in it[1] and is_word


def file_row(rows: Rows) -> Row:
    """What the tokens of a file are."""
    found: Row = rows.table.row('Tops', 'file_row')
    return found


def used_by(rows: Rows, row: Row, records: list[Record]) -> Optional[set[Key]]:
    """What is of use anywhere where a row derives all of some tokens; none where it does not derive them."""
    reader = Reader(rows, records)
    return reader.used if len(records) in reader.row(row, {0}) else None


def derives(rows: Rows, row: Row, records: list[Record], without: frozenset[Key]) -> bool:
    """Whether a row derives all of some tokens without some rows, ways and turns."""
    return len(records) in Reader(rows, records, without).row(row, {0})
