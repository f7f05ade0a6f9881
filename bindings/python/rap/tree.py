"""Trees and tokens of texts."""
from __future__ import annotations

import re
from collections.abc import Iterator, Sequence
from typing import Any, NamedTuple, overload

import numpy as np
from numpy.typing import NDArray

from rap import _stack
from rap._elements import ELEMENT, NO_PARENT, Column, Elements, Error, Messages
from rap._html import page
from rap._library import ffi, lib, status_text
from rap._source import Source
from rap._stack import Counts
from rap.kinds import Kind
from rap.node import Element, Node, Token
from rap.words import Edition, Entry, edition_of, entry_of

STEP = np.dtype([('what', '<u4'), ('kind', '<u4'), ('at', '<u8'), ('start', '<u8'), ('end', '<u8')])

PLACE = np.dtype([('kind', '<u4'), ('is_token', '<u4'), ('start', '<u8'), ('end', '<u8')])

# For how many places of what is outside of the core grammar there is room at first.
PLACES = 64

RAP_OK: int = lib.RAP_OK

NO_MESSAGES = Messages(np.empty((0, 5), np.uint64), b'')

# How a character is written in quotes that does not stand for itself.
ESCAPES = {'"': '\\"', '\\': '\\\\', '\n': '\\n', '\r': '\\r', '\t': '\\t', '\0': '\\0'}


def _quoted(text: str) -> str:
    """A text in quotes."""
    written = re.sub(r'["\\\x00-\x1f\x7f]', lambda it: ESCAPES.get(it[0]) or f'\\u{{{ord(it[0]):x}}}', text)
    return f'"{written}"'


def _check(status: int, source: Source) -> None:
    """Raises what a status that is not RAP_OK stands for."""
    if status == RAP_OK:
        return
    if status == lib.RAP_NO_MEMORY:
        raise MemoryError(status_text(status))
    if status == lib.RAP_NOT_UTF8:
        source.data.decode()
    raise ValueError(status_text(status))


class Outside(NamedTuple):
    """A token or a node that is outside of the core grammar."""

    kind: Kind
    """its kind"""
    range: tuple[int, int]
    """its bytes: of a node those of its tokens, without white space and comments before and after them"""
    is_token: bool
    """whether it is a token, of which the lexer has a message"""


class Tree(Elements):
    """The syntax tree of a text: it holds every byte of it, and the messages about it."""

    __slots__ = ('edition', 'entry')

    def __init__(self, source: Source, array: Column, messages: Messages, edition: Edition, entry: Entry) -> None:
        super().__init__(source, array, messages)
        self.edition, self.entry = edition, entry

    def __repr__(self) -> str:
        return f'<Tree {self.root!r}, {self.error_count} errors>'

    def _repr_html_(self) -> str:
        return page(self)

    @property
    def root(self) -> Node:
        """The node that holds all others."""
        return self.node(0)

    def leaf_at(self, offset: int) -> Token | None:
        """The token that holds a byte of the text. `None` at the end of the text and outside of it."""
        return self.root.leaf_at(offset)

    def covering(self, start: int, end: int) -> Element:
        """The smallest node or token that holds these bytes, as [`Element.covering`]."""
        return self.root.covering(start, end)

    def is_derived(self) -> bool:
        """Whether the tree is that of a file and is proved to be right: the core grammar derives the text's tokens as a
        file, the tree is the derivation's, and there is no message.

        `False` says that there is a message, or that no derivation was found, which is no proof that there is none. It
        is `False` of a tree of another entry than `SourceFile`: of these nothing is asked. The text is parsed again for
        the answer. MemoryError: there is no memory, or no stack for a text of this length.

            >>> rap.parse('fn f(pair: &(u8, u8)) -> u8 { pair.0 }').is_derived()
            True"""
        return self.entry == Entry.SourceFile and self._told(0)[0]

    def outside_core(self) -> list[Outside]:
        """What of a file is outside of the core grammar: first each token that the lexer has a message of, in the order
        of the text; then, where no derivation was found, nodes in the order of the text. These are the nodes that the
        grammar does not derive, though it has such nodes, and that have no such node in them; where there is none, the
        whole file.

        The list is empty where [`Tree.is_derived`] holds, and has at least one element else, but of a tree of another
        entry than `SourceFile`, of which nothing is asked. The text is parsed again for the answer. MemoryError: there
        is no memory, or no stack for a text of this length.

            >>> rap.parse('trait A = B;').outside_core()
            [Outside(kind=<Kind.TRAIT: 260>, range=(0, 12), is_token=False)]"""
        if self.entry != Entry.SourceFile:
            return []
        _, count, places = self._told(PLACES)
        if count > PLACES:
            _, count, places = self._told(count)
        rows = np.frombuffer(places, PLACE).tolist()
        return [Outside(Kind(kind), (start, end), is_token == 1) for kind, is_token, start, end in rows]

    def _told(self, room: int) -> tuple[bool, int, bytes]:
        """What the library tells of the text with room for so many places: whether it is derived, how many places there
        are, and the places."""
        status, is_derived, count, places = _stack.rap_core(self.source.data, int(self.edition), room)
        _check(status, self.source)
        return is_derived, count, places

    def dump(self, ranges: bool = False) -> str:
        """The tree as the program `rast` prints it: a line for each node and token, and one for each message, first the
        parser's and then the lexer's. With `ranges` each kind is followed by its range in bytes."""
        return ''.join(self._lines(ranges)) + ''.join(f'error {it.position}: {it.message}\n' for it in self._in_turn())

    def _lines(self, ranges: bool) -> Iterator[str]:
        """The lines of nodes and tokens."""
        open_nodes: list[int] = []
        for index in range(len(self._array) // 5):
            while open_nodes and open_nodes[-1] <= index:
                open_nodes.pop()
            found = self.element(index)
            start, end = found.range
            place = f'@{start}..{end}' if ranges else ''
            text = f' {_quoted(found.text)}' if isinstance(found, Token) else ''
            yield f'{"  " * len(open_nodes)}{found.kind.name}{place}{text}\n'
            open_nodes.append(self.words[5 * index + 3])

    def _in_turn(self) -> list[Error]:
        """The parser's messages and after them the lexer's."""
        if not self.errors:
            return []
        lexer = tokens(self.source.data, self.edition).errors
        parser = list(self.errors)
        for error in lexer:
            parser.remove(error)
        return parser + lexer


class Tokens(Elements, Sequence[Token]):
    """The tokens of a text, white space and comments included, and the messages about them. None has a parent."""

    __slots__ = ('edition',)

    def __init__(self, source: Source, array: Column, messages: Messages, edition: Edition) -> None:
        super().__init__(source, array, messages)
        self.edition = edition

    def __repr__(self) -> str:
        return f'<Tokens {len(self)}, {self.error_count} errors>'

    def __len__(self) -> int:
        return len(self._array) // 5

    @overload
    def __getitem__(self, index: int) -> Token: ...

    @overload
    def __getitem__(self, index: slice) -> list[Token]: ...

    def __getitem__(self, index: int | slice) -> Token | list[Token]:
        found = range(len(self))[index]
        return Token(self, found) if isinstance(found, int) else [Token(self, it) for it in found]


def _tree_of(source: Source, edition: Edition, entry: Entry, rooms: Counts) -> tuple[Counts, Column, Messages]:
    """Calls the library with these rooms for elements, messages and bytes of messages. Returns how many there are, the
    elements, five numbers each, and the messages if there is room for them. Only what is written to takes memory."""
    elements = np.empty(5 * rooms[0] + 1, np.uint32)
    status, counts, rows, texts = _stack.rap_nodes(source.data, int(edition), entry.number, ffi.from_buffer(elements),
                                                   rooms)
    _check(status, source)
    messages = Messages(np.frombuffer(rows, np.uint64).reshape(-1, 5), texts) if rows else NO_MESSAGES
    return counts, elements, messages


def parse(text: str | bytes, edition: str = '2024', entry: str = 'SourceFile') -> Tree:
    """The tree of a text, right or wrong.

    `edition`: an [`Edition`] or its value. `entry`: an [`Entry`] or its value.

    ValueError: the edition or the entry is none, the bytes are not UTF-8 (then it is a UnicodeDecodeError, which says
    where), the text has more than 4,294,967,295 bytes, or more than 8,388,607 tokens that are neither white space nor
    comments. MemoryError: there is no memory, or no stack for a text of this length.

    No text ends the process, however deeply it nests. Other threads run while the library does."""
    source, edition, entry = Source(text), edition_of(edition), entry_of(entry)
    length = len(source.data)
    try:
        # A text of programs has half as many elements as bytes.
        rooms = length + 256, length // 16 + 64, length + 4096
        counts, elements, messages = _tree_of(source, edition, entry, rooms)
    except MemoryError:
        rooms = 0, 0, 0
        counts, elements, messages = _tree_of(source, edition, entry, rooms)
    if counts[0] > rooms[0] or counts[1] > rooms[1] or counts[2] > rooms[2]:
        counts, elements, messages = _tree_of(source, edition, entry, counts)
    # Where much room is left the elements are copied. Else it stays behind them: it was not written to, and memory that
    # is given back as it was taken is there for the next call without a fault.
    filled = elements[:5 * counts[0]]
    if 4 * len(filled) < len(elements):
        filled = filled.copy()
    return Tree(source, filled, messages, edition, entry)


def tokens(text: str | bytes, edition: str = '2024') -> Tokens:
    """The tokens of a text, white space and comments included. Nothing is parsed, and the messages are the lexer's.

    The errors are those of [`parse`], but for the number of tokens and the stack."""
    source, edition = Source(text), edition_of(edition)
    length = len(source.data)
    data = ffi.from_buffer('uint8_t[]', source.data or b'\0')
    rooms = length // 2 + 64, length // 16 + 64
    while True:
        arrays = np.empty(rooms[0] + 1, STEP), np.empty(rooms[1] + 1, np.uint8)
        steps = ffi.from_buffer('struct rap_step[]', arrays[0], require_writable=True)
        texts = ffi.from_buffer('uint8_t[]', arrays[1], require_writable=True)
        answer = lib.rap_tokens(data, length, int(edition), steps, rooms[0], texts, rooms[1])
        _check(answer.status, source)
        if answer.steps <= rooms[0] and answer.message_bytes <= rooms[1]:
            return _tokens_of(source, edition, arrays[0][:answer.steps],
                              arrays[1][:answer.message_bytes].tobytes())
        rooms = answer.steps, answer.message_bytes


def _tokens_of(source: Source, edition: Edition, steps: NDArray[Any], texts: bytes) -> Tokens:
    """The tokens and the messages among the steps that the library has written."""
    is_token = steps['what'] == lib.RAP_TOKEN
    written, reported = steps[is_token], steps[~is_token]
    array = np.empty(len(written), ELEMENT)
    for name in ('kind', 'start', 'end'):
        array[name] = written[name]
    array['after'] = np.arange(1, len(written) + 1)
    array['parent'] = NO_PARENT
    at = np.searchsorted(written['start'], reported['at'], 'right') - 1
    columns = reported['at'], written['start'][at], written['end'][at], reported['start'], reported['end']
    rows = np.stack(columns, axis=1)
    return Tokens(source, array.view(np.uint32), Messages(rows, texts), edition)
