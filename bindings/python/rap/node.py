"""Nodes and tokens: places in a tree."""
from __future__ import annotations

from bisect import bisect_right
from collections.abc import Iterable, Iterator
from typing import TYPE_CHECKING

import numpy as np

from rap._values import suffix_of, value_of
from rap.kinds import KINDS, Kind

if TYPE_CHECKING:
    from rap._elements import Elements

# How many characters of a token its short form shows.
SHOWN = 24


class Element:
    """A node or a token: a tree, and an index in it. Two are equal if they are the same one of the same tree."""

    __slots__ = ('_of', '_index')

    def __init__(self, of: Elements, index: int) -> None:
        self._of = of
        self._index = index

    def __eq__(self, other: object) -> bool:
        return isinstance(other, Element) and self._of is other._of and self._index == other._index

    def __hash__(self) -> int:
        return hash((id(self._of), self._index))

    def __repr__(self) -> str:
        start, end = self.range
        return f'{self.kind.name}@{start}..{end}'

    @property
    def index(self) -> int:
        """Its index in the tree's columns, which are in preorder."""
        return self._index

    @property
    def kind(self) -> Kind:
        """Its kind."""
        return KINDS[self._of.words[5 * self._index]]

    @property
    def range(self) -> tuple[int, int]:
        """The byte at which it begins, and the one after its last. A node without a token is empty."""
        at = 5 * self._index
        return self._of.words[at + 1], self._of.words[at + 2]

    @property
    def span(self) -> tuple[int, int]:
        """Its range in characters, so that `text[start:end]` of the whole text is its own."""
        start, end = self.range
        return self._of.source.characters(start), self._of.source.characters(end)

    @property
    def line(self) -> int:
        """The line on which it begins; the first is 1."""
        return self._of.source.place(self.range[0])[0]

    @property
    def column(self) -> int:
        """Where it begins in its line, in characters; the first is 1."""
        return self._of.source.place(self.range[0])[1]

    @property
    def text(self) -> str:
        """Its text: that of its range."""
        return self._of.source.slice(*self.range)

    @property
    def parent(self) -> Node | None:
        """The node that it is in. `None` of the root, and of a token of a text that was not parsed."""
        at = self._of.parent_of(self._index)
        return None if at is None else self._of.node(at)

    @property
    def children(self) -> list[Element]:
        """The nodes and tokens right in it, from left to right. A token has none."""
        words, at, after = self._of.words, self._index + 1, self._of.words[5 * self._index + 3]
        found = []
        while at < after:
            found.append(self._of.element(at))
            at = words[5 * at + 3]
        return found

    @property
    def next_sibling(self) -> Element | None:
        """The node or token right behind it in the same node."""
        parent, after = self._of.parent_of(self._index), self._of.words[5 * self._index + 3]
        return None if parent is None or after >= self._of.words[5 * parent + 3] else self._of.element(after)

    def ancestors(self) -> Iterator[Node]:
        """The node that it is in, the one that this is in, and so on up to the root."""
        found = self.parent
        while found is not None:
            yield found
            found = found.parent

    def descendants(self, kind: Kind | Iterable[Kind] | None = None) -> Iterator[Element]:
        """All nodes and tokens in it, in preorder, without itself: those of a kind, or of one of some kinds, if asked
        for."""
        first, after = self._index + 1, self._of.words[5 * self._index + 3]
        if kind is None:
            return (self._of.element(at) for at in range(first, after))
        column = self._of.columns().kind[first:after]
        is_wanted = column == kind if isinstance(kind, Kind) else np.isin(column, list(kind))
        return (self._of.element(first + int(at)) for at in np.flatnonzero(is_wanted))

    def leaf_at(self, offset: int) -> Token | None:
        """The token in it, or itself, that holds a byte of the text: it begins there or before, and ends after it.
        `None` of an offset that is outside of it."""
        start, end = self.range
        if not start <= offset < end:
            return None
        words = self._of.words
        indices = range(self._index, words[5 * self._index + 3])
        # Of all that begins at a byte or before, the last in preorder is the token that holds it.
        begun = bisect_right(indices, offset, key=lambda at: int(words[5 * at + 1]))
        return Token(self._of, self._index + begun - 1)

    def covering(self, start: int, end: int) -> Element:
        """The smallest node or token in it, or itself, that holds these bytes. An empty range is taken as the byte
        before it, or as the one behind it where it is the begin of this one. ValueError if the range is none, or is not
        in this one's."""
        own_start, own_end = self.range
        if not own_start <= start <= end <= own_end:
            raise ValueError(f'{start}..{end} is not a range in {own_start}..{own_end}')
        found: Element | None = self.leaf_at(start - 1 if start == end > own_start else start)
        while found is not None and found != self and found.range[1] < end:
            found = found.parent
        return self if found is None else found


class Node(Element):
    """A node of a tree."""

    __slots__ = ()

    # The names of its fields that are nodes, as the classes of `rap.ast` have them.
    _fields: tuple[str, ...] = ()


# The classes of nodes by the numbers of their kinds: `rap.ast` writes them where it is imported.
CLASSES: dict[int, type[Node]] = {}


class Token(Element):
    """A token: a leaf of a tree, or a token of a text that was not parsed."""

    __slots__ = ()

    @property
    def value(self) -> str | bytes | int | float | bool | None:
        """What a literal stands for: a `str` of a string or a character, `bytes` of a byte string or a C string, which
        has no NUL at its end, an `int` of an integer or a byte, a `float`, or a `bool`. None of any other token, of a
        literal about which the lexer reports something, and of an integer that is 2^128 or more or has a digit that is
        none of its radix."""
        return value_of(self.kind, self.text.encode())

    @property
    def suffix(self) -> str | None:
        """What follows the digits of a number, if anything does, as `u8` in `0xff_u8`. None of any other token."""
        return suffix_of(self.kind, self.text.encode())

    def __repr__(self) -> str:
        text = self.text
        return f'{super().__repr__()} {text if len(text) <= SHOWN else text[:SHOWN] + "…"!r}'
