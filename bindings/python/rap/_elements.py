"""What trees and lists of tokens have in common: elements of 20 bytes each in one array."""
from __future__ import annotations

from typing import NamedTuple

import numpy as np
from numpy.typing import NDArray

from rap._source import Source
from rap.node import CLASSES, Element, Node, Token

# What stands for the parent of an element that has none.
NO_PARENT = 2**32 - 1

ELEMENT = np.dtype([(name, '<u4') for name in ('kind', 'start', 'end', 'after', 'parent')])

Column = NDArray[np.uint32]


class Columns(NamedTuple):
    """The elements as columns, in preorder: views of the memory that the library has filled, which cannot be written
    to."""

    kind: Column
    """the number of the kind"""
    start: Column
    """the first byte"""
    end: Column
    """the byte after the last"""
    after: Column
    """the index past all that is in it"""
    parent: Column
    """the index of the node that it is in; 4,294,967,295 where there is none"""


class Error(NamedTuple):
    """A message about a text."""

    message: str
    """its own text"""
    range: tuple[int, int]
    """the range of the token there, in bytes; it is empty at the end of the text"""
    position: int
    """the byte at which it is"""


class Messages(NamedTuple):
    """Messages as the library has written them."""

    rows: NDArray[np.uint64]
    """for each a row of its position, the range of the token there, and the range of its own text"""
    texts: bytes
    """their texts"""


class Elements:
    """Elements over a text."""

    __slots__ = ('source', 'words', 'found', '_array', '_messages', '_errors')

    def __init__(self, source: Source, array: Column, messages: Messages) -> None:
        self.source = source
        # Five numbers for each element.
        self._array = array
        self._array.setflags(write=False)
        self.words = self._array.data
        # What fields of `rap.ast` have found of all nodes, by the numbers of their rules.
        self.found: dict[int, memoryview] = {}
        self._messages = messages
        self._errors: list[Error] | None = None

    @property
    def text(self) -> str:
        """The text, as characters."""
        return self.source.text

    @property
    def errors(self) -> list[Error]:
        """The messages, in the order of their positions."""
        if self._errors is None:
            rows, texts = self._messages
            self._errors = [Error(texts[first:last].decode(), (start, end), at)
                            for at, start, end, first, last in rows.tolist()]
        return self._errors

    @property
    def error_count(self) -> int:
        """How many messages there are."""
        return len(self._messages.rows)

    def columns(self) -> Columns:
        """The elements as NumPy arrays, without a copy."""
        array = self._array
        return Columns(array[::5], array[1::5], array[2::5], array[3::5], array[4::5])

    def element(self, index: int) -> Element:
        """The node or token with this index. What has nothing in it is a token, or an empty node."""
        kind, start, end, after, _ = self.words[5 * index:5 * index + 5]
        if after == index + 1 and start < end:
            return Token(self, index)
        return CLASSES.get(kind, Node)(self, index) if CLASSES else Node(self, index)

    def node(self, index: int) -> Node:
        """The node with this index, of the class of its kind where `rap.ast` is imported."""
        return CLASSES.get(self.words[5 * index], Node)(self, index)

    def parent_of(self, index: int) -> int | None:
        """The index of the node that an element is in."""
        found = self.words[5 * index + 4]
        return None if found == NO_PARENT else found
