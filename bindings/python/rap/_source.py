"""A text: its bytes, its characters and its lines."""
from bisect import bisect_right

import numpy as np


class Source:
    """A text as bytes, with tables of its characters and lines that are made when they are asked for."""

    __slots__ = ('data', 'given', '_is_ascii', '_characters', '_lines')

    def __init__(self, text: str | bytes) -> None:
        if isinstance(text, str):
            self.data = text.encode()
        elif isinstance(text, bytes):
            self.data = text
        else:
            raise TypeError(f'a text is str or bytes, and not {type(text).__name__}')
        self.given = text if isinstance(text, str) else None
        self._is_ascii: bool | None = None
        self._characters: memoryview | None = None
        self._lines: memoryview | None = None

    @property
    def text(self) -> str:
        """All of it."""
        if self.given is None:
            self.given = self.data.decode()
        return self.given

    def slice(self, start: int, end: int) -> str:
        """The text between two of its bytes."""
        return self.data[start:end].decode()

    def characters(self, offset: int) -> int:
        """How many characters begin before a byte."""
        if self._is_ascii is None:
            self._is_ascii = self.data.isascii()
        if self._is_ascii:
            return offset
        if self._characters is None:
            begins = (np.frombuffer(self.data, np.uint8) & 0xC0) != 0x80
            self._characters = np.cumsum(begins, dtype=np.uint32).data
        return int(self._characters[offset - 1]) if offset else 0

    def place(self, offset: int) -> tuple[int, int]:
        """The line and the column of a byte, both from 1 on. A line ends with its line feed; columns are characters."""
        if self._lines is None:
            ends = np.flatnonzero(np.frombuffer(self.data, np.uint8) == 10)
            self._lines = np.concatenate([[0], ends + 1]).astype(np.uint32).data
        line = bisect_right(self._lines, offset)
        return line, self.characters(offset) - self.characters(int(self._lines[line - 1])) + 1
