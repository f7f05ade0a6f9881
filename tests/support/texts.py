"""The texts of the tables and of the replayed sample."""
import glob
import re
from collections.abc import Iterator

from support import TOP
from support.sample import TOPS, lines_of, rows


def rows_of_tables() -> Iterator[tuple[str, str, str]]:
    """The edition, the entry and the text of each row."""
    for file in sorted(glob.glob(f'{TOP}/crates/rast_rows/data/*.rows')):
        for line in lines_of(file):
            if line.startswith('@ '):
                entry, edition = line[2:].split(' ')
            for text in re.findall('«([^»]*)»', line):
                yield edition, entry, text.replace('¶', '\n')


def rows_of_sample() -> Iterator[tuple[str, str, str]]:
    """The same of each replayed line that reads a whole text."""
    for _line, edition, way, text in rows():
        if way.removeprefix('steps/') in TOPS:
            yield edition, way.removeprefix('steps/'), text


def texts() -> dict[tuple[str, bytes], int]:
    """Each text once in an edition, with the bits of the entries by which it is read."""
    found: dict[tuple[str, bytes], int] = {}
    for edition, entry, text in [*rows_of_tables(), *rows_of_sample()]:
        key = edition, text.encode()
        found[key] = found.get(key, 0) | 1 << TOPS.index(entry)
    return found


def given(edition: str, text: bytes, entries: int) -> bytes:
    """A text as `tests/c/fronts.c` reads it."""
    return f'{edition} {entries} {len(text)}\n'.encode() + text
