"""The database of a corpus."""
from __future__ import annotations

import sqlite3
from collections.abc import Iterable, Iterator, Sequence

import rap
from rap.corpus.items import Facts, Item
from rap.corpus.work import Found

# The form of the database: a database of another form is refused.
FORM = '1'

SCHEMA = '''
CREATE TABLE IF NOT EXISTS about (name TEXT PRIMARY KEY, value TEXT NOT NULL) WITHOUT ROWID;
CREATE TABLE IF NOT EXISTS files (path TEXT PRIMARY KEY, digest TEXT, reason TEXT) WITHOUT ROWID;
CREATE TABLE IF NOT EXISTS texts (digest TEXT PRIMARY KEY, bytes INTEGER NOT NULL, lines INTEGER NOT NULL,
    errors INTEGER, unsafe_blocks INTEGER, reason TEXT) WITHOUT ROWID;
CREATE TABLE IF NOT EXISTS items (digest TEXT NOT NULL, number INTEGER NOT NULL, parent INTEGER, kind TEXT NOT NULL,
    name TEXT NOT NULL, path TEXT NOT NULL, visibility TEXT NOT NULL, doc TEXT NOT NULL, start_byte INTEGER NOT NULL,
    end_byte INTEGER NOT NULL, first_line INTEGER NOT NULL, last_line INTEGER NOT NULL, errors INTEGER NOT NULL,
    unsafe_blocks INTEGER NOT NULL, PRIMARY KEY (digest, number)) WITHOUT ROWID;
'''


def _values(count: int) -> str:
    return ', '.join('?' * count)


class Store:
    """A database of files, texts and items. What was added is there for good when `commit` has returned."""

    def __init__(self, path: str, edition: str) -> None:
        self.database = sqlite3.connect(path)
        self.database.executescript(SCHEMA)
        wanted = {'form': FORM, 'edition': edition, 'parser': rap.__version__}
        with self.database:
            rows = list(wanted.items())
            self.database.executemany('INSERT OR IGNORE INTO about VALUES (?, ?)', rows)
        there = dict(self.database.execute('SELECT name, value FROM about'))
        if there != wanted:
            raise ValueError(f'{path} was made otherwise: {there} in the place of {wanted}')

    def has(self, digest: str) -> bool:
        """Whether a text was parsed, or refused."""
        return self.database.execute('SELECT 1 FROM texts WHERE digest = ?', (digest,)).fetchone() is not None

    def add_files(self, rows: Iterable[tuple[str, str | None, str | None]]) -> None:
        """Adds files: their names, and the digests of their texts or why there is none."""
        self.database.executemany('INSERT OR REPLACE INTO files VALUES (?, ?, ?)', rows)

    def add(self, found: Found) -> None:
        """Adds texts and their items."""
        texts: Iterator[tuple[object, ...]] = ((digest, *facts) for digest, facts in found.texts)
        items: Iterator[tuple[object, ...]] = ((digest, *item) for digest, item in found.items)
        self.database.executemany(f'INSERT OR REPLACE INTO texts VALUES ({_values(1 + len(Facts._fields))})', texts)
        self.database.executemany(f'INSERT OR REPLACE INTO items VALUES ({_values(1 + len(Item._fields))})', items)

    def commit(self) -> None:
        """Makes what was added lasting."""
        self.database.commit()

    def rows(self, table: str, columns: Sequence[str]) -> Iterator[dict[str, object]]:
        """All rows of a table, by its key."""
        for row in self.database.execute(f'SELECT {", ".join(columns)} FROM {table}'):
            yield {'table': table, **dict(zip(columns, row))}

    def close(self) -> None:
        """Closes the database. What was not committed is not there."""
        self.database.close()
