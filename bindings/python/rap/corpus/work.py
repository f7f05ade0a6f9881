"""What a process does with a batch of files. Each call depends on what it is given alone, and may be made again."""
from __future__ import annotations

import gzip
import hashlib
import io
import json
import os
from collections.abc import Iterable, Sequence
from typing import NamedTuple

import rap
from rap.corpus.files import Unit, read
from rap.corpus.items import Facts, Item, facts_of, items_of


class Seen(NamedTuple):
    """A file, and the digest of its bytes, or why there is none."""

    path: str
    digest: str
    reason: str | None


class Found(NamedTuple):
    """What was found in texts: what is known of each, and the items, each after the digest of its text."""

    texts: list[tuple[str, Facts]]
    items: list[tuple[str, Item]]


def look(units: Sequence[Unit]) -> list[Seen]:
    """Reads files, and says which digests their bytes have."""
    return [Seen(it.path, it.digest, it.reason) for unit in units for it in read(unit)]


def _reason(error: Exception) -> str:
    """Why a text was not parsed."""
    if isinstance(error, UnicodeDecodeError):
        return f'not UTF-8: byte {error.start}'
    return str(error) or type(error).__name__


def _parsed(data: bytes, edition: str) -> tuple[Facts, list[Item]]:
    """What is in a text. What is refused has no items, and its reason."""
    try:
        tree = rap.parse(data, edition)
        return facts_of(tree), items_of(tree)
    except (ValueError, MemoryError) as error:
        return Facts(len(data), data.count(b'\n'), None, None, _reason(error)), []


def parse(units: Sequence[Unit], wanted: Iterable[str], edition: str, parts: str | None) -> Found:
    """Parses those files whose bytes have one of the digests that are wanted, each once. With a folder of parts the
    items go into a file there, and none is returned."""
    left, found = set(wanted), Found([], [])
    name = hashlib.sha256('\n'.join(sorted(left)).encode()).hexdigest()[:32]
    for data, digest in ((it.data, it.digest) for unit in units for it in read(unit)):
        if digest in left:
            left.remove(digest)
            facts, items = _parsed(data, edition)
            found.texts.append((digest, facts))
            found.items.extend((digest, it) for it in items)
    if parts is None:
        return found
    rows: list[dict[str, object]] = []
    rows += ({'table': 'texts', 'digest': digest, **facts._asdict()} for digest, facts in found.texts)
    rows += ({'table': 'items', 'digest': digest, **item._asdict()} for digest, item in found.items)
    write_lines(f'{parts}/part-{name}.jsonl.gz', rows)
    return Found(found.texts, [])


def write_lines(path: str, rows: Iterable[dict[str, object]]) -> None:
    """Writes rows as lines of JSON, compressed. The file is there as a whole or not at all, and the same rows are the
    same bytes."""
    made = io.BytesIO()
    with gzip.GzipFile('', 'wb', 6, made, 0) as out:
        for row in rows:
            out.write(json.dumps(row, ensure_ascii=False, separators=(',', ':')).encode() + b'\n')
    unfinished = f'{path}.{os.getpid()}.unfinished'
    with open(unfinished, 'wb') as file:
        file.write(made.getvalue())
    os.replace(unfinished, path)
