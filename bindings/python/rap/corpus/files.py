"""The files of a corpus: in folders, in tar files, in packages of cargo, and in lists of these."""
from __future__ import annotations

import hashlib
import lzma
import os
import tarfile
import zlib
from collections.abc import Iterable, Iterator
from typing import NamedTuple

# The ends of the names of archives: tar files, and compressed ones.
PLAIN, COMPRESSED = ('.tar',), ('.tar.gz', '.tgz', '.crate', '.tar.xz', '.tar.bz2')

# What a compressed archive may have, in bytes, to be read by a worker as a whole.
SMALL = 1 << 24

# What the members of a compressed archive are taken to have, by its own bytes.
RATIO = 4


class Unit(NamedTuple):
    """What a worker reads at once: a file, a part of a tar file, a compressed archive, or bytes that are given."""

    path: str
    """the name in the result; of an archive its own"""
    holder: str
    """the file of the system; empty of bytes that are given"""
    offset: int | None
    """where the bytes begin in it; None of a whole file, and -1 of an archive"""
    size: int
    """how many bytes, or for an archive about how many"""
    data: bytes | None
    """the bytes, if they are given"""
    reason: str | None
    """why there is nothing to be read"""


class Read(NamedTuple):
    """A file that was read, or why it was not."""

    path: str
    data: bytes
    digest: str
    """the SHA-256 of the bytes; empty where it was not read"""
    reason: str | None


def _name(path: str) -> str:
    """A name of a file as text: bytes of it that are not UTF-8 are written as `\\xff`."""
    return os.fsencode(path).decode(errors='backslashreplace')


def _unread(path: str, reason: str) -> Unit:
    return Unit(_name(path), '', 0, 0, None, reason)


def _why(error: Exception) -> str:
    """The words of an error, without the name of the file."""
    return getattr(error, 'strerror', None) or str(error) or type(error).__name__


def _in_folder(folder: str) -> Iterator[Unit]:
    """The files of Rust in a folder, by name. Links to folders are not followed."""
    refused: list[OSError] = []
    for at, folders, names in os.walk(folder, onerror=refused.append):
        folders.sort()
        for name in sorted(it for it in names if it.endswith('.rs')):
            path = os.path.join(at, name)
            try:
                yield Unit(_name(path), path, None, os.stat(path).st_size, None, None)
            except OSError as error:
                yield _unread(path, f'cannot be read: {_why(error)}')
    for why in refused:
        yield _unread(str(why.filename), f'cannot be read: {_why(why)}')


def _in_tar(archive: str) -> Iterator[Unit]:
    """The files of Rust in a tar file, each with its place in it; the bytes themselves if it is compressed."""
    try:
        with tarfile.open(archive, 'r:*' if archive.endswith(PLAIN) else 'r|*') as tar:
            for member in tar:
                if not member.isfile() or not member.name.endswith('.rs'):
                    continue
                path = _name(f'{archive}!{member.name}')
                if archive.endswith(PLAIN) and not member.issparse():
                    yield Unit(path, archive, member.offset_data, member.size, None, None)
                    continue
                file = tar.extractfile(member)
                data = file.read() if file else b''
                yield Unit(path, '', 0, len(data), data, None)
    except (OSError, tarfile.TarError, EOFError, ValueError, MemoryError, zlib.error, lzma.LZMAError) as error:
        yield _unread(archive, f'cannot be read: {_why(error)}')


def _in_list(file: str) -> Iterator[Unit]:
    """What the lines of a file name. Relative names are those from the folder of the process."""
    try:
        with open(file, encoding='utf-8', errors='surrogateescape') as lines:
            for line in lines:
                if line.strip():
                    yield from units_of(line.rstrip('\n'), False)
    except OSError as error:
        yield _unread(file, f'cannot be read: {_why(error)}')


def units_of(given: str, may_be_list: bool = True) -> Iterator[Unit]:
    """The units of an input: a folder, a tar file (compressed or not), a package of cargo, a file of Rust, or a file
    whose lines name such ones."""
    if os.path.isdir(given):
        yield from _in_folder(given)
        return
    try:
        size = os.stat(given).st_size
    except OSError as error:
        yield _unread(given, f'cannot be read: {_why(error)}')
        return
    if given.endswith(COMPRESSED) and size <= SMALL:
        yield Unit(_name(given), given, -1, size * RATIO, None, None)
    elif given.endswith(PLAIN + COMPRESSED):
        yield from _in_tar(given)
    elif given.endswith('.rs') or not may_be_list:
        yield Unit(_name(given), given, None, size, None, None)
    else:
        yield from _in_list(given)


def batches(inputs: Iterable[str], size: int) -> Iterator[list[Unit]]:
    """The units of inputs in batches of about so many bytes each."""
    batch: list[Unit] = []
    total = 0
    for given in inputs:
        for unit in units_of(given):
            batch.append(unit)
            total += unit.size + 64
            if total >= size:
                yield batch
                batch, total = [], 0
    if batch:
        yield batch


def _read_one(unit: Unit) -> Read:
    """Reads a file, or a part of one."""
    data = unit.data
    if data is None:
        try:
            with open(unit.holder, 'rb') as file:
                file.seek(unit.offset or 0)
                data = file.read() if unit.offset is None else file.read(unit.size)
        except (OSError, MemoryError) as error:
            return Read(unit.path, b'', '', f'cannot be read: {_why(error)}')
    return Read(unit.path, data, hashlib.sha256(data).hexdigest(), None)


def read(unit: Unit) -> Iterator[Read]:
    """Reads what a unit has."""
    if unit.reason is not None:
        yield Read(unit.path, b'', '', unit.reason)
    elif unit.offset != -1:
        yield _read_one(unit)
    else:
        for member in _in_tar(unit.holder):
            yield Read(member.path, b'', '', member.reason) if member.reason else _read_one(member)


def given_bytes(unit: Unit) -> list[Unit]:
    """The files of a unit with their bytes."""
    return [Unit(it.path, '', 0, len(it.data), it.data, it.reason) for it in read(unit)]
