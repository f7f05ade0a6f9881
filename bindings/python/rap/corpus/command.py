"""The command `rap-corpus`."""
from __future__ import annotations

import argparse
import glob
import importlib.util
import os
import sqlite3
import sys
from concurrent.futures import CancelledError

from rap.corpus.files import batches, units_of
from rap.corpus.drive import Driver
from rap.corpus.store import Store
from rap.corpus.work import write_lines
from rap.corpus.workers import Cluster, Pool
from rap.words import Edition

MEGABYTE = 1 << 20

# The bytes of a batch: for a scheduler those of a second and more.
LOCAL, REMOTE = 2, 16


class Refused(Exception):
    """Why nothing was done."""


def _words(given: list[str] | None) -> argparse.Namespace:
    """The words of the command line."""
    parser = argparse.ArgumentParser('rap-corpus', description='Collects the items of files of Rust in a database.')
    parser.add_argument('inputs', nargs='+', metavar='INPUT', help='a folder, a .tar, .tar.gz or .crate, a .rs, or a'
                        ' file whose lines name such ones')
    parser.add_argument('--out', required=True, metavar='OUT.sqlite', help='the database; what is in it is not parsed'
                        ' again')
    parser.add_argument('--edition', default='2024', choices=list(Edition), help='that of all files; 2024 if not named')
    parser.add_argument('--jobs', type=int, default=len(os.sched_getaffinity(0)), metavar='N',
                        help='how many processes; as many as processors if not named')
    parser.add_argument('--batch', type=float, metavar='MB', help='how much a worker is given at once; '
                        f'{LOCAL} MB if not named, and {REMOTE} MB with a scheduler')
    parser.add_argument('--scheduler', metavar='tcp://HOST:PORT', help='have the workers of Dask do it, which read the'
                        ' inputs by the same names')
    parser.add_argument('--send', action='store_true', help='send the bytes of the files to the workers')
    parser.add_argument('--parts', metavar='DIR', help='have the workers write the items there, as lines of JSON')
    parser.add_argument('--quiet', action='store_true', help='show no progress')
    return parser.parse_args(given)


def _need(module: str) -> None:
    """Refuses where a module is not installed."""
    if not importlib.util.find_spec(module):
        raise Refused(f'needs {module}: apt install python3-{module}')


def _total(inputs: list[str]) -> int | None:
    """How many files there are, if that is known without reading archives and lists."""
    if all(os.path.isdir(it) or it.endswith('.rs') for it in inputs):
        return sum(1 for given in inputs for _ in units_of(given))
    return None


def _finish_parts(store: Store, parts: str) -> None:
    """Writes beside the parts which text each file has, and removes what workers that ended have left."""
    write_lines(f'{parts}/files.jsonl.gz', store.rows('files', ['path', 'digest', 'reason']))
    for left in glob.glob(f'{glob.escape(parts)}/*.unfinished'):
        os.remove(left)


def _run(words: argparse.Namespace) -> str:
    """Does it, and returns what to say of it."""
    from tqdm import tqdm
    if words.parts:
        words.parts = os.path.abspath(words.parts)
        os.makedirs(words.parts, exist_ok=True)
    store = Store(words.out, words.edition)
    workers: Pool | Cluster = Cluster(words.scheduler) if words.scheduler else Pool(words.jobs)
    size = int((words.batch or (REMOTE if words.scheduler else LOCAL)) * MEGABYTE)
    with tqdm(total=None if words.quiet else _total(words.inputs), unit=' files', disable=words.quiet) as bar:
        driver = Driver(store, workers, words.edition, words.parts, words.send, bar.update)
        try:
            driver.run(batches(words.inputs, size))
        finally:
            workers.close()
    if words.parts:
        _finish_parts(store, words.parts)
    store.close()
    counts = driver.counts
    return f'{counts.parsed} files parsed, {counts.known} with a text that was there, {counts.refused} not read'


def main(given: list[str] | None = None) -> int:
    """The command: its status is 0, 2 with a line on the error stream where it could not be done, or 130 where it was
    interrupted; what was shown as done is in the database."""
    words = _words(given)
    try:
        for module in ['tqdm', *(['distributed'] if words.scheduler else [])]:
            _need(module)
        print(_run(words))
    except (Refused, OSError, ValueError, sqlite3.Error) as why:
        print(f'rap-corpus: {why}', file=sys.stderr)
        return 2
    except CancelledError:
        print('rap-corpus: the scheduler is gone; run it again to go on', file=sys.stderr)
        return 2
    except KeyboardInterrupt:
        print('rap-corpus: interrupted; run it again to go on', file=sys.stderr)
        return 130
    return 0
