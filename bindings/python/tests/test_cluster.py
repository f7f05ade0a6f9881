"""A corpus by Dask distributed: a scheduler and four workers on this machine."""
import importlib
import os
import signal
import sqlite3
import threading
import time
from collections.abc import Iterator
from pathlib import Path
from typing import Any

import pytest

from rap.corpus import command

from test_corpus import SHAPES, part_rows, rows_of

distributed: Any = importlib.import_module('distributed')


@pytest.fixture
def cluster(tmp_path: Path) -> Iterator[Any]:
    """A scheduler and four workers, each a process. The scheduler starts another in the place of one that ended."""
    with distributed.LocalCluster(n_workers=4, threads_per_worker=1, processes=True, host='127.0.0.1',
                                  dashboard_address=None, local_directory=str(tmp_path / 'dask')) as found:
        yield found


@pytest.fixture
def corpus(tmp_path: Path) -> Path:
    """Files, among them twins, a wrong text and a nest that is deeper than a worker's own stack."""
    root = tmp_path / 'corpus'
    root.mkdir()
    (root / 'deep.rs').write_text('fn f() { ' + '(' * 60_000)
    (root / 'bytes.rs').write_bytes(b'\xff')
    for number in range(90):
        (root / f'{number}.rs').write_text(SHAPES + f'pub fn f{number % 80}() {{ unsafe {{}} }}\n' * 20)
    return root


def ran(corpus: Path, out: Path, *words: str) -> int:
    """The status of the command."""
    return command.main([str(corpus), '--out', str(out), '--batch', '0.02', '--quiet', *words])


def pids(cluster: Any) -> list[int]:
    """The processes of the workers."""
    with distributed.Client(cluster.scheduler_address) as client:
        return list(client.run(os.getpid).values())


def test_the_same_rows_as_on_one_machine(corpus: Path, tmp_path: Path, cluster: Any) -> None:
    one = tmp_path / 'one.sqlite'
    assert ran(corpus, one, '--jobs', '2') == 0
    ways: list[list[str]] = [[], ['--send']]
    for more in ways:
        out = tmp_path / f'four{len(more)}.sqlite'
        assert ran(corpus, out, '--scheduler', cluster.scheduler_address, *more) == 0
        assert rows_of(out) == rows_of(one)
    parts, out = tmp_path / 'parts', tmp_path / 'parts.sqlite'
    assert ran(corpus, out, '--scheduler', cluster.scheduler_address, '--parts', str(parts)) == 0
    wanted = rows_of(one)
    for table in ['files', 'texts', 'items']:
        mine = [tuple(row.values())[1:] for row in part_rows(parts) if row['table'] == table]
        assert sorted(mine, key=repr) == wanted[table]
    deep = [row for row in wanted['texts'] if row[1] == 60_009]
    assert len(deep) == 1 and deep[0][3] > 60_000 and deep[0][5] is None


@pytest.mark.parametrize('parts', [False, True])
def test_a_worker_that_is_killed_loses_nothing(corpus: Path, tmp_path: Path, cluster: Any, parts: bool) -> None:
    one, out, folder = tmp_path / 'one.sqlite', tmp_path / 'four.sqlite', tmp_path / 'parts'
    assert ran(corpus, one, '--jobs', '2') == 0
    before = pids(cluster)
    assert len(set(before)) == 4
    killed: list[int] = []

    def kill() -> None:
        while not killed:
            time.sleep(0.02)
            if out.exists():
                connection = sqlite3.connect(out, timeout=20)
                try:
                    stored = connection.execute('SELECT count(*) FROM files').fetchone()[0]
                except sqlite3.OperationalError:
                    stored = 0
                connection.close()
                if stored > 20:
                    os.kill(before[0], signal.SIGKILL)
                    killed.append(stored)

    thread = threading.Thread(target=kill, daemon=True)
    thread.start()
    words = ['--parts', str(folder)] if parts else []
    assert ran(corpus, out, '--scheduler', cluster.scheduler_address, *words) == 0
    assert killed and killed[0] < 92
    wanted = rows_of(one)
    if parts:
        mine = [tuple(row.values())[1:] for row in part_rows(folder) if row['table'] == 'items']
        assert sorted(mine, key=repr) == wanted['items']
        assert not list(folder.glob('*.unfinished'))
        wanted['items'] = []
    assert rows_of(out) == wanted
    assert before[0] not in pids(cluster)


def test_a_scheduler_that_is_not_there(corpus: Path, tmp_path: Path, capsys: pytest.CaptureFixture[str],
                                       monkeypatch: pytest.MonkeyPatch) -> None:
    monkeypatch.setattr('rap.corpus.workers.PATIENCE', 1)
    assert ran(corpus, tmp_path / 'out.sqlite', '--scheduler', 'tcp://127.0.0.1:9') == 2
    assert capsys.readouterr().err.startswith('rap-corpus: ')
