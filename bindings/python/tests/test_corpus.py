"""The items of a corpus, and the database."""
import gzip
import io
import json
import os
import signal
import sqlite3
import subprocess
import sys
import tarfile
import time
from pathlib import Path
from typing import Any

import pytest

import rap
from rap.corpus import command, drive, files, items, work
from rap.corpus.store import Store
from rap.corpus.workers import Pool

ABSENT = 'cannot be read: No such file or directory'

SHAPES = '''//! A file.
use std::fmt::{self,
    Debug};

/// A module,
/// with shapes.
pub(crate) mod shapes {
    //! Inner words.
    #[derive(Clone)]
    /// A circle.
    pub struct Circle { radius: f64 }
    /** Two
     * lines. */
    enum E { A }
    impl Circle {
        pub const fn area(&self) -> f64 {
            fn square(x: f64) -> f64 { unsafe { x * x } }
            unsafe { square(1.0) }; unsafe { }
        }
    }
    impl<T: Copy> fmt::Debug for Vec<T> where T: Copy { type X = u8; const N: u8 = 1; }
    //// no documentation
    macro_rules! m { () => { fn inside() {} } }
    m! { }
    fn wrong( { m!(); }
}
extern "C" { static S: u8; fn f(); }
extern crate core as c;
trait T { fn g(); }
union U { a: u8 }
unsafe fn h() {}
'''

# The kinds, the paths and the visibilities of its items.
WANTED = [
    ('USE', 'std::fmt::{self, Debug}', ''), ('MODULE', 'shapes', 'pub(crate)'),
    ('STRUCT', 'shapes::Circle', 'pub'), ('ENUM', 'shapes::E', ''), ('IMPL', 'shapes::Circle', ''),
    ('FN', 'shapes::Circle::area', 'pub'), ('FN', 'shapes::Circle::area::square', ''),
    ('IMPL', 'shapes::<Vec<T> as fmt::Debug>', ''), ('TYPE_ALIAS', 'shapes::<Vec<T> as fmt::Debug>::X', ''),
    ('CONST', 'shapes::<Vec<T> as fmt::Debug>::N', ''), ('MACRO_RULES', 'shapes::m', ''),
    ('MACRO_CALL', 'shapes::m!', ''),
    ('FN', 'shapes::wrong', ''), ('EXTERN_BLOCK', 'extern "C"', ''), ('STATIC', 'extern "C"::S', ''),
    ('FN', 'extern "C"::f', ''), ('EXTERN_CRATE', 'core', ''), ('TRAIT', 'T', ''), ('FN', 'T::g', ''),
    ('UNION', 'U', ''), ('FN', 'h', '')]


def test_items() -> None:
    tree = rap.parse(SHAPES)
    found = items.items_of(tree)
    assert [(it.kind, it.path, it.visibility) for it in found] == WANTED
    assert [it.number for it in found] == list(range(len(found)))
    by_path = {f'{it.kind} {it.path}': it for it in found}
    module, area = by_path['MODULE shapes'], by_path['FN shapes::Circle::area']
    assert module.doc == 'A module,\nwith shapes.\nInner words.'
    assert by_path['STRUCT shapes::Circle'].doc == 'A circle.' and by_path['ENUM shapes::E'].doc == 'Two\nlines.'
    assert by_path['MACRO_RULES shapes::m'].doc == ''
    assert (area.unsafe_blocks, module.unsafe_blocks, by_path['FN h'].unsafe_blocks) == (3, 3, 0)
    assert by_path['FN shapes::Circle::area::square'].unsafe_blocks == 1
    assert module.errors == tree.error_count > 0 == area.errors
    assert (found[0].first_line, found[0].last_line, module.first_line, module.last_line) == (2, 3, 5, 26)
    for it in found:
        text = SHAPES.encode()[it.start_byte:it.end_byte].decode()
        before = SHAPES.encode()[:it.start_byte].decode()
        assert it.first_line == before.count('\n') + 1 and it.last_line == it.first_line + text.count('\n')
        assert it.parent is None or found[it.parent].start_byte <= it.start_byte < found[it.parent].end_byte
        assert it.name == it.path[len(found[it.parent].path) + 2:] if it.parent is not None else it.name == it.path
    facts = items.facts_of(tree)
    assert facts == (len(SHAPES.encode()), SHAPES.count('\n'), tree.error_count, 3, None)
    assert [items.facts_of(rap.parse(it)).lines for it in ['', 'a', 'a\n', 'a\nb']] == [0, 1, 1, 2]


def packed(folder: Path, archive: Path, mode: str) -> None:
    """Packs a folder."""
    with tarfile.open(archive, mode) as tar:
        tar.add(folder, 'x-1.0')


@pytest.fixture
def corpus(tmp_path: Path) -> Path:
    """Folders and archives with what a corpus has: twins, wrong texts, what is not UTF-8 or not there, deep nests."""
    root = tmp_path / 'corpus'
    (root / 'a' / 'src').mkdir(parents=True)
    (root / 'b').mkdir()
    (root / 'a' / 'src' / 'lib.rs').write_text(SHAPES)
    (root / 'a' / 'src' / 'twin.rs').write_text(SHAPES)
    (root / 'a' / 'src' / 'empty.rs').write_text('')
    (root / 'a' / 'src' / 'other.txt').write_text('fn f() {}')
    (root / 'b' / 'bytes.rs').write_bytes(b'fn f() {}\xff')
    (root / 'b' / 'deep.rs').write_text('fn f() { ' + '(' * 60_000)
    (root / 'b' / 'gone.rs').symlink_to('nowhere.rs')
    (root / 'b' / 'tokens.rs').write_bytes(b';' * 8_388_608)
    for number in range(40):
        (root / 'b' / f'{number}.rs').write_text(f'pub fn f{number}() {{ unsafe {{}} }}\n' * (number + 1))
    for name, mode in [('c.tar', 'w'), ('c.tar.gz', 'w:gz'), ('c-1.0.crate', 'w:gz')]:
        packed(root / 'a', root / name, mode)
    (root / 'wrong.crate').write_bytes(b'no archive')
    (root / 'list').write_text(f'{root}/b/7.rs\n\n{root}/nowhere.rs\n{root}/c.tar\n')
    return root


def inputs(root: Path) -> list[str]:
    """What the tests give to the command."""
    return [f'{root}/{it}' for it in ['a', 'b', 'c.tar', 'c.tar.gz', 'c-1.0.crate', 'wrong.crate', 'list', 'nowhere']]


def rows_of(database: Path) -> dict[str, list[tuple[Any, ...]]]:
    """All rows of a database."""
    connection = sqlite3.connect(database)
    tables = ['about', 'files', 'items', 'texts']
    found = {it: sorted(connection.execute(f'SELECT * FROM {it}'), key=repr) for it in tables}
    connection.close()
    return found


def ran(*words: str) -> int:
    """The status of the command."""
    return command.main([*words, '--quiet'])


def test_all_kinds_of_inputs(corpus: Path, capsys: pytest.CaptureFixture[str]) -> None:
    out = corpus / 'out.sqlite'
    assert ran(*inputs(corpus), '--out', str(out), '--jobs', '2', '--batch', '0.01') == 0
    assert capsys.readouterr().out == '59 files parsed, 0 with a text that was there, 4 not read\n'
    found = rows_of(out)
    files_there = {str(path).replace(str(corpus), ''): (digest, reason) for path, digest, reason in found['files']}
    reasons = {path: reason for path, (_, reason) in files_there.items() if reason}
    assert reasons == {
        '/b/gone.rs': ABSENT, '/nowhere': ABSENT, '/nowhere.rs': ABSENT, '/wrong.crate': reasons['/wrong.crate']}
    assert str(reasons['/wrong.crate']).startswith('cannot be read: ')
    # Every file has a row: those of each folder and archive, 7.rs once though it is named twice.
    assert len(files_there) == 3 + 44 + 3 * 3 + 3
    digest = files_there['/a/src/lib.rs'][0]
    assert {files_there[it][0] for it in ['/a/src/twin.rs', '/c.tar!x-1.0/src/lib.rs', '/c-1.0.crate!x-1.0/src/twin.rs',
                                          '/c.tar.gz!x-1.0/src/lib.rs']} == {digest}
    texts = {row[0]: row[1:] for row in found['texts']}
    assert len(texts) == 2 + 40 + 3
    refused = {reason: size for size, _, errors, _, reason in texts.values() if reason}
    assert refused == {'not UTF-8: byte 9': 10, 'too many tokens': 8_388_608}
    deep = texts[files_there['/b/deep.rs'][0]]
    assert deep[0] == 60_009 and deep[2] > 60_000
    mine = [row for row in found['items'] if row[0] == digest]
    assert sorted(row[1:] for row in mine) == sorted(items.items_of(rap.parse(SHAPES)))
    assert sum(row[13] == 1 and row[3] == 'FN' for row in found['items']) == sum(range(1, 41)) + 1


def test_what_is_there_is_not_parsed_again(corpus: Path, capsys: pytest.CaptureFixture[str],
                                           monkeypatch: pytest.MonkeyPatch) -> None:
    out = corpus / 'out.sqlite'
    half = [f'{corpus}/a', f'{corpus}/list']
    assert ran(*half, '--out', str(out), '--jobs', '1') == 0
    assert capsys.readouterr().out == '7 files parsed, 0 with a text that was there, 1 not read\n'
    assert ran(*inputs(corpus), '--out', str(out), '--jobs', '2') == 0
    assert ran(*inputs(corpus), '--out', str(out), '--jobs', '2') == 0
    lines = capsys.readouterr().out.split('\n')
    assert lines[1] == '0 files parsed, 59 with a text that was there, 4 not read'
    whole = corpus / 'whole.sqlite'
    assert ran(*inputs(corpus), '--out', str(whole), '--jobs', '1', '--send') == 0
    assert rows_of(out) == rows_of(whole)


def test_a_database_of_another_kind_is_refused(corpus: Path, capsys: pytest.CaptureFixture[str]) -> None:
    out = str(corpus / 'out.sqlite')
    assert ran(f'{corpus}/a', '--out', out, '--edition', '2021') == 0
    assert ran(f'{corpus}/a', '--out', out) == 2
    assert ran(f'{corpus}/a', '--out', f'{corpus}/a/src/lib.rs') == 2
    assert ran(f'{corpus}/a', '--out', f'{corpus}/nowhere/out.sqlite') == 2
    lines = capsys.readouterr().err.strip().split('\n')
    assert len(lines) == 3 and all(it.startswith('rap-corpus: ') for it in lines)


def part_rows(folder: Path) -> list[dict[str, object]]:
    """The rows of all parts."""
    return [json.loads(line) for it in sorted(folder.glob('*.jsonl.gz'))
            for line in gzip.decompress(it.read_bytes()).decode().splitlines()]


def test_parts(corpus: Path) -> None:
    whole, out, parts = corpus / 'whole.sqlite', corpus / 'out.sqlite', corpus / 'parts'
    assert ran(*inputs(corpus), '--out', str(whole), '--jobs', '2') == 0
    assert ran(*inputs(corpus), '--out', str(out), '--jobs', '2', '--parts', str(parts), '--batch', '0.01') == 0
    wanted, found = rows_of(whole), rows_of(out)
    assert found['items'] == [] and found['texts'] == wanted['texts'] and found['files'] == wanted['files']
    rows = part_rows(parts)
    for table in ['files', 'texts', 'items']:
        mine = [tuple(row.values())[1:] for row in rows if row['table'] == table]
        assert sorted(mine, key=repr) == wanted[table]
    assert not list(parts.glob('*.unfinished'))
    before = {it.name: it.read_bytes() for it in parts.iterdir()}
    again = corpus / 'again'
    assert ran(*inputs(corpus), '--out', f'{out}2', '--jobs', '1', '--parts', str(again), '--batch', '0.01') == 0
    assert {it.name: it.read_bytes() for it in again.iterdir()} == before


def test_an_interrupt_loses_nothing_that_was_done(corpus: Path) -> None:
    for number in range(500):
        (corpus / 'a' / f'{number}.rs').write_text(f'fn f{number}() {{}}\n' * 40)
    out = corpus / 'out.sqlite'
    words = [sys.executable, '-m', 'rap.corpus', f'{corpus}/a', '--out', str(out), '--jobs', '2', '--batch', '0.004']
    process = subprocess.Popen(words, stderr=subprocess.PIPE, stdout=subprocess.PIPE)
    assert process.stderr
    shown, done = b'', 0
    while done < 50 and process.poll() is None:
        shown += os.read(process.stderr.fileno(), 1000)
        done = max([0, *(int(it.split(b'/')[0]) for it in shown.split() if b'/503' in it)])
    process.send_signal(signal.SIGINT)
    shown += process.communicate(timeout=60)[1]
    assert process.returncode == 130 and b'rap-corpus: interrupted; run it again to go on' in shown
    done = max(int(it.split(b'/')[0]) for it in shown.split() if b'/503' in it)
    connection = sqlite3.connect(out)
    stored = connection.execute('SELECT count(*) FROM files JOIN texts USING (digest)').fetchone()[0]
    connection.close()
    assert done <= stored < 503
    whole = corpus / 'whole.sqlite'
    assert ran(f'{corpus}/a', '--out', str(out), '--jobs', '2') == ran(f'{corpus}/a', '--out', str(whole)) == 0
    assert rows_of(out) == rows_of(whole)


def end_of_process(units: list[files.Unit], wanted: list[str], *more: str) -> work.Found:
    """Parses, and ends the process of one of the texts."""
    if any(b'fn f3()' in (it.data or b'') and it.digest in wanted for unit in units for it in files.read(unit)):
        os.kill(os.getpid(), signal.SIGKILL)
    return work.parse(units, wanted, '2024', None)


def test_a_text_that_ends_its_process_is_a_row(corpus: Path, monkeypatch: pytest.MonkeyPatch) -> None:
    monkeypatch.setattr(drive, 'parse', end_of_process)
    store, workers = Store(':memory:', '2024'), Pool(2)
    done: list[int] = []
    driver = drive.Driver(store, workers, '2024', None, False, done.append)
    counts = driver.run(files.batches([f'{corpus}/a', f'{corpus}/b'], 20_000))
    workers.close()
    assert (counts.parsed, counts.known, counts.refused, sum(done)) == (46, 0, 1, 47)
    ended = store.database.execute('SELECT path FROM files JOIN texts USING (digest) WHERE texts.reason = ?',
                                   (drive.ENDED,)).fetchall()
    assert ended == [(f'{corpus}/b/3.rs',)]
    assert store.database.execute('SELECT count(DISTINCT digest) FROM items').fetchone()[0] == 41
    store.close()


def test_a_file_that_changes_while_it_is_read(tmp_path: Path, monkeypatch: pytest.MonkeyPatch) -> None:
    (tmp_path / 'a.rs').write_text('fn f() {}')
    store, workers = Store(':memory:', '2024'), Pool(1)
    driver = drive.Driver(store, workers, '2024', None, False, lambda _: None)
    units = list(files.units_of(str(tmp_path)))
    seen = work.look(units)
    (tmp_path / 'a.rs').write_text('fn g() {}')
    driver.seen(units, seen)
    driver.run(iter([]))
    workers.close()
    assert list(store.database.execute('SELECT * FROM files')) == [(f'{tmp_path}/a.rs', None, drive.CHANGED)]


def test_the_members_of_archives(tmp_path: Path) -> None:
    made = io.BytesIO()
    with tarfile.open(mode='w', fileobj=made) as tar:
        for name, data in [('a.rs', b'fn a() {}'), ('d/b.rs', b'fn b() {}' * 100), ('c.txt', b'x')]:
            member = tarfile.TarInfo(name)
            member.size = len(data)
            tar.addfile(member, io.BytesIO(data))
    for name, data in [('x.tar', made.getvalue()), ('x.crate', gzip.compress(made.getvalue()))]:
        (tmp_path / name).write_bytes(data)
        read = [it for unit in files.units_of(str(tmp_path / name)) for it in files.read(unit)]
        assert [(it.path, it.data) for it in read] == [(f'{tmp_path}/{name}!a.rs', b'fn a() {}'),
                                                       (f'{tmp_path}/{name}!d/b.rs', b'fn b() {}' * 100)]
    (tmp_path / 'cut.crate').write_bytes(gzip.compress(made.getvalue())[:-40])
    read = [it for unit in files.units_of(str(tmp_path / 'cut.crate')) for it in files.read(unit)]
    assert [it.path for it in read][-1] == f'{tmp_path}/cut.crate' and read[-1].reason


def test_names_that_are_not_utf8(tmp_path: Path) -> None:
    folder, out = os.fsencode(tmp_path / 'corpus'), tmp_path / 'out.sqlite'
    os.mkdir(folder)
    with open(folder + b'/\xff.rs', 'wb') as file:
        file.write(b'fn f() {}')
    listed = tmp_path / 'list'
    listed.write_bytes(folder + b'/\xff.rs\n')
    assert ran(os.fsdecode(folder), str(listed), '--out', str(out), '--jobs', '1') == 0
    found = [(path, bool(digest)) for path, digest, _ in rows_of(out)['files']]
    assert found == [(f'{tmp_path}/corpus/\\xff.rs', True)]


def test_batches_are_of_a_size(tmp_path: Path) -> None:
    for number in range(10):
        (tmp_path / f'{number}.rs').write_text('x' * 1000)
    assert [len(it) for it in files.batches([str(tmp_path)], 3000)] == [3, 3, 3, 1]
    started = time.monotonic()
    assert next(files.batches([str(tmp_path)], 1))[0].path.endswith('0.rs') and time.monotonic() - started < 5
