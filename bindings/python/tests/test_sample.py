"""What `rast` prints: the replayed sample, and files."""
import glob
import os
import subprocess
import sys

import pytest

import rap

TOP = os.path.dirname(os.path.dirname(os.path.dirname(os.path.dirname(os.path.abspath(__file__)))))
sys.path.insert(0, f'{TOP}/tests')

from support.sample import SAMPLE, TOPS, fnv1a, lines_of, unquoted  # noqa: E402

RAST = os.environ.get('RAST') or f'{TOP}/crates/rast/out/rast'


def test_the_replayed_sample() -> None:
    rows = [it.split(' ', 3) for it in lines_of(SAMPLE) if it and it.split(' ')[1] in TOPS]
    wrong = []
    for edition, entry, wanted, quoted in rows:
        printed = rap.parse(unquoted(quoted), edition, entry).dump()
        if fnv1a(printed.encode()) != int(wanted, 16):
            wrong.append((edition, entry, quoted))
    assert len(rows) > 9000 and wrong == []


@pytest.mark.parametrize('edition, entry', [('2024', 'SourceFile'), ('2015', 'Expr'), ('2021', 'MacroStmts')])
@pytest.mark.parametrize('more', [[], ['ranges']])
def test_files_as_rast_prints_them(edition: str, entry: str, more: list[str]) -> None:
    files = [f'{TOP}/README.md', f'{TOP}/include/rap.h', *glob.glob(f'{TOP}/crates/*/data/*.rs'),
             *glob.glob(f'{TOP}/bindings/*/src/**/*.rs', recursive=True)]
    assert len(files) > 30
    for file in files:
        done = subprocess.run([RAST, edition, entry, file, *more], stdout=subprocess.PIPE, check=False)
        with open(file, 'rb') as text:
            tree = rap.parse(text.read(), edition, entry)
        assert (tree.dump(bool(more)).encode(), int(bool(tree.errors))) == (done.stdout, done.returncode), file


def test_all_kinds_have_the_names_of_the_library() -> None:
    with open(f'{TOP}/include/rap_kinds.h', encoding='utf-8') as file:
        rows = [it.split() for it in file if it.startswith('    RAP_KIND_')]
    assert [(it[0], int(it[2].rstrip(','))) for it in rows] == [(f'RAP_KIND_{it.name}', int(it)) for it in rap.Kind]
