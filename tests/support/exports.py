"""Tests of the static library in C: the lines that they read, how they are compiled, and what they answer."""
import os
import re
import subprocess
from collections.abc import Iterable, Iterator
from typing import Union

from support import TOP
from support.sample import PREFIXES, TOPS, Row

# The exports that cut script sources.
SCRIPT_CALLS = [['script'], ['shebang'], ['blank']]

# Literals, by the exports and the kinds.
LITERALS = [(['string', 'STRING'], '"a\\n\\u{e9}"'), (['string', 'STRING'], 'r#"ab"#'),
            (['string', 'BYTE_STRING'], 'b"\\xff\\0a"'), (['string', 'C_STRING'], 'c"\\xffa"x'),
            (['string', 'STRING'], '"\\q"'), (['string', 'CHAR'], "'a'"), (['number', 'INT_NUMBER'], '0xff_u8'),
            (['number', 'INT_NUMBER'], '0b12'), (['number', 'FLOAT_NUMBER'], '1_5.25e-1f32'),
            (['number', 'FLOAT_NUMBER'], '1e'), (['number', 'CHAR'], "'\\n'"), (['number', 'BYTE'], "b'a'x"),
            (['number', 'STRING'], '"a"')]


def line_of(words: list[str], text: Union[str, bytes]) -> str:
    """A line that `tests/c/exports.h` reads."""
    return ' '.join([*words, '=' + (text if isinstance(text, bytes) else text.encode()).hex()])


def calls_of_rows(found: Iterable[Row]) -> Iterator[str]:
    """The calls that read rows of the replayed sample as these say."""
    for _line, edition, way, text in found:
        head, *rest = way.split('/')
        if head == 'SourceFile':
            yield line_of(['core', edition], text)
        if head in TOPS:
            yield line_of(['tree', edition, str(TOPS.index(head))], text)
            yield line_of(['words', edition, str(TOPS.index(head))], text)
            yield line_of(['nodes', edition, str(TOPS.index(head))], text)
            yield line_of(['tokens', edition], text)
        elif head == 'prefix':
            yield line_of(['prefix', edition, str(PREFIXES.index(rest[0]))], text)
            yield line_of(['prefix_nodes', edition, str(PREFIXES.index(rest[0]))], text)
        elif head == 'reparse':
            yield line_of(['reparse', edition, *rest], text)
            yield line_of(['reparse_nodes', edition, *rest], text)


def kit() -> str:
    """The toolchain's folder."""
    named = os.environ.get('RATTLE_KIT')
    if named:
        return named
    return os.path.dirname(subprocess.check_output(['rt', 'doc'], text=True).strip())


def library() -> list[str]:
    """The static library, built where it is not newer than its sources, and the kit's memory functions."""
    found = kit()
    subprocess.run([f'{TOP}/examples/build'], cwd=TOP, env={**os.environ, 'RATTLE_KIT': found}, check=True)
    return [f'{TOP}/crates/rap_c/out/librap_c.a', f'{found}/c/liblibc_c.a']


def compile_test(name: str, folder: str) -> str:
    """Compiles a test of the exports. Returns the program."""
    words = ['cc', '-std=gnu99', '-Wall', '-Wextra', '-Werror', '-O2', '-pthread', f'-I{TOP}/include']
    subprocess.run([*words, f'{TOP}/tests/c/{name}.c', *library(), '-o', f'{folder}/{name}'], check=True)
    return f'{folder}/{name}'


def run_test(program: str, lines: Iterable[str]) -> tuple[int, int, int]:
    """Gives lines to a test of the exports. Returns how many calls it made and how many lines passed and failed."""
    done = subprocess.run([program], input='\n'.join(lines) + '\n', stdout=subprocess.PIPE, text=True, check=False)
    found = re.fullmatch(r'(.*)^(\d+) calls\n(\d+) passed, (\d+) failed\n', done.stdout, re.DOTALL | re.MULTILINE)
    if not found or (done.returncode != 0) != (int(found[4]) > 0 or bool(found[1])):
        print(f'{os.path.basename(program)} ended with the status {done.returncode}\n{done.stdout}')
        return 0, 0, 1
    print(found[1], end='')
    return int(found[2]), int(found[3]), int(found[4])
