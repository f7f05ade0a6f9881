#!/usr/bin/python3
"""Runs the tests of the package for Python: `bindings/python/test [--or-leave-out] [WORD..]`; the words are passed on
to pytest.

RAP_LIBRARY names the shared library. Without it, the library is made as a release makes it, of the static library that
`examples/build` has left in crates/rap_c/out and of the kit's memory functions. RAST names the program `rast`, without
it crates/rast/out/rast. With Debian's own Python and packages; what is missing is named in one line, with the status
2, and 0 with the first word."""
import importlib.util
import os
import signal
import subprocess
import sys
import tempfile

sys.dont_write_bytecode = True

PACKAGE = os.path.dirname(os.path.dirname(os.path.abspath(__file__)))
TOP = os.path.dirname(os.path.dirname(PACKAGE))
sys.path[:0] = [f'{TOP}/release', f'{TOP}/tests']

from packing import Refused, ended, library, output  # noqa: E402
from support.left_out import leave_out  # noqa: E402

NEEDED = {'cffi': 'python3-cffi', 'numpy': 'python3-numpy', 'tqdm': 'python3-tqdm', 'pytest': 'python3-pytest',
          'hypothesis': 'python3-hypothesis', 'distributed': 'python3-distributed'}


def static_library() -> str:
    """The static library. Refused where it is not there."""
    found = f'{TOP}/crates/rap_c/out/librap_c.a'
    if not os.path.exists(found):
        raise Refused('crates/rap_c/out/librap_c.a is not there: run examples/build, or name a library by RAP_LIBRARY')
    return found


def shared_library(folder: str) -> str:
    """The shared library, which is made in a folder if none is named."""
    named = os.environ.get('RAP_LIBRARY')
    if named:
        return os.path.abspath(named)
    kit = os.environ.get('RATTLE_KIT') or os.path.dirname(output(['rt', 'doc']).strip())
    library.make_libraries(static_library(), f'{kit}/c/liblibc_c.a', folder)
    return f'{folder}/{library.SONAME}'


def main() -> int:
    missing = sorted(package for module, package in NEEDED.items() if not importlib.util.find_spec(module))
    words = sys.argv[1:]
    if words[:1] == ['--or-leave-out']:
        words = words[1:]
        if missing:
            leave_out('tests/run', 'bindings/python/test: left out, as these packages of Debian are not there: '
                      + ' '.join(missing))
            return 0
    if missing:
        raise Refused(f'needs packages of Debian: apt install {" ".join(missing)}')
    rast = os.path.abspath(os.environ.get('RAST') or f'{TOP}/crates/rast/out/rast')
    if not os.path.exists(rast):
        raise Refused('crates/rast/out/rast is not there: run examples/build, or name the program by RAST')
    with tempfile.TemporaryDirectory() as folder:
        named = {'RAP_LIBRARY': shared_library(folder), 'RAST': rast, 'PYTHONPATH': PACKAGE,
                 'PYTHONDONTWRITEBYTECODE': '1'}
        # A shell has what it runs in the background ignore the interrupts that some tests send.
        signal.signal(signal.SIGINT, signal.default_int_handler)
        line = [sys.executable, '-m', 'pytest', *words]
        return subprocess.run(line, cwd=PACKAGE, env={**os.environ, **named}, check=False).returncode


if __name__ == '__main__':
    sys.exit(ended('bindings/python/test', main))
