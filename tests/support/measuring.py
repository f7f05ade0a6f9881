"""What a program takes, and the texts that are measured."""
import os
import re
import shutil
import subprocess
import sys
import tempfile
from typing import NamedTuple, Optional

# What the lexer meets in a text of marks: each character is a token.
MARKS = ';,@#~?:$=!<>-&|+*^%'


class Run(NamedTuple):
    """What a run of a program printed, and what it took."""

    out: str
    milliseconds: float
    """of a processor"""
    megabytes: float
    """of memory at most"""


def ran(words: list[str], more: Optional[dict[str, str]] = None, out_file: str = '') -> Run:
    """Runs a program, whose output goes to a file if one is named. More variables go to its environment. Its memory is
    what Debian's `time` says, which is small: of a program that a script starts, the system counts what the script held
    when it divided. Where `time` is not there, that counts too."""
    small = shutil.which('time')
    with tempfile.NamedTemporaryFile('r') as said, open(out_file or os.devnull, 'wb') as file:
        measured = [small, '--quiet', '--format=%M', f'--output={said.name}'] if small else []
        to = file.fileno() if out_file else subprocess.PIPE
        process = subprocess.Popen([*measured, *words], stdout=to, env={**os.environ, **(more or {})})
        out = process.stdout.read() if process.stdout else b''
        _, status, used = os.wait4(process.pid, 0)
        process.returncode = os.waitstatus_to_exitcode(status)
        kilobytes = int(said.read()) if small else used.ru_maxrss
    if process.returncode not in (0, 1):
        sys.exit(f'{" ".join(words)} ended with the status {process.returncode}')
    return Run(out.decode(errors='replace'), 1e3 * (used.ru_utime + used.ru_stime), kilobytes / 1024)


def number(out: str, pattern: str) -> float:
    """The number that a pattern finds in what a program printed."""
    found = re.search(pattern, out)
    if not found:
        sys.exit(f'no {pattern} in\n{out}')
    return float(found[1])


def table(head: list[str], rows: list[list[str]]) -> None:
    """Prints a table."""
    for row in [head, ['---'] * len(head), *rows]:
        print(f'| {" | ".join(row)} |', flush=True)


def megabytes(file: str) -> str:
    """The size of a file."""
    return f'{os.path.getsize(file) / 1e6:.1f} MB'


def front(text: bytes, size: int) -> bytes:
    """The lines at the front of a text, over and over if it is short, of so many bytes or a few more."""
    text *= -(-size // len(text))
    end = text.find(b'\n', size)
    return text[:end + 1] if end >= 0 else text


def written(folder: str, name: str, text: bytes) -> str:
    """A file with a text."""
    with open(f'{folder}/{name}', 'wb') as file:
        file.write(text)
    return f'{folder}/{name}'


def comments() -> bytes:
    """8.5 MB of comments."""
    lines = '// a comment of some words, as they stand above a function\n/* one of\n   two lines */\n/// and of a doc\n'
    return (lines * 83_000).encode()


def short_strings() -> bytes:
    """9.7 MB of arrays of short strings and characters."""
    return b'const A: &[(&str, char)] = &[' + b'("ab", \'c\'), ("", \'\\n\'), ("d e", \'f\'), ' * 250_000 + b'];\n'


def marks() -> bytes:
    """4.9 MB of punctuation."""
    return (MARKS * 260_000)[:4_900_000].encode()
