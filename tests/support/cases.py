"""Cases of programs, as `tests/NAME.cases` holds them: `tests/run` says in which form."""
import json
import os
import re
import subprocess
import sys
from typing import IO, NamedTuple, Optional, Union

from support import TOP, built

TEXT = r'(b?)("(?:[^"\\]|\\.)*")'
HEAD = re.compile(rf'\$ (\S+)((?: \S+)*?)( > full)?(?: {TEXT})?(?: < {TEXT})? = (\d+)')


def cases_of(file: str) -> list[tuple[str, dict[str, list[str]]]]:
    """The cases of a file: its head, and the lines below it by their marks."""
    cases: list[tuple[str, dict[str, list[str]]]] = []
    with open(file, encoding='utf-8', newline='') as lines:
        for line in lines.read().split('\n'):
            if line.startswith('$ '):
                cases.append((line, {'|': [], '~': [], '*': [], '!': []}))
            elif line[:1] in ('|', '~', '*', '!'):
                cases[-1][1][line[0]].append(line[2:])
            elif line and not line.startswith('# '):
                sys.exit(f'{file}: a line that is none of a case: {line}')
    return cases


def word_of(word: str) -> bytes:
    """The bytes of a word. One that begins with `@` names a file of the repository."""
    if word.startswith('@'):
        return os.fsencode(f'{TOP}/{word[1:]}')
    return re.sub(rb'\\x([0-9a-f]{2})', lambda it: bytes.fromhex(it[1].decode()), word.encode())


def bytes_of(in_bytes: str, text: str) -> bytes:
    """The bytes of a text of a case."""
    return str(json.loads(text)).encode('latin-1' if in_bytes else 'utf-8')


class Run(NamedTuple):
    """What a case asks for."""
    program: str
    words: list[bytes]
    # The standard input.
    given: bytes
    # Whether the standard output is a device that refuses what is written.
    is_refused: bool
    # The status that is wanted.
    status: int


def words_of(line: str, in_bytes: str, text: Optional[str], folder: str, name: str) -> list[bytes]:
    """The words of a case, whose file is written into the folder if it has a text, and has this name in the words."""
    words = line.split()
    if text is not None:
        with open(f'{folder}/a.rs', 'wb') as file:
            file.write(bytes_of(in_bytes, text))
        words = [it.replace('FILE', name) for it in words] if 'FILE' in words else [*words, name]
    return [word_of(it) for it in words]


def run_of(head: str, folder: str, name: str = 'a.rs') -> Run:
    """What a case asks for, its file written into the folder; it has this name in the words."""
    found = HEAD.fullmatch(head)
    if not found:
        sys.exit(f'this is no head of a case: {head}')
    program, line, full, in_bytes, text, given_in_bytes, given, status = found.groups()
    words = words_of(line, in_bytes, text, folder, name)
    return Run(program, words, bytes_of(given_in_bytes, given) if given else b'', full is not None, int(status))


def shown(stream: bytes, folder: str) -> str:
    """What a program wrote, without the folder of the case's file, and with `@` for that of the repository."""
    return stream.decode(errors='backslashreplace').replace(f'{folder}/', '').replace(f'{TOP}/', '@')


def ran(run: Run, folder: str) -> tuple[int, str, str]:
    """Runs what a case asks for, in the folder of its file. Gives the status and both streams."""
    with open('/dev/full', 'wb') as device:
        to: Union[int, IO[bytes]] = device if run.is_refused else subprocess.PIPE
        started = [*map(os.fsencode, built(run.program)), *run.words]
        done = subprocess.run(started, cwd=folder, input=run.given, stdout=to, stderr=subprocess.PIPE, check=False)
    return done.returncode, shown(done.stdout or b'', folder), shown(done.stderr, folder)


def has_lines(wanted: str, out: str) -> bool:
    """Whether so many lines of the output are matched by a pattern as `COUNT PATTERN` says."""
    count, _, pattern = wanted.partition(' ')
    return sum(bool(re.fullmatch(pattern, it)) for it in out.split('\n')) == int(count)


def is_as(lines: dict[str, list[str]], out: str, err: str) -> bool:
    """Whether both streams are as the lines of a case say."""
    if lines['~'] or lines['*']:
        is_out = all(it in out for it in lines['~']) and all(has_lines(it, out) for it in lines['*'])
    else:
        is_out = out == ''.join(f'{it}\n' for it in lines['|'])
    return is_out and err == ''.join(f'{it}\n' for it in lines['!'])


def is_as_wanted(head: str, lines: dict[str, list[str]], folder: str) -> bool:
    """Whether a case is as its lines say, of the built program."""
    run = run_of(head, folder)
    status, out, err = ran(run, folder)
    return status == run.status and is_as(lines, out, err)
