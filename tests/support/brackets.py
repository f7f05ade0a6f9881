"""The pages of nested brackets, each line worked out here, and runs of programs that must print them."""
import resource
import subprocess
from collections.abc import Iterator
from typing import IO

from support import built

# How many bytes a process may map.
MEMORY = 128 << 20

# The steps of a level in the page of rast_page, and how many bytes that has beside them, at most.
OPENED, CLOSED = b',1,"SLICE_TYPE",2,"L_BRACK","["', b',2,"R_BRACK","]",0'
FIXED = 64 << 10


def lines_of(depth: int, has_ranges: bool) -> Iterator[tuple[int, str]]:
    """The lines of the type `[[.. _ ..]]`, each as how many columns it is indented and what it says."""
    def line(level: int, kind: str, start: int, end: int, text: str = '') -> tuple[int, str]:
        return 2 * level, kind + (f'@{start}..{end}' if has_ranges else '') + text

    for i in range(depth):
        yield line(i, 'SLICE_TYPE', i, 2 * depth + 1 - i)
        yield line(i + 1, 'L_BRACK', i, i + 1, ' "["')
    yield line(depth, 'INFER_TYPE', depth, depth + 1)
    yield line(depth + 1, 'UNDERSCORE', depth, depth + 1, ' "_"')
    for i in range(depth):
        yield line(depth - i, 'R_BRACK', depth + 1 + i, depth + 2 + i, ' "]"')


def steps_of(depth: int) -> Iterator[str]:
    """The lines of the steps of that type, and where it ends."""
    yield from ['enter SLICE_TYPE', 'token L_BRACK 1'] * depth
    yield from ['enter INFER_TYPE', 'token UNDERSCORE 1', 'exit']
    yield from ['token R_BRACK 1', 'exit'] * depth
    yield from [f'used {2 * depth + 1}', 'tree']


def is_page(program: str, out: IO[bytes], words: list[str], depth: int) -> bool:
    """Whether the program prints what it must."""
    if program == 'rast_page':
        page = out.read()
        beside = len(page) - depth * len(OPENED + CLOSED)
        return page.count(OPENED) == depth and page.count(CLOSED) == depth and beside <= FIXED
    if program == 'rast_steps' and not all(out.readline() == f'{it}\n'.encode() for it in steps_of(depth)):
        return False
    is_same = all(out.readline() == b' ' * columns + f'{it}\n'.encode()
                  for columns, it in lines_of(depth, 'ranges' in words))
    return is_same and out.read(1) == b''


def limit() -> None:
    """Limits the memory of a process, but not the part of it that is its stack."""
    _soft, hard = resource.getrlimit(resource.RLIMIT_STACK)
    resource.setrlimit(resource.RLIMIT_STACK, (8 << 20, hard))
    resource.setrlimit(resource.RLIMIT_AS, (MEMORY, MEMORY))
    resource.setrlimit(resource.RLIMIT_CORE, (0, 0))


def is_well(program: str, line: str, depth: int, folder: str) -> bool:
    """Whether a run of the built program, with little memory, prints what it must, nothing on the standard error, and
    returns the status 0."""
    with open(f'{folder}/a.rs', 'w', encoding='ascii') as file:
        file.write('[' * depth + '_' + ']' * depth)
    words = [f'{folder}/a.rs' if it == 'FILE' else it for it in line.split()]
    with subprocess.Popen([*built(program), *words], stdout=subprocess.PIPE, stderr=subprocess.PIPE, bufsize=1 << 20,
                          preexec_fn=limit) as done:
        assert done.stdout and done.stderr
        is_same = is_page(program, done.stdout, words, depth)
        done.stdout.close()
        err = done.stderr.read()[:200]
    if not is_same or err or done.returncode:
        print(f'{program} {" ".join(words)}: status {done.returncode} {err.decode(errors="backslashreplace")}')
        return False
    return True
