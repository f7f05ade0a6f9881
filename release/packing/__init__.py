"""What the scripts of release/ share: the version, how a tool is run, and which tools must be there."""
import os
import re
import shutil
import subprocess
import sys
from collections.abc import Sequence
from typing import Optional

TOP = os.path.dirname(os.path.dirname(os.path.dirname(os.path.abspath(__file__))))
HERE = f'{TOP}/release'

# Counts the releases of one version of the Rust crate: Debian's revision.
REVISION = 1

# Debian's name of the processor, and its folder for libraries of it.
PROCESSOR, TRIPLET = 'amd64', 'x86_64-linux-gnu'

# Each tool, with Debian's package of it.
TOOLS = {'ar': 'binutils', 'cargo': 'cargo', 'cc': 'gcc', 'dpkg-deb': 'dpkg', 'dpkg-gensymbols': 'dpkg-dev',
         'git': 'git', 'ld': 'binutils', 'lintian': 'lintian', 'nm': 'binutils', 'objcopy': 'binutils',
         'objdump': 'binutils', 'scdoc': 'scdoc', 'strip': 'binutils'}


class Refused(Exception):
    """Why no package is made."""


def output(words: Sequence[str], folder: str = TOP, epoch: Optional[int] = None) -> str:
    """What a tool prints. Its language, its time zone and its clock are fixed."""
    fixed = {'LC_ALL': 'C.UTF-8', 'TZ': 'UTC', **({} if epoch is None else {'SOURCE_DATE_EPOCH': str(epoch)})}
    done = subprocess.run(words, cwd=folder, env={**os.environ, **fixed}, stdout=subprocess.PIPE,
                          stderr=subprocess.PIPE, text=True, check=False)
    if done.returncode:
        raise Refused(f'{" ".join(words)} ended with the status {done.returncode}\n{done.stdout}{done.stderr}'.rstrip())
    return done.stdout


def missing_packages() -> list[str]:
    """The packages of Debian whose tools are not there."""
    return sorted({package for tool, package in TOOLS.items() if not shutil.which(tool)})


def need_tools() -> None:
    """Refuses with one line where tools are missing."""
    missing = missing_packages()
    if missing:
        raise Refused(f'needs packages of Debian: apt install {" ".join(missing)}')


def read(path: str) -> str:
    """A file of the repository."""
    with open(f'{TOP}/{path}', encoding='utf-8') as file:
        return file.read()


def bytes_of(path: str) -> bytes:
    """The bytes of a file."""
    with open(path, 'rb') as file:
        return file.read()


def crate_version() -> str:
    """The version of the Rust crate, whose behaviour the parser has."""
    found = re.search(r'(?m)^version = "([^"]+)"$', read('bindings/rust/Cargo.toml'))
    if not found:
        raise Refused('bindings/rust/Cargo.toml names no version')
    return found[1]


def version() -> str:
    """The version of the packages."""
    return f'{crate_version()}-{REVISION}'


def filled(text: str, parts: dict[str, str]) -> str:
    """A text in which each `@NAME@` is replaced."""
    return re.sub(r'@([A-Z]+)@', lambda it: parts[it[1]], text)


def ended(name: str, main) -> int:
    """The status of a script, whose refusal is one line on the error stream."""
    try:
        return main()
    except Refused as why:
        print(f'{name}: {why}', file=sys.stderr)
        return 2
