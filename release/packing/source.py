"""What a release is made of: the crates below what is packed, and the sums of what their checks left."""
import hashlib
import os
import re
from concurrent.futures import ThreadPoolExecutor

from packing import TOP, Refused, bytes_of, output, read

# What is packed of the crates: the programs of the package rast, the language server, and the static library.
RAST = ['rast', 'rast_core', 'rast_lex', 'rast_page', 'rast_steps']
SERVER = 'rast_server'
PROGRAMS = [*RAST, SERVER]
LIBRARY = 'rap_c'


def uses() -> dict[str, list[str]]:
    """What each crate uses of the others."""
    rows = re.findall(r'(?m)^(\w+)(?: staticlib)?:(.*)$', read('crates.txt'))
    names = {name for name, _ in rows}
    return {name: [it for it in words.split() if it in names] for name, words in rows}


def below() -> list[str]:
    """The libraries that the packed crates stand on, each after those that it uses."""
    found: list[str] = []
    all_uses = uses()

    def add(name: str) -> None:
        for it in all_uses[name]:
            add(it)
        if name not in found and name not in [*PROGRAMS, LIBRARY]:
            found.append(name)

    for name in [*PROGRAMS, LIBRARY]:
        add(name)
    return found


def folder_of(name: str) -> str:
    """The folder in which the check of a library leaves what it compiled."""
    return f'crates/{name}/out/rlib/{name}.rlib'


def sum_of(folder: str) -> str:
    """The sum of all files of a folder and of their names."""
    found = hashlib.sha256()
    for at, folders, files in os.walk(f'{TOP}/{folder}'):
        folders.sort()
        for name in sorted(files):
            path = f'{at}/{name}'
            found.update(os.path.relpath(path, f'{TOP}/{folder}').encode() + b'\0')
            found.update(hashlib.sha256(bytes_of(path)).digest())
    return found.hexdigest()


def sums() -> dict[str, dict[str, str]]:
    """Of each crate Git's sum of its files; of each library also the sum of what its check has left compiled."""
    found = {}
    for name in [*below(), *PROGRAMS, LIBRARY]:
        found[name] = {'source': output(['git', 'rev-parse', f'HEAD:crates/{name}']).strip()}
    for name in below():
        if not os.path.isdir(f'{TOP}/{folder_of(name)}'):
            raise Refused(f'{folder_of(name)} is not there: run `rt ci` first')
    # Some gigabytes are read, and the sum of a file is made beside others.
    with ThreadPoolExecutor(os.cpu_count()) as pool:
        for name, library in zip(below(), pool.map(sum_of, map(folder_of, below()))):
            found[name]['library'] = library
    return found
