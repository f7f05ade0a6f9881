"""Packages of Debian: their fields, their documents, and how they are written."""
import datetime
import hashlib
import os
import re

from packing import HERE, PROCESSOR, Refused, bytes_of, filled, output, read
from packing.folder import Folder, zipped

MAINTAINER = 'Wifkoans maintainers <maintainers@users.noreply.wifkoans.example>'

# What all descriptions end with.
COMMON = [
    'The parser has the trees and the messages of rust-analyzer\'s parser, the',
    'Rust crate ra_ap_parser. It reads any text, right or wrong, and returns one',
    'tree that holds every byte of it. Each of its functions was proved to meet',
    'its contract before it was built.']

DESCRIPTIONS = {
    'rast': ['syntax trees of Rust: programs that print them',
             'The program rast prints the syntax tree of a file, rast_page writes a page',
             'that shows the file beside it, rast_lex prints the tokens of a file, and',
             'rast_steps the steps of which a tree is made. The program rast_core tells',
             'whether the tree of a file is proved.', '', *COMMON],
    'rast-server': ['language server for any text of Rust',
                    'The program rast_server answers an editor by the Language Server Protocol:',
                    'messages of the parser, symbols, folds, selections, tokens to colour, and',
                    'the syntax tree. It needs no project and no toolchain.', '', *COMMON],
    'librap0': ['lossless parser of Rust: shared library',
                'The library fills arrays of the caller with the steps of a tree.', '', *COMMON],
    'librap-dev': ['lossless parser of Rust: header and static library',
                   'The header, the static library, files for pkg-config and for CMake, and',
                   'programs in C as examples.', '', *COMMON],
    'python3-rap': ['syntax trees of Rust from Python',
                    'The package shows trees as nodes and as NumPy arrays, and has the command',
                    'rap-corpus, which collects the items of many files in a database.', '', *COMMON]}


def least_glibc(files: list[str]) -> str:
    """The oldest version of the C library that has all names which these files take of it."""
    found = [it for file in files for it in re.findall(r'GLIBC_([0-9.]+)', output(['objdump', '-T', file]))]
    if not found:
        raise Refused(f'{files[0]} takes nothing of the C library')
    return max(found, key=lambda it: [int(part) for part in it.split('.')])


def depends(files: list[str]) -> str:
    """Debian's words for the C library that these files need."""
    return f'libc6 (>= {least_glibc(files)})'


def changelog(version: str, epoch: int) -> bytes:
    """Debian's list of changes, which leads to the release's own."""
    date = datetime.datetime.fromtimestamp(epoch, datetime.timezone.utc).strftime('%a, %d %b %Y %H:%M:%S +0000')
    return (f'rap ({version}) unstable; urgency=medium\n\n  * Release: changelog.gz says what a user notices.\n\n'
            f' -- {MAINTAINER}  {date}\n').encode()


def indented(text: str) -> str:
    """A text as a paragraph of a field."""
    return '\n'.join(f' {line}'.rstrip() if line.strip() else ' .' for line in text.rstrip().split('\n'))


def copyright_file() -> bytes:
    """The licences, as Debian reads them."""
    mit, unicode = read('LICENSE-MIT').split('\n', 2)[2], read('LICENSE-UNICODE')
    return filled(read('release/copyright'), {'MIT': indented(mit), 'UNICODE': indented(unicode)}).encode()


def add_documents(folder: Folder, package: str, version: str, epoch: int) -> None:
    """The documents that each package of Debian has."""
    at = f'usr/share/doc/{package}'
    folder.write(f'{at}/copyright', copyright_file())
    folder.write(f'{at}/changelog.gz', zipped(read('CHANGELOG.md').encode()))
    folder.write(f'{at}/changelog.Debian.gz', zipped(changelog(version, epoch)))


def write_package(folder: Folder, fields: dict[str, str], target: str, epoch: int) -> None:
    """Adds the sums and the fields to a folder, and writes its package."""
    sums, size = '', 0
    for name in [it for it in folder.all() if not it.startswith('DEBIAN')]:
        at = f'{folder.at}/{name}'
        is_file = os.path.isfile(at) and not os.path.islink(at)
        size += (os.path.getsize(at) + 1023) // 1024 if is_file else 1
        if is_file:
            sums += f'{hashlib.md5(bytes_of(at)).hexdigest()}  {name}\n'
    folder.write('DEBIAN/md5sums', sums.encode())
    first, *lines = DESCRIPTIONS[fields['Package']]
    described = ''.join(f'\n {line or "."}' for line in lines)
    all_fields = {'Package': fields['Package'], 'Source': 'rap', 'Architecture': PROCESSOR, 'Maintainer': MAINTAINER,
                  'Installed-Size': str(size), 'Priority': 'optional', **fields, 'Description': first + described}
    folder.write('DEBIAN/control', ''.join(f'{key}: {value}\n' for key, value in all_fields.items()).encode())
    folder.fix(epoch)
    output(['dpkg-deb', '--root-owner-group', '-Zxz', '-z6', '--threads-max=1', '--build', folder.at, target],
           HERE, epoch)
