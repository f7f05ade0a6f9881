"""The package for Python: its wheel, which holds the shared library, and its package of Debian, which calls the
system's."""
import base64
import hashlib
import os
import time
import tomllib
import zipfile

from packing import TOP, bytes_of, crate_version, output, read
from packing.folder import Folder
from packing.library import SONAME

# The folder of the package, and what it is called.
FROM = 'bindings/python'
NAME = 'rap'

# For each Python from the one that the project names, on Linux with the C library that the shared library needs.
TAG = 'py3-none-manylinux_2_34_x86_64'

LICENCES = ['LICENSE-APACHE', 'LICENSE-MIT', 'LICENSE-UNICODE', 'docs/LICENSES.md']

# Debian's package, and the fields that it has beside those of all packages.
PACKAGE = 'python3-rap'
FIELDS = {'Section': 'python', 'Architecture': 'all', 'Recommends': 'python3-tqdm', 'Suggests': 'python3-distributed'}
NEEDED = 'python3 (>= 3.11), python3-cffi, python3-numpy, librap0 (>= {0})'

# The command of the package.
COMMAND = 'rap-corpus'


def wheel() -> str:
    """The name of the wheel."""
    return f'{NAME}-{crate_version()}-{TAG}.whl'


def project() -> dict:
    """What the package says of itself."""
    return tomllib.loads(read(f'{FROM}/pyproject.toml'))['project']


def metadata() -> bytes:
    """The same in the form in which an installed package has it."""
    said = project()
    lines = ['Metadata-Version: 2.1', f'Name: {said["name"]}', f'Version: {said["version"]}',
             f'Summary: {said["description"]}', f'License: {said["license"]["text"]}',
             *(f'Classifier: {it}' for it in said['classifiers']), f'Requires-Python: {said["requires-python"]}',
             *(f'Requires-Dist: {it}' for it in said['dependencies'])]
    for name, needs in said['optional-dependencies'].items():
        lines += [f'Provides-Extra: {name}', *(f'Requires-Dist: {it} ; extra == "{name}"' for it in needs)]
    return '\n'.join([*lines, 'Description-Content-Type: text/markdown', '', read(f'{FROM}/README.md')]).encode()


def modules() -> dict[str, bytes]:
    """The modules, and the metadata beside them."""
    names = output(['git', 'ls-files', '-z', f'{FROM}/{NAME}']).split('\0')
    found = {os.path.relpath(it, FROM): bytes_of(f'{TOP}/{it}') for it in names if it}
    info = f'{NAME}-{crate_version()}.dist-info'
    scripts = ''.join(f'{name} = {call}\n' for name, call in project()['scripts'].items())
    found[f'{info}/METADATA'] = metadata()
    found[f'{info}/entry_points.txt'] = f'[console_scripts]\n{scripts}'.encode()
    return found


def record(files: dict[str, bytes], name: str) -> bytes:
    """A wheel's list of its files, with their sums."""
    lines = []
    for path, data in files.items():
        digest = base64.urlsafe_b64encode(hashlib.sha256(data).digest()).rstrip(b'=').decode()
        lines.append(f'{path},sha256={digest},{len(data)}\n')
    return ''.join([*lines, f'{name},,\n']).encode()


def write_wheel(work: str, dist: str, epoch: int) -> None:
    """Writes the wheel into a folder. `work` has the shared library."""
    files = {**modules(), f'{NAME}/{SONAME}': bytes_of(f'{work}/{SONAME}')}
    info = f'{NAME}-{crate_version()}.dist-info'
    files.update({f'{info}/licenses/{os.path.basename(it)}': bytes_of(f'{TOP}/{it}') for it in LICENCES})
    files[f'{info}/WHEEL'] = f'Wheel-Version: 1.0\nGenerator: rap\nRoot-Is-Purelib: false\nTag: {TAG}\n'.encode()
    files[f'{info}/RECORD'] = record(files, f'{info}/RECORD')
    with zipfile.ZipFile(f'{dist}/{wheel()}', 'w', zipfile.ZIP_DEFLATED) as out:
        for path, data in files.items():
            entry = zipfile.ZipInfo(path, time.gmtime(epoch)[:6])
            entry.external_attr, entry.compress_type = 0o100644 << 16, zipfile.ZIP_DEFLATED
            out.writestr(entry, data)


def add_package(folder: Folder, page: str) -> dict[str, str]:
    """Fills the folder of Debian's package, and returns its fields. `page` is the manual page of the command."""
    for name, data in modules().items():
        folder.write(f'usr/lib/python3/dist-packages/{name}', data)
    folder.copy(f'usr/bin/{COMMAND}', f'{TOP}/{FROM}/debian/{COMMAND}', 0o755)
    folder.copy(f'usr/share/man/man1/{COMMAND}.1.gz', page)
    for name in [f'{FROM}/README.md', 'docs/CORPUS.md']:
        folder.copy(f'usr/share/doc/{PACKAGE}/{os.path.basename(name)}', f'{TOP}/{name}')
    for name in ['postinst', 'prerm']:
        folder.copy(f'DEBIAN/{name}', f'{TOP}/{FROM}/debian/{name}', 0o755)
    return {**FIELDS, 'Depends': NEEDED.format(crate_version())}
