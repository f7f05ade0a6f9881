"""Where the tests of a release run lines of the shell, and how they count."""
import glob
import json
import os
import re
import shutil
import subprocess
import textwrap
from collections.abc import Sequence

from packing import TOP, output, read
from packing.source import SERVER

# What the fresh system has beside the packages: a compiler, what finds a library for it, a reader of manuals, and what
# the package for Python needs and is tested with.
WITH = ','.join(['gcc', 'libc6-dev', 'pkgconf', 'cmake', 'make', 'man-db', 'python3-cffi', 'python3-numpy',
                 'python3-tqdm', 'python3-pip', 'python3-pytest', 'python3-hypothesis'])

# The tests of the package for Python that need no file of the repository.
TESTS = ['test_tree.py', 'test_properties.py']

# Enters the system, with /proc in it for as long as what is started lives.
ENTER = ['unshare', '--mount', 'sh', '-c', 'mount -t proc proc "$0/proc" && exec chroot "$0" "$@"']

# What changes in a system while any package is installed and removed.
CHANGING = re.compile(r'(var/(lib/(dpkg|apt|man-db)|cache|log)|etc/ld\.so\.cache|tmp|dev|proc|sys|release)(/|$)')


# The items of a file, as the database has them that rap-corpus makes.
ITEM = '''import sqlite3
found = sqlite3.connect("items.sqlite").execute("SELECT kind, items.path, first_line, last_line FROM items JOIN files "
    "USING (digest) WHERE files.path LIKE '%hello.rs'")
print(found.fetchall())
'''


class Count:
    """How much passed and failed, and what was left out."""

    def __init__(self) -> None:
        self.passed, self.failed = 0, 0

    def check(self, holds: bool, what: str) -> None:
        """Counts what holds, and names what does not."""
        self.passed, self.failed = self.passed + int(holds), self.failed + int(not holds)
        if not holds:
            print(what, flush=True)


class Place:
    """Where lines of the shell run, with nothing of the caller's environment. `files` is the folder of the samples."""

    def __init__(self, count: Count, files: str, home: str, path: str, enter: Sequence[str] = ()) -> None:
        self.count, self.files, self.home, self.path, self.enter = count, files, home, path, enter

    def run(self, line: str, folder: str = '') -> tuple[int, str, str]:
        """The status of a line, and what it prints on both streams."""
        words = [*self.enter, '/usr/bin/env', '-i', f'PATH={self.path}', f'HOME={self.home}', 'LC_ALL=C.UTF-8',
                 'DEBIAN_FRONTEND=noninteractive', 'bash', '-c', f'cd {folder or self.files} && {line}']
        done = subprocess.run(words, stdin=subprocess.DEVNULL, stdout=subprocess.PIPE, stderr=subprocess.PIPE,
                              text=True, check=False)
        return done.returncode, done.stdout, done.stderr

    def succeeds(self, line: str, folder: str = '') -> bool:
        """Whether a line has the status 0. If not, its words are printed."""
        status, out, err = self.run(line, folder)
        self.count.check(status == 0, f'{line}: the status {status}\n{out}{err}'.rstrip())
        return status == 0

    def prints(self, line: str, wanted: str, folder: str = '') -> None:
        """Tests that a line prints this, with the status 0."""
        status, out, err = self.run(line, folder)
        is_so = (status, out, err) == (0, wanted, '')
        self.count.check(is_so, f'{line}: the status {status}, and not what is wanted\n{out}{err}'.rstrip())

    def is_free(self) -> None:
        """Tests that neither the kit nor a program of the release is found."""
        for name in ['rt', 'rast']:
            self.count.check(self.run(f'command -v {name}')[0] != 0, f'{name} is there before')


def shown_in_python() -> list[str]:
    """The program in Python that README shows, and what it prints."""
    part = read('README.md').split('\n## From Python\n')[1].split('\n## ')[0]
    found = re.findall(r'(?m)(?:^    .*\n|^\n(?=    ))+', part)[:2]
    return [textwrap.dedent(it).strip('\n') + '\n' for it in found]


def deep_exchange() -> str:
    """What an editor sends that opens a text which nests 60,000 levels deep, and ends. Two requests are answered, and
    the messages about the text come between."""
    text = 'fn f() { ' + '(' * 60000
    document = {'uri': 'file:///a.rs', 'languageId': 'rust', 'version': 1, 'text': text}
    sent: list[dict[str, object]] = [
        {'id': 1, 'method': 'initialize', 'params': {'capabilities': {}}},
        {'method': 'textDocument/didOpen', 'params': {'textDocument': document}},
        {'id': 2, 'method': 'shutdown'}, {'method': 'exit'}]
    lines = [json.dumps({'jsonrpc': '2.0', **it}) for it in sent]
    return ''.join(f'Content-Length: {len(it)}\r\n\r\n{it}' for it in lines)


def put_samples(folder: str) -> None:
    """Writes the files that the programs are run on."""
    os.makedirs(folder)
    for file in [*glob.glob(f'{TOP}/crates/rast*/data/*.rs'), f'{TOP}/examples/data/outline.rs']:
        shutil.copy(file, folder)
    for name in TESTS:
        shutil.copy(f'{TOP}/bindings/python/tests/{name}', folder)
    with open(f'{folder}/shown.py', 'w', encoding='utf-8') as out:
        out.write(shown_in_python()[0])
    with open(f'{folder}/item.py', 'w', encoding='ascii') as out:
        out.write(ITEM)
    with open(f'{folder}/a.rs', 'w', encoding='ascii') as out:
        out.write('7')
    for name, end in [('stdin', 'sent'), ('stdout', 'answered')]:
        shutil.copy(f'{TOP}/crates/{SERVER}/{name}', f'{folder}/{SERVER}.{end}')
    with open(f'{folder}/{SERVER}.deep', 'w', encoding='ascii', newline='') as out:
        out.write(deep_exchange())


def make_system(at: str, suite: str) -> str:
    """Makes a fresh minimal Debian in a folder, which is returned."""
    output(['mmdebstrap', '--quiet', '--variant=apt', '--dpkgopt=force-unsafe-io', f'--include={WITH}', suite, at])
    return at


class Fresh(Place):
    """A fresh system in a folder, with the release in /release."""

    def __init__(self, count: Count, at: str, dist: str) -> None:
        shutil.copytree(dist, f'{at}/release')
        put_samples(f'{at}/release/files')
        super().__init__(count, '/release/files', '/root', '/usr/sbin:/usr/bin:/sbin:/bin', [*ENTER, at])
        self.at = at

    def all(self) -> set[str]:
        """All files, except those that change while any package is installed."""
        found = (os.path.relpath(f'{at}/{it}', self.at) for at, folders, files in os.walk(self.at)
                 for it in folders + files)
        return {it for it in found if not CHANGING.match(it)}
