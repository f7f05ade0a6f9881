"""The parts of the test of a release, which are tried beside one another, each in a folder of its own."""
import glob
import os
import re
import shutil
import subprocess
import sys
from collections.abc import Callable, Iterator
from concurrent.futures import Future, ThreadPoolExecutor
from contextlib import contextmanager
from typing import Optional

from packing import Refused, output
from packing.python import wheel
from support.left_out import leave_out
from trying import Count, Fresh, Place, make_system, put_samples
from trying.cargo import try_crates
from trying.installed import try_packages, try_tar, try_wheel

# The oldest Debian that the packages are for.
SUITE = 'bookworm'

# What the wheel needs of Debian's Python, and its tests.
MODULES = {'cffi': 'python3-cffi', 'numpy': 'python3-numpy', 'pip': 'python3-pip', 'tqdm': 'python3-tqdm',
           'pytest': 'python3-pytest', 'hypothesis': 'python3-hypothesis'}

# A system that is being made in a folder, which is the result.
System = Future[str]

# The variable that a script finds set which has mounts of its own, and the kilobytes of memory that must be free.
OWN_MOUNTS, FREE = 'RAP_OWN_MOUNTS', 6_000_000


def take_own_mounts() -> None:
    """Starts this script again with mounts of its own, if it may have them: they end with it, however it ends."""
    if os.geteuid() == 0 and OWN_MOUNTS not in os.environ and shutil.which('unshare'):
        if subprocess.run(['unshare', '--mount', 'true'], stderr=subprocess.DEVNULL, check=False).returncode == 0:
            words = ['unshare', '--mount', sys.executable, *sys.argv]
            os.execvpe('unshare', words, {**os.environ, OWN_MOUNTS: 'yes'})


@contextmanager
def folder_in_memory(at: str) -> Iterator[str]:
    """A folder, in memory if there is enough: the files of a system are many, and are made and removed in a moment."""
    os.makedirs(at)
    with open('/proc/meminfo', encoding='ascii') as file:
        found = re.search(r'MemAvailable: +(\d+) kB', file.read())
    words = ['mount', '-t', 'tmpfs', '-o', 'mode=755,size=3g', 'rap', at]
    is_mounted = OWN_MOUNTS in os.environ and found is not None and int(found[1]) > FREE and subprocess.run(
        words, stderr=subprocess.DEVNULL, check=False).returncode == 0
    try:
        yield at
    finally:
        if is_mounted:
            subprocess.run(['umount', '--lazy', at], check=False)


def say(part: str, why: str) -> None:
    """Says that a part is left out, and why."""
    leave_out('release/gate', f'release: left out, as {why}: {part}')


def has(part: str, *tools: str) -> bool:
    """Whether all these tools are there. If not, a line says that the part is left out."""
    missing = [it for it in tools if not shutil.which(it)]
    if missing:
        say(part, f'{" and ".join(missing)} is not there')
    return not missing


def has_modules(part: str) -> bool:
    """Whether Debian's Python has these modules. If not, a line says that the part is left out."""
    lines = 'import sys, importlib.util as it; print(*[n for n in sys.argv[1:] if not it.find_spec(n)])'
    missing = subprocess.run(['/usr/bin/python3', '-c', lines, *MODULES], stdout=subprocess.PIPE, text=True,
                             check=False).stdout.split()
    if missing:
        say(part, f'{" and ".join(MODULES[it] for it in missing)} is not there')
    return not missing


def start_system(pool: ThreadPoolExecutor, at: str, suite: str) -> Optional[System]:
    """Begins to make a fresh system in a folder. If it cannot be made here, a line says what is left out."""
    part = 'the packages in a fresh Debian'
    if not has(part, 'mmdebstrap', 'unshare', 'chroot'):
        return None
    if os.geteuid() != 0:
        say(part, 'only root can enter it')
        return None
    return pool.submit(make_system, at, suite)


def here(count: Count, at: str, path: str = '/usr/bin:/bin') -> Place:
    """A place on this machine, with files and an empty home folder of its own."""
    put_samples(f'{at}/files')
    os.makedirs(f'{at}/home')
    return Place(count, f'{at}/files', f'{at}/home', path)


def cargo_here(count: Count, dist: str, at: str) -> None:
    """Tries the packages for cargo."""
    if has('the packages for cargo', 'cargo', 'rustc', 'cc'):
        compiler = output(['rustc', '--print', 'sysroot']).strip()
        try_crates(here(count, at, f'{compiler}/bin:/usr/bin:/bin'), dist)


def tar_here(count: Count, dist: str, at: str) -> None:
    """Tries the tar file under a prefix."""
    if has('the tar file', 'cc', 'pkg-config'):
        [file] = glob.glob(f'{dist}/rap-*.tar.gz')
        reads, builds = has('the manuals', 'man'), has('the files for CMake', 'cmake', 'make')
        try_tar(here(count, at), file, reads, builds)


def wheel_here(count: Count, dist: str, at: str) -> None:
    """Tries the wheel in a folder."""
    if has('the wheel', '/usr/bin/python3') and has_modules('the wheel'):
        try_wheel(here(count, at), f'{dist}/{wheel()}')


def all_fresh(count: Count, dist: str, system: System) -> None:
    """Tries all packages in a fresh system, once that is made."""
    try:
        fresh = Fresh(count, system.result(), dist)
    except Refused as why:
        say('the packages in a fresh Debian', f'no mirror of Debian gives a system ({str(why).splitlines()[-1]})')
        return
    try_wheel(fresh, f'/release/{wheel()}')
    try_packages(fresh)
    try_tar(fresh, '/release/rap-*.tar.gz', False, True)


def try_all(dist: str, work: str, system: Optional[System]) -> int:
    """Tries the packages of a folder, here and in a fresh system if there is one. Prints how much passed and failed.
    Returns the status."""
    output(['sha256sum', '--check', '--strict', '--quiet', 'SHA256SUMS'], dist)
    parts: list[Callable[[Count, str, str], None]] = [cargo_here, tar_here, wheel_here]
    counts = [Count() for _ in range(len(parts) + 1)]
    with ThreadPoolExecutor() as pool:
        tried = [pool.submit(part, count, dist, f'{work}/{part.__name__}') for part, count in zip(parts, counts)]
        if system:
            tried.append(pool.submit(all_fresh, counts[-1], dist, system))
        for it in tried:
            it.result()
    passed, failed = sum(it.passed for it in counts), sum(it.failed for it in counts)
    print(f'{passed} passed, {failed} failed')
    return 1 if failed or not passed else 0
