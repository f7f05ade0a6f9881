"""The manual: a page of each program, which must say what the program tells of itself."""
import os
import re
import subprocess

from packing import HERE, Refused, crate_version, filled, output, read

# The program whose words are fixed: it tells of itself only where they are wrong.
SILENT = 'rast'


def source(name: str) -> str:
    """The page of a program, in the form that scdoc reads."""
    shared = {it[:-4].upper(): read(f'release/man/parts/{it}').rstrip('\n') for it in os.listdir(f'{HERE}/man/parts')}
    return filled(read(f'release/man/{name}.scd'), {**shared, 'VERSION': crate_version()})


def made(name: str, epoch: int) -> bytes:
    """The page of a program, as a system reads it."""
    done = subprocess.run(['scdoc'], input=source(name).encode(), stdout=subprocess.PIPE, check=False,
                          env={**os.environ, 'SOURCE_DATE_EPOCH': str(epoch)})
    if done.returncode:
        raise Refused(f'scdoc refuses release/man/{name}.scd')
    return done.stdout


def plain(text: str) -> str:
    """A part of a page without its marks."""
    return re.sub(r'\\(.)|[*_]|\+\+$', lambda it: it[1] or '', text, flags=re.M)


def section(name: str, head: str) -> str:
    """The text of a section."""
    found = re.search(rf'(?ms)^# {head}\n\n(.*?)\n*(?=^# |\Z)', source(name))
    if not found:
        raise Refused(f'release/man/{name}.scd has no section {head}')
    return found[1]


def usage(name: str) -> str:
    """What a program says of its words, by the synopsis of its page."""
    lines = plain(section(name, 'SYNOPSIS')).split('\n')
    return 'usage: ' + '\n       '.join(lines) + '\n'


def options(name: str) -> list[str]:
    """The words that the page explains."""
    return [plain(it) for it in re.findall(r'(?m)^([*_][^\t\n]+)\n\t', section(name, 'OPTIONS'))]


def check(name: str, program: str) -> None:
    """Refuses a program that tells of itself something else than its page."""
    if name == SILENT:
        done = subprocess.run([program], stdout=subprocess.PIPE, stderr=subprocess.PIPE, text=True, check=False)
        if (done.returncode, done.stdout, done.stderr) != (2, '', usage(name)):
            raise Refused(f'{name} says other words than release/man/{name}.scd')
        return
    said = output([program, '--help'])
    missing = [it for words in options(name) for it in words.split(', ') if not re.search(rf'(?m)^  {it}\b', said)]
    if not said.startswith(usage(name) + '\n') or missing:
        raise Refused(f'{name} --help is not as release/man/{name}.scd says: {" ".join(missing) or "its first lines"}')
    if output([program, '--version']) != f'{name} {crate_version()}\n':
        raise Refused(f'{name} --version is not {crate_version()}')
