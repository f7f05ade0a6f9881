"""The libraries: the static one with the kit's memory functions within, and the shared one that is made of it.

Either exports the calls that the header declares, and nothing else."""
import shutil

from packing import HERE, Refused, bytes_of, output
from packing.layout import NODE, check, declared

SONAME = 'librap.so.0'

# The commands, in a folder that has librap_c.a and liblibc_c.a.
COMMANDS = ['ar x librap_c.a', 'ar x liblibc_c.a', 'ld -r rap_c.o heap.pic.o -o whole.o',
            'objcopy --keep-global-symbols=names --strip-unneeded whole.o rap.o', 'ar rcsD librap.a rap.o',
            'cc -shared rap.o -Wl,-soname,librap.so.0 -Wl,--version-script=versions -Wl,-z,relro,-z,now,-z,defs'
            ' -Wl,-z,noexecstack -Wl,--build-id=sha1 -o librap.so.0',
            'strip --strip-unneeded librap.so.0']


def exported(words: list[str], folder: str) -> list[str]:
    """The names that a library exports, as nm prints them."""
    lines = output(['nm', '--defined-only', '--format=posix', '--extern-only', *words], folder).split('\n')
    return sorted(it.split()[0].split('@')[0] for it in lines if len(it.split()) > 1 and it.split()[1] != 'A')


def make_libraries(library: str, memory: str, folder: str) -> None:
    """Makes librap.a and librap.so.0 in a folder, and holds them and the header to what callers expect."""
    check()
    names = declared()
    shutil.copyfile(library, f'{folder}/librap_c.a')
    shutil.copyfile(memory, f'{folder}/liblibc_c.a')
    with open(f'{folder}/names', 'w', encoding='ascii') as file:
        file.write(''.join(f'{it}\n' for it in names))
    with open(f'{folder}/versions', 'w', encoding='ascii') as file:
        file.write(f'{NODE} {{ global: {" ".join(f"{it};" for it in names)} local: *; }};\n')
    for line in COMMANDS:
        output(line.split(' '), folder)
    for words in [['librap.a'], ['--dynamic', SONAME]]:
        if exported(words, folder) != names:
            raise Refused(f'{words[-1]} exports other names than the calls of include/rap.h')


def symbols(folder: str, package_version: str) -> bytes:
    """Debian's file of the names, which dpkg-gensymbols compares with the shared library."""
    output(['dpkg-gensymbols', '-plibrap0', f'-v{package_version}', f'-e{folder}/{SONAME}', '-c4', '-q',
            f'-I{HERE}/librap0.symbols', f'-O{folder}/symbols'], folder)
    if bytes_of(f'{folder}/symbols') != bytes_of(f'{HERE}/librap0.symbols'):
        raise Refused('release/librap0.symbols is not what dpkg-gensymbols finds')
    return bytes_of(f'{HERE}/librap0.symbols')
