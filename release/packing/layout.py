"""What a program that calls the shared library was compiled with: the calls, structs and numbers of the header.

`librap0.layout` is the list of the last release. What stands in it must not change while the number in the library's
name stays: a caller that was compiled before would read and write at wrong places. `librap0.symbols` lists the calls,
each with the version that has it first."""
import re
import tempfile

from packing import HERE, TOP, Refused, output, read

# The node of the names' versions, which has the number of the library.
NODE = 'RAP_0'

# What changes with each release.
VERSIONS = 'RAP_VERSION'


def symbols() -> list[str]:
    """The calls that the list of symbols has."""
    return re.findall(rf'(?m)^ (rap_\w+)@{NODE} ', read('release/librap0.symbols'))


def header() -> str:
    """The header without comments and without what it includes."""
    text = re.sub(r'/\*.*?\*/', '', read('include/rap_kinds.h') + read('include/rap.h'), flags=re.DOTALL)
    text = re.sub(r'static inline.*?\n}', '', text, flags=re.DOTALL)
    return re.sub(r'(?m)^ *#.*', '', text)


def calls() -> dict[str, str]:
    """The calls by their names, each with its types alone."""
    found = {}
    for result, name, parameters in re.findall(r'((?:struct )?\w+)\s+(rap_\w+)\(([^)]*)\);', header()):
        types = [re.sub(r'\w+$', '', it.strip()).strip() if it.strip() != 'void' else 'void'
                 for it in re.sub(r'\s+', ' ', parameters).split(',')]
        found[name] = f'{result} {name}({", ".join(types)})'
    return found


def declared() -> list[str]:
    """The names of the calls, except those that the header itself defines."""
    return sorted(calls())


def asked() -> list[tuple[str, str]]:
    """What the list has besides the calls: each name, with C's expression of its number."""
    found = []
    for name, fields in re.findall(r'struct (\w+) \{([^}]*)\}', header()):
        found.append((f'struct {name}: bytes', f'sizeof(struct {name})'))
        for kind, field in re.findall(r'(\w+) (\w+);', fields):
            found.append((f'struct {name}: {kind} {field} at', f'offsetof(struct {name}, {field})'))
    for values in re.findall(r'enum \w*\s*\{([^}]*)\}', header()):
        found += [(it, it) for it in re.findall(r'\bRAP_\w+(?=\s*[=,}]|\s*$)', re.sub(r'=[^,]*', '=', values))]
    macros = re.findall(r'(?m)^ *#define (RAP_\w+) +\S', read('include/rap_kinds.h') + read('include/rap.h'))
    return found + [(it, it) for it in macros if not it.startswith(VERSIONS)]


def layout() -> list[str]:
    """The list of the header as it is."""
    rows = asked()
    lines = ''.join(f'    printf("%s %lld\\n", "{name}", (long long)({number}));\n' for name, number in rows)
    with tempfile.TemporaryDirectory() as folder:
        with open(f'{folder}/layout.c', 'w', encoding='ascii') as file:
            file.write('#include <stddef.h>\n#include <stdio.h>\n#include "rap.h"\n'
                       f'int main(void) {{\n{lines}    return 0;\n}}\n')
        words = ['-std=c11', '-Wall', '-Wextra', '-Werror', '-pedantic', f'-I{TOP}/include']
        output(['cc', *words, 'layout.c', '-o', 'layout'], folder)
        numbers = output(['./layout'], folder).splitlines()
    return sorted([*numbers, *calls().values()])


def check() -> list[str]:
    """Refuses a header that callers of this library's number no longer fit. Returns what the last release has not."""
    if sorted(symbols()) != declared():
        differ = sorted(set(symbols()) ^ set(declared()))
        raise Refused(f'release/librap0.symbols and include/rap.h have not the same calls: {" ".join(differ)}')
    kept, found = read('release/librap0.layout').splitlines(), layout()
    gone = [it for it in kept if it not in found]
    if gone or not kept:
        raise Refused('include/rap.h has not what callers of librap.so.0 were compiled with: ' + '; '.join(gone[:5]))
    return [it for it in found if it not in kept]


def keep() -> None:
    """Writes the list of the header as it is, as that of the last release."""
    with open(f'{HERE}/librap0.layout', 'w', encoding='ascii') as file:
        file.write(''.join(f'{it}\n' for it in layout()))
